"""The crates of crates.txt beside the table of docs/ARCHITECTURE.md and the list of docs/PROVED.md."""

import os
import re

from surface import TOP, dependencies, read

TABLE = "docs/ARCHITECTURE.md"
LIST = "docs/PROVED.md"


def rows():
    """Of each row of the table its crate, what that stands on, and its definitions."""
    for line in read(TABLE).splitlines():
        cells = [it.strip() for it in line.split("|")[1:-1]]
        if len(cells) == 4 and re.fullmatch(r"`\w+`", cells[0]):
            yield cells[0].strip("`"), re.findall(r"`(\w+)`", cells[1]), re.findall(r"`(\w+)`(?!'s)", cells[3])


def twice(page, names):
    return [f"docs/{page} lists {name} twice" for name in sorted(set(names)) if names.count(name) > 1]


def table_faults():
    """What differs between the table and the crates, their libraries and their definitions."""
    crates, told = dependencies(), list(rows())
    names = [name for name, _, _ in told]
    found = [f"docs/ARCHITECTURE.md has no row of {name}" for name in crates if name not in names]
    found += [f"docs/ARCHITECTURE.md has a row of {name}, which is no crate" for name in names if name not in crates]
    found += twice("ARCHITECTURE.md", names)
    for name, libraries, definitions in told:
        given = [it for it in crates.get(name, libraries) if it in crates]
        found += [f"docs/ARCHITECTURE.md: {name} does not stand on {it}" for it in libraries if it not in given]
        found += [f"docs/ARCHITECTURE.md: {name} stands on {it} too" for it in given if it not in libraries]
        for it in definitions:
            if not os.path.isfile(f"{TOP}/crates/{name}/specs/{it}.antt"):
                found.append(f"docs/ARCHITECTURE.md: {name} has no specs/{it}.antt")
        if not definitions and os.path.isdir(f"{TOP}/crates/{name}/specs"):
            found.append(f"docs/ARCHITECTURE.md names no definitions of {name}")
    return found


def list_faults():
    """What differs between the crates and those that docs/PROVED.md begins its points with."""
    heads = re.findall(r"^- ((?:`\w+`(?:, )?)+):", read(LIST), re.M)
    crates, listed = dependencies(), [name for head in heads for name in re.findall(r"\w+", head)]
    return [
        *(f"docs/PROVED.md does not list {name}" for name in crates if name not in listed),
        *(f"docs/PROVED.md lists {name}, which is no crate" for name in sorted(set(listed) - set(crates))),
        *twice("PROVED.md", listed),
    ]


def faults():
    return table_faults() + list_faults()
