"""The names between backticks in the documents on the code, beside the code: each has to be there.

A name has an underscore or a capital inside, or is a path of a file. Folders below a crate may be left out of a path.
"""

import os
import re

from homes import files
from surface import TOP, read

PAGES = [
    "ARCHITECTURE",
    "DECISIONS",
    "DEFINITIONS",
    "FILE-FORMAT",
    "GATE",
    "GLOSSARY",
    "LIMITS",
    "OPERATIONS",
    "PROVED",
]
PAGES += ["REFUSALS", "SPEED", "TEMPLATES", "TESTING"]
BESIDE = ("bench", "clients", "deploy", "docs/pictures", "faults", "oracle", "scripts", "web")
PICTURES = (".png", ".svg")
# Folders that git leaves out.
BUILT = {"out", "__pycache__"}
# What is another program's, how statements are named, and how a path is written.
OTHERS = {"RT_JOBS", "IsX", "AreX", "HasX", "crate/file.rt"}
QUOTED = re.compile(r"(?<!`)`([^`\n]+)`(?!`)")
NAME = re.compile(r"(?<![\w$])(?:[A-Za-z]\w*_\w+|[A-Z]+[a-z0-9]+[A-Z]\w*|[a-z]+[A-Z]\w*)\b")
PATH = re.compile(r"[\w./-]+\.(?:rt|antt|py|sh|c|txt|toml|js|edit|conf)")


def walked():
    """The paths of the files of the crates and of what stands beside them."""
    for top in (
        *(f"crates/{it}/{part}" for it in os.listdir(f"{TOP}/crates") for part in ("src", "specs", "proofs")),
        *BESIDE,
    ):
        for at, folders, names in os.walk(f"{TOP}/{top}"):
            folders[:] = [it for it in folders if it not in BUILT]
            yield from (os.path.relpath(f"{at}/{name}", TOP) for name in names)
    yield from ("crates.txt", "pyproject.toml")


def words(paths):
    """The words of the crates' code and definitions, of their names of files, and of what stands beside them."""
    found = {word for path in paths for word in re.findall(r"\w+", path)}
    texts = [
        text for crate in os.listdir(f"{TOP}/crates") for part in ("src", "specs") for _, text in files(crate, part)
    ]
    texts += [read(path) for path in paths if path.startswith(BESIDE) and not path.endswith(PICTURES)]
    return found.union(*(re.findall(r"\w+", text) for text in texts))


def is_there(name, paths):
    """Whether a file has a path with these ends, whatever folders lie between."""
    first, last = name.split("/")[0], "/" + name.split("/")[-1]
    return any(f"/{path}".endswith(last) and first in path.split("/") for path in paths)


def faults():
    paths = sorted(walked())
    there = words(paths)
    found = []
    for page in PAGES:
        for number, line in enumerate(read(f"docs/{page}.md").splitlines(), 1):
            for quoted in QUOTED.findall(line):
                if PATH.fullmatch(quoted):
                    missing = [] if is_there(quoted, paths) else [quoted]
                else:
                    missing = [it for it in NAME.findall(quoted) if it not in there]
                found += [f"docs/{page}.md:{number}: {it} is not there" for it in missing if it not in OTHERS]
    return found
