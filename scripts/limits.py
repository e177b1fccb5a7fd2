"""The whole numbers that the crates which hold code have as constants, beside docs/LIMITS.md.

A row of the page has a value, and a cell with the places where it stands: `NAME` in `crate/file.rt`, with `= VALUE`
behind the name where that constant has another value than the row; or the number in `crate/file.rt`, where it has no
name.
"""

import re

from surface import crates, modules, read, source

PAGE = "docs/LIMITS.md"
NO_LIMITS = "## Numbers that are no limits"
CONSTANT = re.compile(r"^ *(?:pub(?:\([a-z]+\))? )?const (\w+): [ui](?:8|16|32|64|128|size) = ([^;]+);", re.M)
NAMED = re.compile(r"`(\w+)`(?: = ([\d,]+))? in `([\w/]+\.rt)`")
BARE = re.compile(r"the number in `([\w/]+\.rt)`")
MOST = {f"u{bits}::MAX": 2**bits - 1 for bits in (8, 16, 32, 64)}


def number(text):
    return int(text.replace(",", "").replace("_", ""))


def value(text, others):
    """What a constant's expression is: a number, the end of a type, or one of those before it and something more."""
    parts = [it.strip() for it in text.split("+")]
    return sum(MOST[it] if it in MOST else others[it] if it in others else number(it) for it in parts)


def constants():
    """Each constant by its file and its name."""
    found = {}
    for crate in crates():
        for module in modules(crate):
            file, others = f"{crate}/{module}.rt", {}
            for name, text in CONSTANT.findall(source(crate, module)):
                others[name] = value(text, others)
                found[file, name] = others[name]
    return found


def rows(of_limits=False):
    """Of each row of the page what it is about, its value and the places that it names; of its limits alone where it is
    asked."""
    text = read(PAGE).partition(NO_LIMITS if of_limits else "\0")[0]
    cells = [[it.strip() for it in line.split("|")[1:-1]] for line in text.splitlines() if line.startswith("| ")]
    for what, first, where, *_ in cells:
        if given := re.match(r"-?\d[\d,]*", first):
            yield what, number(given[0]), where


def code(file):
    """The text of a file without its comments and clauses."""
    crate, _, module = file.removesuffix(".rt").partition("/")
    return re.sub(r"^ *(//|requires|ensures|ghost).*$", "", source(crate, module), flags=re.M)


def faults():
    """Where the page and the constants differ."""
    there, told, found = constants(), {}, []
    for what, least, where in rows():
        named = NAMED.findall(where)
        for name, other, file in named:
            if (file, name) in told:
                found.append(f"docs/LIMITS.md has {name} in {file} twice")
            told[file, name] = number(other) if other else least
        bare = BARE.findall(where)
        for file in bare:
            if least not in [number(it) for it in re.findall(r"(?<![\w.])\d[\d_]*", code(file))]:
                found.append(f"docs/LIMITS.md: {what}: the number {least} stands nowhere in {file}")
        if not named and not bare:
            found.append(f"docs/LIMITS.md: {what}: no place")
    for (file, name), is_so in there.items():
        if (file, name) not in told:
            found.append(f"docs/LIMITS.md lacks {name} in {file}, which is {is_so}")
        elif told[file, name] != is_so:
            found.append(f"docs/LIMITS.md says {told[file, name]} of {name} in {file}, which is {is_so}")
    return found + [f"docs/LIMITS.md has {name} in {file}, which is not there" for file, name in set(told) - set(there)]
