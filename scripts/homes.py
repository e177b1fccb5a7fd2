#!/usr/bin/env python3
"""The facts that have one home, and where they stand a second time.

    scripts/homes.py

The number, the name and the status of a refusal, a keyword, the name and the kind of a field type and a limit stand
once in the code and once in the definitions, in the files that HOMES names, and so do the edges of tiles and the
distance of two coordinates; a limit stands where its constant does, which docs/LIMITS.md names. All else says these
facts by their names. This reads `src` and `specs` of the crates that hold code, without comments, and prints every line
that says one of them again; every arm that answers want of memory to another error; and every function, definition and
enum that stands in two crates, whatever the names in it (`doubles.py`). It ends with status 1 where there is one, and
`scripts/check.py` fails.
"""

import functools
import os
import re
import sys

sys.dont_write_bytecode = True

import doubles
import limits
import refusals
from surface import TOP, crates, dependencies, read, source

REFUSALS = {"arr_core/src/refusal.rt", "arr_core/specs/Refusals.antt"}
HOMES = {
    "the number of a refusal": REFUSALS,
    "the name of a refusal": REFUSALS,
    "the status of a refusal": REFUSALS,
    "a keyword": {"arr_core/src/keyword.rt", "arr_core/specs/Keywords.antt"},
    "the name of a field type": {"arr_core/src/cell.rt", "arr_core/specs/Cells.antt"},
    "the kind of a field type": {"arr_core/src/cell.rt", "arr_core/specs/Cells.antt"},
    "a limit": REFUSALS,
    "the edge of a tile": {"arr_core/src/tile.rt", "arr_core/specs/Tiles.antt"},
    "the distance of two coordinates": {"arr_core/src/axes.rt", "arr_core/specs/Domains.antt"},
    "an error that is told as want of memory": set(),
}

# Words that are spelled as keywords and mean something else: the keys of requests, and the values of cells.
NO_KEYWORDS = {"kvp_front": {"coverage", "values", "true", "false"}, "csv_out": {"true", "false"}}

# In the definitions of these crates a number of two digits is that of a refusal, but behind these words.
SPEAK_OF_REFUSALS = {"kvp_front", "http_front", "coverage_server", "rasterd"}
NO_REFUSAL = re.compile(
    r"(\bis_byte|\bcut_at|\b[bc] (==|≢|≡)|[Dd]igits(_in|_value)?|\bIsNumeral|number_at( \d+)?|Overflows"
    r"|nat_l[et] (\w+|\([^()]*\))|[≤<]|^max_\w+ =) $"
)
SAYS_REFUSAL = re.compile(
    r"(\b(\w*[Rr]efus\w*|[Nn]umbered|from_number|Err)\b[ (:=]*|\b(code|number)\w* (≡|==) |_[A-Z]+: u16 = )$"
)
NUMERAL = re.compile(r"(?<![\w.])(?<!\^ )\d[\d_]*(?!\w)")
POWER = re.compile(r"(?<!\w)2 \^ (\d+)")
DEFINED = re.compile(r"(max_\w+) = (.*)")
# What a clause, a definition or code compares with; a number in a sum or a product is another one.
CLAUSE = re.compile(r" *(?:requires|ensures|ghost)\b")
COMPARED = re.compile(
    "|".join(
        [
            r"[≤<]ℤ? (?:pos )?(\d+)\b(?! [\^*+-])",
            r"(?<![\^*+-] )(?<![\w.])(\d+) [≤<]",
            r"\bnat_l[et] (?:[\w.]+|\([^()]*(?:\([^()]*\)[^()]*)*\)) (\d+)\b",
            r"\bnat_l[et] (\d+)\b",
            r"\bnegsuc (\d+)\b",
        ]
    )
)
COUNTED = re.compile(r"(?<![=-])(?:[<>]=?|[=!]=) (\d[\d_]*)\b(?! [*+-])")
LITERAL = re.compile(r'"(\w+)"')
COMMENT = re.compile(r"(^|\s)(//|--)(\s|[/!]|$).*")
KIND = re.compile(r"\b(FieldType::|kinds?\.)(Bool|U8|I16|I32|I64)\b[^=]*=>? (true|false)\b")
NO_MEMORY = "NoMemory"
ARM = rf"\b(?:%s)\b[^\n=]* =>\s*(?:\{{\s*)?(?:return )?[^\n,;]*\b(?:{NO_MEMORY}|AllocError)\b"
# Coordinates have 32 bits, and their distance is taken in 64; in definitions it is the magnitude of a difference.
DISTANCE = re.compile(
    r"\bas i64\)? - \(?[\w.*]+ as i64\b|\bhi\b(?: as \w+)?\)? - |\bhi\.(?:\w+_)?sub\w*\(|\babs_diff\("
    r"|\bnat_abs \([^()]*-ℤ|\bhi -ℤ |-ℤ [\w.]*\blo\b"
)
TYPE_NAME = re.compile(r'FieldType::\w+ => "(\w+)",')
KEYWORD = re.compile(r'Keyword::\w+ => "(\w+)",')

# The ends of the types of integers, and a number that is two limits, the cells of a tile and the bytes of a block.
ENDS = {2**bits - less for bits in (8, 15, 31, 32, 63, 64) for less in (0, 1)} | {2**16 - 1}
SHARED = {4096} | ENDS


def files(crate, part):
    """The files of a part of a crate, with their texts."""
    for at, folders, names in os.walk(f"{TOP}/crates/{crate}/{part}"):
        folders.sort()
        for path in sorted(os.path.relpath(f"{at}/{name}", f"{TOP}/crates") for name in names):
            yield path, read(f"crates/{path}")


@functools.cache
def texts(crate):
    """The files of a crate's code and definitions, with their texts without comments."""
    return [
        (path, "".join(f"{COMMENT.sub('', it)}\n" for it in text.splitlines()))
        for part in ("src", "specs")
        for path, text in files(crate, part)
    ]


def lines(crate):
    """The lines of a crate's code and definitions without comments: the file, the number, the text."""
    for path, text in texts(crate):
        yield from ((path, number, line) for number, line in enumerate(text.splitlines(), 1) if line)


def numerals(text):
    """The numbers in a line, each with what stands before it."""
    return [(int(it[0].replace("_", "")), text[: it.start()]) for it in NUMERAL.finditer(text)]


def spelled(name):
    """A refusal's name, as of a variant or of a constant."""
    return re.compile(rf"\b({name}|{re.sub('(?<=[a-z])(?=[A-Z])', '_', name).upper()})\b")


@functools.cache
def named():
    return {number: spelled(name) for number, name in refusals.names().items()}


def is_refusal(number, before, text, is_strict):
    """Whether a number in a line is that of a refusal: behind a word that says so, beside the refusal's name, or where
    nothing else is meant."""
    if SAYS_REFUSAL.search(before):
        return True
    if NO_REFUSAL.search(before):
        return False
    return bool(named()[number].search(text)) or is_strict and number > 9


def says_number(path, text):
    text = re.sub(r'"[^"]*"', '""', text)
    is_strict = path.split("/")[0] in SPEAK_OF_REFUSALS and "/specs/" in path
    return any(is_refusal(it, before, text, is_strict) for it, before in numerals(text) if it in named())


def says_name(_, text):
    return any(it in refusals.names().values() for it in LITERAL.findall(text))


def says_status(_, text):
    return any(number in refusals.statuses().values() for number, _ in numerals(text))


@functools.cache
def keywords():
    return KEYWORD.findall(source("arr_core", "keyword"))


@functools.cache
def type_names():
    return TYPE_NAME.findall(source("arr_core", "cell"))


def says_keyword(path, text):
    return any(it in keywords() and it not in NO_KEYWORDS.get(path.split("/")[0], ()) for it in LITERAL.findall(text))


def says_type(_, text):
    return any(it in type_names() for it in LITERAL.findall(text))


def says_kind(_, text):
    return bool(KIND.search(text))


@functools.cache
def owners():
    """Of each number past a thousand that is a limit the crates that docs/LIMITS.md has with a constant of that
    value."""
    found = {value: set() for _, value, _ in limits.rows(of_limits=True) if value > 1000 and value not in SHARED}
    for _, value, where in limits.rows():
        places = [(other, file) for _, other, file in limits.NAMED.findall(where)]
        for other, file in places + [("", it) for it in limits.BARE.findall(where)]:
            found.get(limits.number(other) if other else value, set()).add(file.split("/")[0])
    return found


@functools.cache
def limits_below():
    """Of each crate the numbers past the five ranks of operators that it or one below it has as a limit: a word of its
    definitions, or a constant `MAX_..`."""
    own = {it: set() for it in crates()}
    for (file, name), value in limits.constants().items():
        own[file.split("/")[0]] |= {value} if name.startswith("MAX_") else set()
    for crate in crates():
        told = [DEFINED.match(text)[2] for path, _, text in lines(crate) if DEFINED.match(text) and "/specs/" in path]
        own[crate] |= {int(it) for it in told if it.isdigit()}
    return {
        it: {n for n in own[it].union(*(own.get(other, ()) for other in dependencies()[it])) if 5 < n} for it in own
    }


@functools.cache
def constants_beside():
    """Of each file of code the numbers that its constants are."""
    found = {}
    for (file, _), value in limits.constants().items():
        crate, _, module = file.partition("/")
        found.setdefault(f"{crate}/src/{module}", set()).add(value)
    return {path: {it for it in told if 5 < it} for path, told in found.items()}


def compared(path, text):
    """The numbers that a line compares something with; in code those that are no end of a type of integers."""
    if path.endswith(".antt") or CLAUSE.match(text):
        return [int("".join(it)) for it in COMPARED.findall(text)]
    return [it for it in map(int, COUNTED.findall(text)) if it not in ENDS]


def says_limit(path, text):
    """Whether a line has a limit as a number: in a crate that has no constant of that value, or in a comparison one
    that the crate or one below it has, or that is a constant of the file."""
    crate = path.split("/")[0]
    found = [number for number, _ in numerals(text)] + [2 ** int(it) for it in POWER.findall(text) if it != "16"]
    known = limits_below()[crate] | constants_beside().get(path, set())
    return any(crate not in owners()[it] for it in found if it in owners()) or any(
        it in known for it in compared(path, text)
    )


SAYS = dict(zip(HOMES, (says_number, says_name, says_status, says_keyword, says_type, says_kind, says_limit)))


@functools.cache
def edge_arms():
    """The arms of `edge_of` in the code: a number of axes, or `_` for all others, and the edge or its name."""
    body = source("arr_core", "tile").partition("\nfn edge_of")[2].partition("\n}")[0]
    return re.findall(r"^ +(?:\d \| )*(\w) => (\w+),", body, re.M)


def edges():
    """What says the edge of a tile by a number of axes: an arm or a condition, or a list of them all."""
    there, told = limits.constants(), [(axes, edge) for axes, edge in edge_arms() if axes.isdigit()]
    for k, (axes, edge) in enumerate(told):
        if not edge.isdigit():
            told[k] = (axes, f"(?:{edge}|{edge.lower()}|{there['arr_core/tile.rt', edge]})")
    each = [rf"\b{axes}(?: =>|\)? then|\)? \{{)\s+{edge}\b" for axes, edge in told]
    return re.compile("|".join([*each, r"(?:,| ∷)\s+".join(edge for _, edge in told)]))


@functools.cache
def arms():
    """What answers want of memory to a variant of another name, of an error that has one for it."""
    errors = [shape for crate in crates() for _, text in texts(crate) for *_, (_, shape) in doubles.enums(text)]
    found = {re.match(r"\w+", it)[0] for shape in errors if NO_MEMORY in shape for it in shape}
    return re.compile(ARM % "|".join(sorted(found - {NO_MEMORY})))


def spread(path, text):
    """What a text says, also over several lines: the fact, the number of the last line, the words."""
    said = {
        "the edge of a tile": edges(),
        "the distance of two coordinates": DISTANCE,
        "an error that is told as want of memory": arms(),
    }
    for fact, pattern in said.items():
        if path not in HOMES[fact]:
            for it in pattern.finditer(text):
                yield fact, text.count("\n", 0, it.end()) + 1, " ".join(it[0].split())


def unnamed():
    """The rows of docs/LIMITS.md whose limit has other than one constant, or one of another name than `MAX_`.."""
    for what, _, where in limits.rows(of_limits=True):
        found = limits.NAMED.findall(where)
        if len(found) != 1 or limits.BARE.search(where):
            yield what, f"{len(found)} constants, and {len(limits.BARE.findall(where))} bare numbers"
        elif not found[0][0].startswith("MAX_"):
            yield what, f"{found[0][0]} does not begin with MAX_"


def shapes():
    """Where each function, definition and enum stands, by its shape: the file and the name, and the line."""
    found = {}
    for crate in crates():
        for path, text in texts(crate):
            for read_all in (doubles.functions, doubles.enums) if path.endswith(".rt") else (doubles.definitions,):
                for name, at, shape in read_all(text):
                    found.setdefault(shape, {})[f"{path} {name}"] = text.count("\n", 0, at) + 1
    return found


def are_doubles(places):
    """Whether places are of several crates."""
    return len({it.split("/")[0] for it in places}) > 1


def copies():
    """What stands in two crates."""
    there = {shape: places for shape, places in shapes().items() if are_doubles(places)}
    for (what, _), places in there.items():
        for it in sorted(places):
            path, name = it.split()
            other = next(place for place in places if are_doubles([place, it])).split()
            yield f"{path}:{places[it]}: {name}: {what}, as {other[1]} in {other[0]}"


def faults():
    """What is said a second time."""
    yield from (f"docs/LIMITS.md: {what}: {told}" for what, told in unnamed())
    defined = {}
    for crate in crates():
        for path, number, text in lines(crate):
            if limit := DEFINED.match(text):
                defined.setdefault(limit[1], []).append(f"{path}:{number}")
            for fact, says in SAYS.items():
                if path not in HOMES[fact] and says(path, text):
                    yield f"{path}:{number}: {fact}: {text.strip()}"
        for path, text in texts(crate):
            for fact, number, said in spread(path, text):
                yield f"{path}:{number}: {fact}: {said}"
    for name, places in defined.items():
        if len(places) > 1:
            yield from (f"{it}: {name} is defined {len(places)} times" for it in places)
    yield from copies()


def main():
    found = list(faults())
    print(*found, sep="\n", end="\n" if found else "")
    return 1 if found else 0


if __name__ == "__main__":
    sys.exit(main())
