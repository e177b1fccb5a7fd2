"""What documents, the page, the clients and the independent reading in oracle/ say of keywords, types of fields, limits
and edges of tiles, beside their homes.

docs/LIMITS.md, which `limits.py` compares with the constants, is the home of limits for the other pages.
"""

import importlib
import re
import sys

import limits
from homes import edge_arms, keywords, type_names
from surface import TOP, read

sys.path[:0] = [f"{TOP}/oracle", f"{TOP}/clients/python"]

AXES, POINTS = "axes of a domain, iterators of a list", "points of a domain or of an iterator list"
BRACKETS, FORMS, HEIGHT = "brackets open at once", "words `condense` and `coverage`", "height of a tree"
COMBINATIONS, CELLS, WORK = "combinations of listed coverages", "cells of a result", "work"
NAME, QUERY, FIELDS, COVERAGES = "bytes of a name", "bytes of a query's text", "fields of a coverage", "coverages"
HEAD, HEAD_FIELDS, BODY = "bytes of a head", "fields of a head", "bytes of a body"
JOBS, UNITS, NUMBER = "jobs held", "units of one StepJob", "a number"

# Where a page says limits, and which rows of docs/LIMITS.md these are.
PAGES = [
    ("LANGUAGE", r"query text; a number \| ([\d,]+) bytes; (\d+) ", QUERY, NUMBER),
    ("LANGUAGE", r"height of the tree \| (\d+); (\d+); (\d+) ", BRACKETS, FORMS, HEIGHT),
    ("LANGUAGE", r"work \| (\d+); (2\^\d+); (2\^\d+) ", COMBINATIONS, CELLS, WORK),
    ("LANGUAGE", r"bounds of an axis \| (\d+); (2\^\d+);", AXES, POINTS),
    ("LANGUAGE", r"at most (\d+) in all", NAME),
    ("REFUSALS", r"within ([\d,]+) bytes and (\d+) fields", HEAD, HEAD_FIELDS),
    ("REFUSALS", r"Content-Length is over ([\d,]+)", BODY),
    ("REFUSALS", r"a query of over ([\d,]+) bytes", QUERY),
    ("REFUSALS", r"more than (\d+) axes", AXES),
    ("REFUSALS", r"more than (\d+) fields", FIELDS),
    ("REFUSALS", r"\| ([\d,]+) coverages are held", COVERAGES),
    ("REFUSALS", r"a name of over (\d+) bytes", NAME),
    ("REFUSALS", r"more than (\d+) brackets .* (\d+) words .* higher than (\d+)", BRACKETS, FORMS, HEIGHT),
    ("REFUSALS", r"more than (\d+) iterators, or a box of more than (2\^\d+) points", AXES, POINTS),
    ("REFUSALS", r"work above (2\^\d+)", WORK),
    ("REFUSALS", r"more than (2\^\d+) result cells", CELLS),
    ("REFUSALS", r"more than (\d+) combinations", COMBINATIONS),
    ("REFUSALS", r"\| (\d+) jobs are held", JOBS),
    ("REQUESTS", r"may have ([\d,]+) bytes and a head ([\d,]+)", BODY, HEAD),
    ("REQUESTS", r"at most (2\^\d+) points", POINTS),
    ("REQUESTS", r"1 to ([\d,]+), and answers", UNITS),
    ("REQUESTS", r"(\d+) jobs are held at most", JOBS),
    ("FILE-FORMAT", r"of 4,096 bytes, at most ([\d,]+) of them", "blocks of a file"),
    ("FILE-FORMAT", r"in bytes, at most ([\d,]+) in a closed file", "bytes of metadata"),
]
# The same of the clients and of the page in a browser, by path.
ASK, PARTS = "clients/python/rasterd-ask", "clients/python/rasterd_parts.py"
CLIENTS = [
    ("clients/python/rasterd.py", r"MAX_VALUES = ([\d_]+)", BODY),
    ("clients/python/rasterd-load", r"more than ([\d,]+) cells", POINTS),
    ("clients/python/rasterd-load", r"MOST_POINTS, SIDE = \S+ (2\*\*\d+)", POINTS),
    ("clients/python/rasterd_algebra.py", r"MOST_CELLS, MANY = (2\*\*\d+)", CELLS),
    (PARTS, r"MOST_CELLS = (2\*\*\d+)\nMOST_POINTS = (2\*\*\d+)", CELLS, POINTS),
    (PARTS, r"of the (2\^\d+) that the server takes", WORK),
    ("web/syntax.js", r"MOST_NUMBER = (\d+)n", NUMBER),
    ("web/syntax.js", r"MOST_NAME = (\d+)", NAME),
    ("web/refusals.js", r"at most ([\d,]+) bytes", QUERY),
    ("web/refusals.js", r"number is above (\d+)", NUMBER),
    ("web/refusals.js", r"(?s)More than (\d+) brackets .* (\d+) words .*higher than (\d+)", BRACKETS, FORMS, HEIGHT),
    ("web/refusals.js", r"(?s)more than (\d+) iterators,.*or a box of more than ([\d,]+) points", AXES, POINTS),
    ("web/refusals.js", r"More than ([\d,]+) cells", CELLS),
    ("web/refusals.js", r"More than (\d+) combinations", COMBINATIONS),
    ("web/refusals.js", r"(\d+) jobs are held", JOBS),
]
# The same for the constants of the independent reading, by module and name.
READING = {
    ("language", "MOST_NUMBER"): NUMBER,
    ("language", "MOST_NAME"): NAME,
    ("language", "MOST_DEPTH"): BRACKETS,
    ("language", "MOST_FORMS"): FORMS,
    ("language", "MOST_HEIGHT"): HEIGHT,
    ("meaning", "MOST_AXES"): AXES,
    ("meaning", "MOST_POINTS"): POINTS,
    ("meaning", "MOST_CELLS"): CELLS,
    ("meaning", "MOST_WORK"): WORK,
    ("meaning", "MOST_BOUND"): "bounds of an axis",
    ("meaning", "MOST_COMBINATIONS"): COMBINATIONS,
    ("machine", "MOST_COVERAGES"): COVERAGES,
    ("machine", "MOST_FIELDS"): FIELDS,
    ("machine", "MOST_JOBS"): JOBS,
    ("machine", "MOST_UNITS"): UNITS,
    ("machine", "MOST_RADIUS"): "radius of a focal template",
    ("machine", "MOST_QUERY"): QUERY,
    ("machine", "MOST_HEAD"): HEAD,
    ("machine", "MOST_HEAD_FIELDS"): HEAD_FIELDS,
    ("machine", "MOST_BODY"): BODY,
    ("machine", "MOST_MESSAGES"): "messages of a connection",
    ("store", "MOST_BLOCKS"): "blocks of a file",
    ("store", "MOST_TILE"): "cells of a tile, and of a run",
    ("store", "MOST_AXES_OF_ONE"): "axes of a domain in a file of version 1",
    ("store", "LONGEST_METADATA"): "bytes of metadata",
    ("store", "LONGEST_RUNS"): "bytes of a tile of runs",
    ("store", "LONGEST_RAW"): "bytes of a tile of raw cells",
}


def said(path, pattern):
    """The words of a text where a pattern finds them."""
    found = re.search(pattern, read(path), re.S)
    return re.findall(r"\w+", found[1]) if found else []


def unlike(where, what, told, there):
    """What two sets of words differ in, whatever the case."""
    told, there = {it.lower() for it in told}, {it.lower() for it in there}
    return [f"{where} lacks the {what} {it}" for it in sorted(there - told)] + [
        f"{where} has the {what} {it}, which is none" for it in sorted(told - there)
    ]


def uncompared(modules):
    """The limits of the independent reading that nothing is compared with."""
    told = {name for _, name in READING}
    for module, there in modules.items():
        for name in vars(there):
            if name.startswith(("MOST_", "LONGEST_")) and name not in told:
                yield f"oracle/{module}.py: {name} is compared with no limit"


def value(text):
    """A number as a page has it, as 1,024 or 2^20, or as Python does, as 2**20."""
    power = re.fullmatch(r"2(?:\^|\*\*)(\d+)", text)
    return 2 ** int(power[1]) if power else limits.number(text)


def limits_said(modules):
    """Each limit that a page, a client or the independent reading says: where, which one, and what is said of it."""
    for path, pattern, *named in [(f"docs/{page}.md", *rest) for page, *rest in PAGES] + CLIENTS:
        found = re.search(pattern, read(path))
        yield from ((path, it, found and value(found[k])) for k, it in enumerate(named, 1))
    for (module, name), limit in READING.items():
        yield f"oracle/{module}.py", limit, getattr(modules[module], name)


def other_edges(modules):
    """Where the edges of tiles, by the number of axes, are others than those of `edge_of` in the code."""
    there = limits.constants()
    arms = {axes: there.get(("arr_core/tile.rt", it), it) for axes, it in edge_arms()}
    edges = {axes: int(arms.get(str(axes), arms["_"])) for axes in range(1, modules["meaning"].MOST_AXES + 1)}
    if modules["store"].EDGES != edges:
        yield f"oracle/store.py has other edges of tiles than {edges}"
    if f"\nTILE = {edges}\n" not in read(PARTS):
        yield f"{PARTS} has other edges of tiles than {edges}"


def other_habits(script, why):
    """Where the page and the client know other names of other languages, or other signs that begin no token here."""
    there = script[script.index("const INSTEAD") : script.index("const FUNCTIONS")]
    names = [f"{name} for {own}" for name, own in re.findall(r'(\w+): "(\w+)"', there)]
    signs = re.findall(r'^  "\\?(.)": ', there, re.M)
    yield from unlike("web/syntax.js", "other name", names, [f"{name} for {own}" for name, own in why.SAME.items()])
    yield from unlike("web/syntax.js", "sign", signs, why.BYTES)


def faults():
    """Where they differ."""
    modules = {name: importlib.import_module(name) for name in ("language", "machine", "meaning", "store")}
    script, there = read("web/syntax.js"), {what: most for what, most, _ in limits.rows(of_limits=True)}
    syntax = re.findall(r'"([a-z ]+)"\.split', script[script.index("const REDUCTIONS") : script.index("const LEVELS")])
    page = said("docs/LANGUAGE.md", "keywords in any case: `([^`]*)`")
    types = said("docs/REQUESTS.md", "fields of the types ([^.]*)")
    return [
        *unlike("docs/LANGUAGE.md", "keyword", page, keywords()),
        *unlike("web/syntax.js", "keyword", " ".join(syntax).split(), keywords()),
        *unlike(ASK, "keyword", said(ASK, r'KEYWORDS = ([\w\s"(]*)'), keywords()),
        *unlike("oracle/language.py", "keyword", modules["language"].KEYWORDS, keywords()),
        *unlike("docs/REQUESTS.md", "type", types, type_names()),
        *unlike("oracle/machine.py", "type", modules["machine"].RANGES, type_names()),
        *unlike("oracle/store.py", "type", modules["store"].TYPES, type_names()),
        *(
            f"{where} says {told} of the limit: {what}, which is {there.get(what)}"
            for where, what, told in limits_said(modules)
            if told != there.get(what)
        ),
        *uncompared(modules),
        *other_edges(modules),
        *other_habits(script, importlib.import_module("rasterd_why")),
    ]
