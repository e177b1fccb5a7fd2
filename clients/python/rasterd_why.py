#!/usr/bin/env python3
"""What to change after a refusal, which has a number and a name alone: where a query's text goes wrong and what could
stand there, which key of a request is not spelled as it asks, which part of a query has the wrong type.

    $ rasterd_why.py 'for c in (hill) return sqrt(max(c))'
    1:24: `sqrt` does not fit: there is no function `sqrt`; there are abs, bit, count, some, all, add, avg, min, max

It knows the rules by the independent reading of the language, `oracle/` of the project. A query's text is read from
left to right with at most three tokens of foresight, so the first token that does not fit is the first at which no
query begins with what stands before it.
"""

import contextlib
import itertools
import os
import re
import sys
import urllib.parse

HERE = os.path.dirname(os.path.abspath(__file__))
READING = ["language", "meaning", "machine"]


def reading():
    """The modules of the independent reading, from the folder beside this one or where the package has it; names that a
    program has for modules of its own stay so."""
    folder = next(
        (it for it in (f"{HERE}/../../oracle", f"{HERE}/../../../share/rasterd/oracle") if os.path.isdir(it)), None
    )
    if folder is None:
        raise ImportError(
            "the modules of oracle/ are neither beside the project's clients nor where the package has them"
        )
    kept = {name: sys.modules.pop(name) for name in READING if name in sys.modules}
    sys.path.insert(0, folder)
    try:
        return [__import__(name) for name in READING]
    finally:
        sys.path.remove(folder)
        for name in READING:
            sys.modules.pop(name, None)
        sys.modules.update(kept)


language, meaning, machine = reading()

SPACE = re.compile(r"[ \t\r\n]*")
TOKEN = re.compile(r'\$?[A-Za-z_][A-Za-z0-9_]*|[0-9]+|"[ !#-~]*"|<=|>=|!=|[()\[\]{},;:.<>=+\-*/]')
KINDS = {"word": "a name", "variable": "a variable", "number": "a number", "string": "`csv`"}
FUNCTIONS = "abs, bit, count, some, all, add, avg, min, max"
SAME = {
    "sum": "add",
    "mean": "avg",
    "average": "avg",
    "any": "some",
    "every": "all",
    "maximum": "max",
    "minimum": "min",
}
INSTEAD = {
    "trim": "trims are written `c[y(0:1)]`",
    "slice": "slices are written `c[y(0)]`",
    "scale": "cells are picked by `coverage .. over .. values c[y($i * 2), ..]`",
    "extend": "no cells stand outside of a domain",
    "switch": "choose by arithmetic, as `a * (c > 1) + b * (c <= 1)`",
    "case": "choose by arithmetic, as `a * (c > 1) + b * (c <= 1)`",
    "if": "choose by arithmetic, as `a * (c > 1) + b * (c <= 1)`",
    "let": "write the expression where it is used, or ask twice",
    "store": "a query changes nothing; UpdateCoverage writes",
}
BYTES = {
    "&": "write `and`; and in a form `&` ends the value, so let the client encode it",
    "|": "write `or`",
    "%": "there is no remainder: a - a / b * b",
    "#": "there are no comments",
    "'": 'strings are written ".."',
    "^": "there is no power: c * c",
    "!": "write `not`, or `!=`",
    '"': "the string does not end",
}


def shown(text):
    """A text on one line, and not too long for it."""
    line = re.sub(r"\s*\n\s*", " ", text)
    return f"`{line if len(line) <= 60 else line[:57] + '..'}`"


def place(text, at):
    """The line and the column of a place, from 1 on."""
    return f"{text.count(chr(10), 0, at) + 1}:{at - text.rfind(chr(10), 0, at)}"


def spans(text):
    """Where each token begins and ends; and where the first character is that begins none, if there is one."""
    found, at = [], SPACE.match(text).end()
    while at < len(text):
        match = TOKEN.match(text, at)
        if not match:
            return found, at
        found.append(match.span())
        at = SPACE.match(text, match.end()).end()
    return found, None


class Pointing(language.Parser):
    """The parser, which keeps what would have fitted where it stopped, and where each part stands."""

    def __init__(self, text):
        super().__init__(language.tokens(text.encode()))
        self.text, self.spans = text, spans(text)[0]
        self.wanted, self.stand = (), {}

    def needs(self, *values):
        if not self.sees(*values):
            self.wanted = ["an expression"] if "abs" in values else [f"`{it}`" for it in values]
        return super().needs(*values)

    def of_kind(self, *kinds):
        if self.at == len(self.listed) or self.listed[self.at].kind not in kinds:
            self.wanted = [KINDS[it] for it in kinds]
        return super().of_kind(*kinds)

    def primary(self):
        start = self.at
        tree = super().primary()
        self.stand[id(tree)] = tree, (start, self.at)
        return tree

    def unary(self):
        start = self.at
        tree, is_open = super().unary()
        self.stand[id(tree)] = tree, (start, self.at)
        return tree, is_open

    def tokens_of(self, tree):
        """Between which tokens a part stands."""
        if id(tree) in self.stand:
            return self.stand[id(tree)][1]
        start, end = self.tokens_of(tree.parts[0])
        if tree.form == "field":
            return start, end + 2
        if tree.form == "bracket":
            depth = itertools.accumulate(
                (token.value in tuple("([{")) - (token.value in tuple(")]}")) if token.kind == "symbol" else 0
                for token in self.listed[end:]
            )
            return start, end + next(k for k, it in enumerate(depth, 1) if it == 0)
        return start, self.tokens_of(tree.parts[-1])[1]

    def told(self, tree):
        """The place and the text of a part."""
        start, end = self.tokens_of(tree)
        first, last = self.spans[start][0], self.spans[end - 1][1]
        return f"{place(self.text, first)}: {shown(self.text[first:last])}"

    def word(self, at):
        return self.text[slice(*self.spans[at])] if 0 <= at < len(self.spans) else ""


@language.deep
def misspelled(text):
    """Where a text goes wrong, or None where it spells a query."""
    found, bad = spans(text)
    if bad is not None:
        return f"{place(text, bad)}: `{text[bad]}` begins no token" + tail(BYTES.get(text[bad]))
    for start, end in found:
        if text[start].isdigit() and language.number(text[start:end]) > language.MOST_NUMBER:
            return f"{place(text, start)}: a number is at most {language.MOST_NUMBER}"
        if end - start > language.MOST_NAME and re.match(r"[A-Za-z_$]", text[start]):
            return f"{place(text, start)}: a name has at most {language.MOST_NAME} bytes"
    parser = Pointing(text)
    if language.too_deep(parser.listed):
        return (
            f"more than {language.MOST_DEPTH} brackets are open at once, or there are more than {language.MOST_FORMS}"
            " words `condense` and `coverage`"
        )
    try:
        *_, condition, _, item = parser.query()
    except language.Refused:
        return stopped(parser)
    most = language.MOST_HEIGHT
    if max(item.height(), condition.height() if condition else 0) > most:
        return f"the query is nested more than {most} deep: ask a part of it first, and write its answer into the query"
    return None


def tail(hint):
    return f": {hint}" if hint else ""


def stopped(parser):
    """What a parser that stopped has to say."""
    fits = " or ".join(parser.wanted) or "an operator or the end"
    if parser.at == len(parser.listed):
        return f"{place(parser.text, len(parser.text))}: the text ends too soon; here could stand {fits}"
    at = parser.at
    if parser.word(at - 1).startswith('"'):
        return f"{place(parser.text, parser.spans[at - 1][0])}: {parser.word(at - 1)} is no format; csv is the only one"
    said, called = hint(parser, at)
    start = parser.spans[called][0]
    return f"{place(parser.text, start)}: `{parser.word(called)}` does not fit" + (
        f": {said}" if said else f"; here could stand {fits}"
    )


def hint(parser, at):
    """What those mean who write so, or None, and the token that it is about."""
    word, before, after = parser.word(at), parser.word(at - 1), parser.word(at + 1)
    if word == "=" and before == "=":
        return "equality is one `=`", at
    if (before, word) == ("<", ">"):
        return "unequal is `!=`", at
    if word == ";" and at + 1 == len(parser.listed):
        return "a query ends without `;`", at
    if before == "." and word.isdigit() and parser.word(at - 2).isdigit():
        return "numbers are whole: there is no floating point", at
    if word == "*" and before in (":", "("):
        return "`*` is no bound: write the axis' own, as DescribeCoverage tells it", at
    if (word, after) == ("-", "-") or (before, word) in [("/", "/"), ("/", "*")]:
        return "there are no comments", at
    if at == 0:
        return "a query begins with `for`", at
    if "`csv`" in parser.wanted:
        return "csv is the only format; pictures are made by rasterd-get", at
    return of_words(parser, at, word, before, after)


def of_words(parser, at, word, before, after):
    """The same of a word that is none here, or of one after which an operator is missing."""
    # whether an expression ends here, so that an operator or a call could stand
    ends = any(end == at for _, (_, end) in parser.stand.values())
    is_called = ends and word == "(" and re.fullmatch(r"[A-Za-z_]\w*", before)
    name, called = (before, at - 1) if is_called else (word, at)
    if SAME.get(name.lower()) and (is_called or after == "("):
        return f"it is called `{SAME[name.lower()]}` here", called
    if INSTEAD.get(name.lower()) or INSTEAD.get(before.lower()):
        found = name if INSTEAD.get(name.lower()) else before
        return f"there is no `{found}`; {INSTEAD[found.lower()]}", called if found == name else at - 1
    if is_called:
        return f"there is no function `{name}`; there are {FUNCTIONS}", called
    if before == ")" and parser.word(at - 2).lower() in ("float", "double", "int", "integer", "char", "short", "long"):
        return "there are no casts: cells are integers and Booleans", at
    if ends and word.lower() == "where":
        return "`where` stands before `return`, or behind the iterators of a condenser", at
    if ends and re.fullmatch(r"\$?\w+", word):
        missing = "an operator is missing; in a form `+` is a space, so let the client encode the text"
        return f"after `{before}` {missing} (curl: --data-urlencode)", at
    return None, at


# Keys of a request


def spelled_name(text):
    if text.lower() in language.KEYWORDS:
        return f"`{text}` is a word of the language, and no name"
    most = language.MOST_NAME
    return f"{shown(text)} is no name: a letter or `_`, then letters, digits and `_`, at most {most} in all"


def spelled_interval(text):
    name = text.partition("(")[0]
    if name.lower() in language.KEYWORDS:
        return spelled_name(name)
    return f"{shown(text)} is not spelled `axis(lowest:highest)`, with two whole numbers of 64 bits and no space"


def spelled_field(text):
    name, colon, kind = text.partition(":")
    if kind in machine.RANGES:
        return spelled_name(name)
    if machine.name_in(name) and kind not in machine.RANGES:
        told = f"`{kind}` is no type" if colon else f"`{name}` has no type"
        return f"{told}: write {name}:i16, or another of {', '.join(machine.RANGES)}"
    return f"{shown(text)} is not spelled `name:type`, without a space"


def spelled_cell(text):
    return f"{shown(text)} is no cell: whole numbers from -2^63 to 2^63-1, `true` or `false`, without a space"


# How a key's value is read, whether it is a list, and what is said of a value, or of an item, that is not read.
KEYS = {
    "coverage": (machine.name_in, False, spelled_name),
    "field": (machine.name_in, False, spelled_name),
    "domain": (machine.interval_in, True, spelled_interval),
    "box": (machine.interval_in, True, spelled_interval),
    "fields": (machine.field_in, True, spelled_field),
    "fill": (machine.cell_in, False, spelled_cell),
    "values": (machine.cell_in, True, spelled_cell),
    "query": (machine.query_in, False, lambda text: f"{len(text.encode())} bytes, of at most {machine.MOST_QUERY:,}"),
    "job": (machine.number_in, False, lambda text: f"{shown(text)} is no job's number"),
    "units": (machine.units_in, False, lambda text: f"{shown(text)} is not within 1 to {machine.MOST_UNITS}"),
    "layer": (machine.layer_in, False, lambda text: f"{shown(text)} is neither a coverage nor `coverage.field`"),
    "second": (machine.layer_in, False, lambda text: f"{shown(text)} is neither a coverage nor `coverage.field`"),
    "radius": (machine.signed_in, False, lambda text: f"{shown(text)} is no whole number"),
}


def bad_key(pairs):
    """The key whose value is not spelled as it asks, and why."""
    if "fill" in pairs and "values" in pairs:
        return "give one of `fill` and `values`"
    for key, (read, is_list, said) in KEYS.items():
        if key in pairs:
            text = str(pairs[key])
            bad = next((it for it in (text.split(",") if is_list else [text]) if read(it) is None), None)
            if bad is not None:
                return f"`{key}`: {said(bad)}"
    return None


class Wanting(machine.Machine):
    """The machine, which keeps the key that it wants and does not find."""

    wanted = "`fill` or `values`"

    def key(self, key, read, absent=12):
        if not self.values(key):
            self.wanted = f"`{key}`"
        return super().key(key, read, absent)


def missing_key(pairs):
    """The first key that a request needs and has not."""
    asked = Wanting()
    asked.reply(urllib.parse.urlencode(pairs).encode())
    return f"{pairs['request']} needs {asked.wanted}"


def absent(pairs, describe):
    """Which coverage is not there: of several the first that cannot be described."""
    if "query" in pairs:
        found = [name for _, listed in Pointing(str(pairs["query"])).query()[0] for name in listed]
    else:
        found = [str(pairs[key]).partition(".")[0] for key in ("coverage", "layer", "second") if key in pairs]
    for name in found[:-1]:
        try:
            describe(name)
        except Exception:
            break
    else:
        name = found[-1]
    return f"there is no coverage `{name}`: ListCoverages tells the names, which are case-sensitive"


# Updates and templates


def box_text(axes):
    return ",".join(f"{name}({lo}:{hi})" for name, lo, hi in axes) or "none"


def names(found):
    return ", ".join(str(it) for it in found) or "none"


def outside(pairs, describe):
    """Inside which box an update has to lie."""
    axes = box_text(coverage_of(*describe(pairs["coverage"])).axes)
    return f"the box has to name the axes in this order, and to lie inside: {axes}"


def other_count(pairs):
    """How many cells an update has, and how many it is to have."""
    points = meaning.count(list(map(machine.interval_in, pairs["box"].split(","))))
    return f"`values` has {pairs['values'].count(',') + 1:,} cells, and the box {points:,} points"


def out_of_range(pairs, describe):
    """The first cell of an update that its field does not hold, and what that holds."""
    field = pairs["field"]
    kind = describe(pairs["coverage"])[1][field]
    cells = str(pairs.get("fill", pairs.get("values"))).split(",")
    cell = next(it for it in cells if not machine.holds(kind, machine.cell_in(it)))
    ends = machine.RANGES[kind]
    holds = f"whole numbers from {ends[0]} to {ends[1]}" if ends else "`true` and `false` alone"
    return f"`{cell}` is no cell of `{field}`: it is {kind}, and takes {holds}"


def bad_parameter(pairs, describe):
    """What a template does not find in its layers or in its radius."""
    template, domains = pairs["template"], []
    is_focal = template.startswith("Focal")
    for key in ["layer"] if is_focal else ["layer", "second"]:
        if key not in pairs:
            return f"{template} takes another layer: give `{key}`"
        name, _, field = pairs[key].partition(".")
        axes, fields = describe(name)
        if field and field not in fields:
            return f"`{key}`: `{name}` has no field `{field}`; there are {names(fields)}"
        if not field and len(fields) > 1:
            return f"`{key}`: `{name}` has several fields: select one, as `{name}.{next(iter(fields))}`"
        domains.append(box_text(coverage_of(axes, fields).axes))
    if not is_focal:
        return f"the domains differ: {' and '.join(domains)}"
    if not 1 <= int(pairs.get("radius", 0)) <= machine.MOST_RADIUS:
        return f"{template} takes a `radius`, 1 to {machine.MOST_RADIUS}"
    return f"{template} takes a layer on two axes, and `{name}` has {domains[0]}"


# Types


class Placing(meaning.Typing):
    """The typing, which keeps the innermost part that was refused, and the iterators there."""

    blamed = None

    def typed(self, e, scope):
        try:
            return super().typed(e, scope)
        except language.Refused:
            self.blamed = self.blamed or (e, scope)
            raise

    def parts(self):
        """The types of the blamed part's own parts, those that have one."""
        e, scope = self.blamed
        found = []
        for part in e.parts:
            with contextlib.suppress(language.Refused):
                found.append(self.typed(part, scope))
        return found


def field_names(parts):
    return names(name or "one without a name" for it in parts[:1] for name, _ in it.fields)


def first_of_several(parts):
    """The first field of a part that has several."""
    return next((it.fields[0][0] for it in parts if len(it.fields) > 1), "f")


def intervals_of(e):
    """The intervals of an expression that are written as two numbers: the axis and these."""
    if e.form == "bracket":
        return [(axis, *what) for axis, kind, what in e.data if kind == "bounds"]
    over = e.data[1] if e.form == "condense" else e.data[0]
    return [(axis, lo, hi) for _, axis, (kind, lo, hi) in over if kind == "bounds"]


def bad_interval(e):
    """The interval of an expression that is none; or that its box is too large."""
    for axis, lo, hi in intervals_of(e):
        if lo > hi:
            return f"a lower bound stands above its upper one, in {axis}({lo}:{hi})"
        if not (meaning.fits(lo) and meaning.fits(hi)):
            return f"a bound is outside of {-meaning.MOST_BOUND - 1} to {meaning.MOST_BOUND}, in {axis}({lo}:{hi})"
    return f"it has more than {meaning.MOST_AXES} iterators, or its box more than {meaning.MOST_POINTS:,} points"


# What is said of a part that was refused: by the part, the types of its parts, and what is bound there.
SAID = {
    40: lambda e, parts, bound: f"nothing binds it; bound are {names(bound)}",
    41: lambda e, parts, bound: f"a name in it stands twice, or is bound around it; bound are {names(bound)}",
    42: lambda e, parts, bound: f"there is no field `{e.data}`; there are {field_names(parts)}",
    43: lambda e, parts, bound: f"there is no such axis; there are {names(f'{a}({lo}:{hi})' for it in parts for a, lo, hi in it.axes)}",
    44: lambda e, parts, bound: "an axis is named twice",
    45: lambda e, parts, bound: f"the domains differ: {' and '.join(box_text(it.axes) for it in parts if it.axes)}",
    46: lambda e, parts, bound: f"it does not lie inside {box_text(parts[0].axes)}",
    47: lambda e, parts, bound: "a value with axes stands where a scalar must: reduce it, as by max(..), or slice each axis",
    48: lambda e, parts, bound: "a number stands where a Boolean must: compare it, as `c > 0`",
    49: lambda e, parts, bound: "a Boolean stands where a number must: `count(..)` counts, and a `+` before it makes 0 or 1 of it",
    50: lambda e, parts, bound: f"it has several fields: select one, as `.{first_of_several(parts)}`",
    51: lambda e, parts, bound: f"it has {len(e.data[1])} items, and its box another number of points",
    52: lambda e, parts, bound: "it has axes: write encode(.., csv) around it",
    53: lambda e, parts, bound: bad_interval(e),
}


def mistyped(number, text, describe):
    """The part of a query that has the wrong type, over the coverages as they are described."""
    parser = Pointing(text)
    binds, condition, encoded, item = parser.query()
    variables = [variable for variable, _ in binds]
    if twice := next((it for k, it in enumerate(variables) if it in variables[:k]), None):
        return f"`for` binds `{twice}` twice"
    listed = dict.fromkeys(name for _, found in binds for name in found)
    store = {name: coverage_of(*describe(name)) for name in listed}
    for choice in itertools.product(*(found for _, found in binds)):
        typing = Placing(dict(zip(variables, (store[name] for name in choice))))
        for e, needs_scalar in [(condition, True), (item, not encoded)]:
            try:
                found = typing.typed(e, []) if e else None
                if found and needs_scalar and (found.axes or e is condition):
                    typing.blamed = (e, [])
                    if found.axes or len(found.fields) > 1 or not meaning.is_boolean(found):
                        raise language.Refused(number)
                    typing.blamed = None
            except language.Refused:
                blamed, scope = typing.blamed
                bound = [*typing.coverages, *scope]
                return f"{parser.told(blamed)}: {SAID[number](blamed, typing.parts(), bound)}"
    return None


def coverage_of(axes, fields):
    return meaning.Coverage([(name, *bounds) for name, bounds in axes.items()], list(fields.items()), [])


def too_many_cells(pairs):
    """How to ask for less at a time; a template takes no box."""
    most = f"at most {meaning.MOST_CELLS:,} cells"
    if "template" in pairs:
        return f"a template answers {most}: ExpandTemplate gives its query, which can be asked with smaller bounds after `over`"
    return f"ask for parts of {most}, as c[y(0:99)]"


# All together

ADVICE = {
    2: f"a body has at most {machine.MOST_BODY:,} bytes: send the cells in several updates, as Session.write does",
    3: "the path is /ows, or what a proxy makes of it",
    11: "requests are InsertCoverage, UpdateCoverage, DeleteCoverage, ListCoverages, DescribeCoverage, ProcessCoverages,"
    " SubmitQuery, StepJob, FetchJob, CancelJob, ExpandTemplate, ProcessTemplate; a proxy may let those through alone"
    " that read",
    13: "a key is given twice, perhaps in another case of its letters",
    21: "take another name, or delete the old coverage",
    22: f"a coverage has 1 to {meaning.MOST_AXES} axes, each named once, bounds of 32 bits with the lower one first,"
    f" and at most {meaning.MOST_POINTS:,} points: rasterd-load --parts cuts a larger raster",
    23: f"a coverage has 1 to {machine.MOST_FIELDS} fields, each named once",
    27: f"{machine.MOST_COVERAGES:,} coverages are held: delete one",
    # of a template: what is said of a query stands above
    45: "the layers have unlike domains: ask for a box that is in both, in a query of your own",
    49: "a layer is Boolean: a focal and a zonal template take numbers",
    54: "ask what is the same for all cells first, as avg(c), and write the number into the query; or ask for a smaller box:"
    " zonal, stretch and histogram of rasterd_algebra do so",
    56: f"the `for` list has more than {meaning.MOST_COMBINATIONS} combinations of coverages: ask for some of them at a time",
    60: "a number leaves 64 bits",
    61: "exclude the zeros: `c / (d + (d = 0))`, or condense `where d != 0`",
    62: "the position of a slice is outside of its axis; `and` asks both sides, so put a test into the `where` of a condense,"
    " or trim first",
    63: "a `condense` of `max` or `min` had no points, as its `where` was true nowhere: ask count(..) first, or leave empty"
    " zones out",
    64: "a bit's place is within 0 to 63",
    70: "jobs end with the run of their server, and are known to that server alone",
    71: "the job has units left: step it until none are",
    72: f"{machine.MOST_JOBS} jobs are held, those without units left included: fetch or cancel some",
    80: "templates are LocalSum, LocalDifference, LocalProduct, LocalMaximum, LocalMinimum, FocalSum, FocalMaximum,"
    " FocalMinimum, ZonalSum, ZonalMaximum, ZonalMinimum",
    90: "the server found no memory for it: ask for less at once",
    91: "the system refused a read or a write of the file: see to the disk, or make room on it",
    92: "the file has too few free blocks: delete coverages, or finish or cancel jobs, which hold blocks",
    93: "bytes of the file are damaged: go back to a copy",
}

# What is said of a request, by its pairs and by what gives the axes and the fields of a coverage.
TOLD = {
    12: lambda pairs, describe: missing_key(pairs),
    20: absent,
    14: lambda pairs, describe: bad_key(pairs),
    24: outside,
    25: lambda pairs, describe: other_count(pairs),
    26: out_of_range,
    55: lambda pairs, describe: too_many_cells(pairs),
    42: lambda pairs, describe: f"the fields are {names(describe(pairs['coverage'])[1])}",
    81: bad_parameter,
}


@language.deep
def reason(number, pairs, describe):
    """What to change in a request that was refused by a number; None where nothing is known. `describe` gives the axes
    and the fields of a coverage."""
    text = str(pairs.get("query", ""))
    if 30 <= number <= 33:
        return misspelled(text)
    if number in SAID and text:
        return mistyped(number, text, describe)
    return TOLD[number](pairs, describe) if number in TOLD else ADVICE.get(number)


if __name__ == "__main__":
    print(misspelled(sys.argv[1]) or "a query")
