"""Tokens, the grammar and its limits, read from their description and not from the server's code."""

import contextlib
import sys
import threading
from dataclasses import dataclass, field

KEYWORDS = set(
    "for in where return encode csv coverage over values value list condense using and or xor not abs bit true false"
    " count some all add avg min max imagecrsdomain".split()
)
REDUCTIONS = "count some all add avg min max".split()
CONDENSERS = "+ * max min and or".split()
LEVELS = {"*": 4, "/": 4, "+": 3, "-": 3, "and": 1, "or": 0, "xor": 0} | dict.fromkeys(
    ["<", "<=", ">", ">=", "=", "!="], 2
)
MOST_NUMBER = 2**63 - 1
MOST_NAME, MOST_DEPTH, MOST_FORMS, MOST_HEIGHT = 64, 512, 256, 64


# How deep the calls of a reader may go.
DEPTH_OF_CALLS = 20000


class Deep(contextlib.ContextDecorator):
    """Calls may go as deep as a reader's while anyone is inside, in whatever thread, and as deep as before once nobody
    is."""

    def __init__(self):
        self.lock, self.inside, self.before = threading.Lock(), 0, 0

    def __enter__(self):
        with self.lock:
            if not self.inside:
                self.before = sys.getrecursionlimit()
                sys.setrecursionlimit(max(self.before, DEPTH_OF_CALLS))
            self.inside += 1

    def __exit__(self, *_):
        with self.lock:
            self.inside -= 1
            if not self.inside:
                sys.setrecursionlimit(self.before)


deep = Deep()


class Refused(Exception):
    """A refusal by its number."""

    def __init__(self, number):
        super().__init__(number)
        self.number = number


@dataclass
class Token:
    """A word (a name without `$` that is no keyword), a keyword, a variable with `$`, a number, a string or a
    symbol."""

    kind: str
    value: object


@dataclass
class Tree:
    """An expression: its form, what is written beside its parts, and its parts, all of which count for its height."""

    form: str
    data: object = None
    parts: list = field(default_factory=list)

    def height(self):
        return 1 + max((part.height() for part in self.parts), default=0)


def is_start(byte):
    return chr(byte).isascii() and (chr(byte).isalpha() or byte == 95)


def is_more(byte):
    return is_start(byte) or 48 <= byte <= 57


def number(digits):
    """The number that decimal digits spell. Of more than 20 it is only said that it is past 64 bits, since `int` reads
    some thousand digits at most."""
    digits = digits.lstrip("0") or "0"
    return int(digits) if len(digits) <= 20 else 10**20


def tokens(text):
    """The tokens of some bytes, each the longest that fits, or the first refusal."""
    found, at = [], 0
    while at < len(text):
        byte = text[at]
        if byte in b" \t\r\n":
            at += 1
        elif is_start(byte) or (byte == 36 and at + 1 < len(text) and is_start(text[at + 1])):
            end = at + 1
            while end < len(text) and is_more(text[end]):
                end += 1
            if end - at > MOST_NAME:
                raise Refused(30)
            name = text[at:end].decode()
            kind = "variable" if byte == 36 else "keyword" if name.lower() in KEYWORDS else "word"
            found.append(Token(kind, name.lower() if kind == "keyword" else name))
            at = end
        elif 48 <= byte <= 57:
            end = at
            while end < len(text) and 48 <= text[end] <= 57:
                end += 1
            value = number(text[at:end].decode())
            if value > MOST_NUMBER:
                raise Refused(31)
            found.append(Token("number", value))
            at = end
        elif byte == 34:
            end = at + 1
            while end < len(text) and 32 <= text[end] <= 126 and text[end] != 34:
                end += 1
            if end == len(text) or text[end] != 34:
                raise Refused(30)
            found.append(Token("string", text[at + 1 : end].decode()))
            at = end + 1
        else:
            size = 2 if text[at : at + 2] in (b"<=", b">=", b"!=") else 1
            if size == 1 and byte not in b"()[]{},;:.<>=+-*/":
                raise Refused(30)
            found.append(Token("symbol", text[at : at + size].decode()))
            at += size
    return found


def too_deep(listed):
    """Whether too many brackets are open at once, or there are too many words `condense` and `coverage`."""
    depth = deepest = forms = 0
    for it in listed:
        if it.kind == "symbol" and it.value in "([{":
            depth += 1
            deepest = max(deepest, depth)
        elif it.kind == "symbol" and it.value in ")]}":
            depth = max(0, depth - 1)
        forms += it.kind == "keyword" and it.value in ("condense", "coverage")
    return deepest > MOST_DEPTH or forms > MOST_FORMS


class Parser:
    """Reads tokens from the left; whatever does not fit is 32."""

    def __init__(self, listed):
        self.listed, self.at = listed, 0

    def sees(self, *values, ahead=0):
        """Whether one of these symbols or keywords stands next."""
        at = self.at + ahead
        return (
            at < len(self.listed) and self.listed[at].kind in ("symbol", "keyword") and self.listed[at].value in values
        )

    def takes(self, *values):
        if not self.sees(*values):
            return None
        self.at += 1
        return self.listed[self.at - 1].value

    def needs(self, *values):
        found = self.takes(*values)
        if found is None:
            raise Refused(32)
        return found

    def of_kind(self, *kinds):
        if self.at == len(self.listed) or self.listed[self.at].kind not in kinds:
            raise Refused(32)
        self.at += 1
        return self.listed[self.at - 1].value

    def separated(self, symbol, read):
        found = [read()]
        while self.takes(symbol):
            found.append(read())
        return found

    def query(self):
        self.needs("for")
        binds = self.separated(",", self.bind)
        where = self.expression(0)[0] if self.takes("where") else None
        self.needs("return")
        encoded = self.takes("encode") is not None
        if encoded:
            self.needs("(")
        item = self.expression(0)[0]
        if encoded:
            self.needs(",")
            self.format()
            self.needs(")")
        if self.at != len(self.listed):
            raise Refused(32)
        return binds, where, encoded, item

    def bind(self):
        variable = self.of_kind("word", "variable")
        self.needs("in")
        self.needs("(")
        names = self.separated(",", lambda: self.of_kind("word"))
        self.needs(")")
        return variable, names

    def format(self):
        if not self.takes("csv") and self.of_kind("string").lower() not in ("csv", "text/csv"):
            raise Refused(32)

    def expression(self, level):
        """An expression of at least this level, and whether it is open: then nothing can follow it."""
        left, is_open = self.unary()
        while (
            not is_open
            and self.at < len(self.listed)
            and self.sees(*LEVELS)
            and LEVELS[self.listed[self.at].value] >= level
        ):
            op = self.takes(*LEVELS)
            right, is_open = self.expression(LEVELS[op] + 1)
            left = Tree("binary", op, [left, right])
        return left, is_open

    def unary(self):
        if op := self.takes("-", "+", "not"):
            operand, is_open = self.unary()
            return Tree("unary", op, [operand]), is_open
        if self.sees("condense"):
            return self.condense(), True
        if self.sees("coverage"):
            made, is_open = self.coverage()
            return (made, True) if is_open else (self.postfix(made), False)
        return self.postfix(self.primary()), False

    def postfix(self, value):
        while True:
            if self.takes("."):
                value = Tree("field", self.of_kind("word"), [value])
            elif self.takes("["):
                subs = self.separated(",", self.sub)
                self.needs("]")
                inner = [sub[2] for sub in subs if isinstance(sub[2], Tree)]
                value = Tree("bracket", subs, [value, *inner])
            else:
                return value

    def primary(self):
        if self.at < len(self.listed) and self.listed[self.at].kind == "number":
            return Tree("number", self.of_kind("number"))
        if self.at < len(self.listed) and self.listed[self.at].kind in ("word", "variable"):
            return Tree("variable", self.of_kind("word", "variable"))
        if word := self.takes("true", "false"):
            return Tree("boolean", word == "true")
        if self.takes("("):
            inner = self.expression(0)[0]
            self.needs(")")
            return inner
        if self.takes("{"):
            parts = self.separated(";", self.part)
            self.needs("}")
            return Tree("record", [name for name, _ in parts], [part for _, part in parts])
        word = self.needs("abs", "bit", *REDUCTIONS)
        self.needs("(")
        inner = [self.expression(0)[0]]
        if word == "bit":
            self.needs(",")
            inner.append(self.expression(0)[0])
        self.needs(")")
        if word == "abs":
            return Tree("unary", "abs", inner)
        return Tree("binary", "bit", inner) if word == "bit" else Tree("reduce", word, inner)

    def part(self):
        name = self.of_kind("word")
        self.needs(":")
        return name, self.expression(0)[0]

    def signed(self):
        sign = self.takes("+", "-")
        return -self.of_kind("number") if sign == "-" else self.of_kind("number")

    def is_interval(self):
        """Whether a signed number and a colon stand next."""
        signed = int(self.sees("+", "-"))
        at = self.at + signed
        return at < len(self.listed) and self.listed[at].kind == "number" and self.sees(":", ahead=signed + 1)

    def interval(self):
        """('bounds', lo, hi), or ('of', axis, expression) for `imageCrsDomain`."""
        if self.takes("imagecrsdomain"):
            self.needs("(")
            inner = self.expression(0)[0]
            self.needs(",")
            axis = self.of_kind("word")
            self.needs(")")
            return "of", axis, inner
        lo = self.signed()
        self.needs(":")
        return "bounds", lo, self.signed()

    def sub(self):
        """(axis, 'bounds', (lo, hi)), (axis, ('of', axis of it), expression) or (axis, 'at', expression)."""
        axis = self.of_kind("word")
        self.needs("(")
        if self.sees("imagecrsdomain") or self.is_interval():
            kind, first, second = self.interval()
            found = (axis, "bounds", (first, second)) if kind == "bounds" else (axis, ("of", first), second)
        else:
            found = (axis, "at", self.expression(0)[0])
        self.needs(")")
        return found

    def iterator(self):
        variable = self.of_kind("word", "variable")
        axis = self.of_kind("word")
        self.needs("(")
        interval = self.interval()
        self.needs(")")
        return variable, axis, interval

    def iterators(self):
        self.needs("over")
        found = self.separated(",", self.iterator)
        return found, [it[2][2] for it in found if it[2][0] == "of"]

    def condense(self):
        self.needs("condense")
        op = self.needs(*CONDENSERS)
        over, inner = self.iterators()
        where = self.expression(0)[0] if self.takes("where") else None
        self.needs("using")
        body = self.expression(0)[0]
        return Tree("condense", (op, over, where, body), [*inner, *([where] if where else []), body])

    def coverage(self):
        """An array, and whether it is by an expression, which is open."""
        self.needs("coverage")
        self.of_kind("word")
        over, inner = self.iterators()
        if self.takes("values"):
            body = self.expression(0)[0]
            return Tree("array", (over, body), [*inner, body]), True
        self.needs("value")
        self.needs("list")
        self.needs("<")
        items = self.separated(";", self.item)
        self.needs(">")
        return Tree("list", (over, items), inner), False

    def item(self):
        word = self.takes("true", "false")
        return word == "true" if word else self.signed()


@deep
def parsed(text):
    """The query that some bytes spell, or the first refusal."""
    listed = tokens(text)
    if too_deep(listed):
        raise Refused(33)
    query = Parser(listed).query()
    _, where, _, item = query
    if max(item.height(), where.height() if where else 0) > MOST_HEIGHT:
        raise Refused(33)
    return query
