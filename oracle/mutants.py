"""Changes by chance to streams of messages and to queries."""

import re

from language import KEYWORDS
from machine import MOST_BODY, MOST_FIELDS, MOST_HEAD, MOST_HEAD_FIELDS, MOST_JOBS, MOST_MESSAGES
from meaning import MOST_AXES


class Chance:
    """Choices by chance, and numbers at limits."""

    EDGES = [0, 1, 2, 3, 4, 63, 64, 65, 255, 256, 4092, 4095, 4096]
    EDGES += [2**k - more for k in (15, 16, 24, 31, 32, 63, 64) for more in (0, 1)]

    def __init__(self, chance):
        self.chance = chance

    def one_in(self, n):
        return self.chance.randrange(n) == 0

    def span(self, size):
        """The bounds of a part, mostly a short one."""
        start = self.chance.randrange(size + 1)
        longest = size - start
        return start, start + self.chance.randint(0, longest if self.one_in(4) else min(longest, 8))

    def edge(self):
        return self.chance.choice(self.EDGES) + self.chance.choice([0, 0, 0, 1, -1])


class Streams(Chance):
    """Changes to the bytes of a stream."""

    def changed(self, stream, other):
        changes = [
            self.flip,
            self.cut,
            self.double,
            self.insert,
            self.number,
            self.line_ends,
            self.grown,
            self.doubled_field,
        ]
        for _ in range(self.chance.choice([1, 1, 1, 2, 3, 6])):
            stream = self.chance.choice(changes)(stream)
        if self.one_in(6):
            start, end = self.span(len(other))
            at = self.chance.randrange(len(stream) + 1)
            stream = stream[:at] + other[start:end] + stream[at:]
        return stream

    def flip(self, stream):
        if not stream:
            return b"\n"
        at = self.chance.randrange(len(stream))
        return stream[:at] + bytes([self.chance.randrange(256)]) + stream[at + 1 :]

    def cut(self, stream):
        start, end = self.span(len(stream))
        return stream[:start] + stream[end:] if not self.one_in(4) else stream[:start]

    def double(self, stream):
        start, end = self.span(len(stream))
        return stream[:end] + stream[start:end] * self.chance.choice([1, 1, 2, 40]) + stream[end:]

    def insert(self, stream):
        at = self.chance.randrange(len(stream) + 1)
        more = [
            b"\r\n",
            b"\n",
            b"\r",
            b" ",
            b"\t",
            b"\0",
            b"\x80",
            b"\xff",
            b"&",
            b"=",
            b"%",
            b"%2",
            b"%FF",
            b"+",
            b":",
            b"?",
        ]
        more += [b"%00", b"\xc3\xa9", b"HTTP/1.1", b"GET /ows ", b"Content-Length: 0\r\n", b"Transfer-Encoding: x\r\n"]
        return stream[:at] + self.chance.choice(more) + stream[at:]

    def number(self, stream):
        """Another number in the place of one; mostly that of a length."""
        found = list(re.finditer(rb"(?<=Length: )\d+" if self.one_in(2) else rb"\d+", stream))
        if not found:
            return stream
        it = self.chance.choice(found)
        near = int(it[0][:30]) + self.chance.choice([-2, -1, 1, 2, 10])
        new = str(near if self.one_in(2) else self.edge()).encode()
        return stream[: it.start()] + new + stream[it.end() :]

    def line_ends(self, stream):
        """Other ends of lines, or empty lines before a head."""
        if self.one_in(2):
            return stream.replace(b"\r\n", b"\n", self.chance.randrange(1, 5))
        at = self.chance.choice([it.start() for it in re.finditer(rb"GET|POST", stream)] or [0])
        return (
            stream[:at]
            + self.chance.choice([b"\r\n", b"\n", b"\n\r\n"]) * self.chance.choice([1, 2, 9000])
            + stream[at:]
        )

    def grown(self, stream):
        """A head about as long as it may be, or with about as many fields; a body about as long as it may be; about as
        many messages as are answered, or jobs, axes and fields as there may be."""
        kind = self.chance.randrange(5)
        end = stream.find(b"\r\n\r\n") + 2
        if kind == 0:
            times = MOST_MESSAGES + self.chance.randrange(-10, 10)
            return b"GET /ows?request=ListCoverages HTTP/1.1\r\n\r\n" * times + stream
        if kind == 4:
            return self.crowd() + stream
        if end < 2:
            return stream
        if kind == 1:
            return stream[:end] + b"A: b\r\n" * (MOST_HEAD_FIELDS + self.chance.randrange(-4, 4)) + stream[end:]
        if kind == 2:
            fill = MOST_HEAD - 2 - end - 5 + self.chance.choice([-1, 0, 0, 1, 1, 2])
            return stream[:end] + b"A: " + b"b" * max(0, fill) + b"\r\n" + stream[end:]
        body = b"request=ListCoverages&other=" + b"b" * (MOST_BODY - 28 + self.chance.choice([-1, 0, 1]))
        return b"POST /ows HTTP/1.1\r\nContent-Length: %d\r\n\r\n%s" % (len(body), body) + stream

    def crowd(self):
        """Messages at the limits of axes, fields and jobs."""
        axes = ",".join(f"a{k}(0:1)" for k in range(MOST_AXES + self.chance.randrange(2)))
        fields = ",".join(f"f{k}:u8" for k in range(MOST_FIELDS + self.chance.randrange(2)))
        insertion = f"request=InsertCoverage&coverage=wide&domain={axes}&fields={fields}"
        submission = "request=SubmitQuery&query=for+c+in+(wide)+return+1"
        listed = [insertion] + [submission] * self.chance.choice([1, MOST_JOBS - 1, MOST_JOBS, MOST_JOBS + 1])
        return b"".join(b"GET /ows?%s HTTP/1.1\r\n\r\n" % it.encode() for it in listed)

    def doubled_field(self, stream):
        """A field twice, the second with another value."""
        found = list(re.finditer(rb"(Content-Length|Connection): ([^\r\n]*)\r\n", stream))
        if not found:
            return self.insert(stream)
        it = self.chance.choice(found)
        value = self.chance.choice(
            [it[2], it[2] + b" ", b"+" + it[2], b"0" + it[2], it[2] + b"," + it[2], b"", b"close"]
        )
        return stream[: it.end()] + it[1].upper() + b":" + value + b"\r\n" + stream[it.end() :]


class Queries(Chance):
    """Changes to the tokens of a query."""

    WORDS = sorted(KEYWORDS) + list("()[]{},;:.<>=+-*/") + ["<=", ">=", "!=", "c", "d", "v", "x", "y", "$i", "true"]

    OPERATORS = ["+", "-", "*", "/", "<", "<=", ">", ">=", "=", "!=", "and", "or", "xor", "max", "min"]
    REDUCTIONS = ["count", "some", "all", "add", "avg", "min", "max", "abs", "not", "condense"]

    def changed(self, text, other):
        found, more = (re.findall(r'\$?[A-Za-z_]\w*|\d+|"[^"]*"|[<>!]=|\s+|.', it, re.S) for it in (text, other))
        changes = [self.another_word, self.moved, self.spliced, self.nested, self.repeated]
        for _ in range(self.chance.choice([0, 1, 1, 1, 2, 4])):
            change = self.chance.choice([self.alike, self.alike, self.edge_number, self.chance.choice(changes)])
            found = change(found, more)
        text = "".join(found)
        return text[:70000] if not self.one_in(30) else self.byte_in(text)

    def byte_in(self, text):
        at = self.chance.randrange(len(text) + 1)
        return text[:at] + self.chance.choice(["\0", "é", "\ufffd", "\u2028", '"', "$", "!", "#", "\r"]) + text[at:]

    def alike(self, found, more):
        """A token in the place of one of its kind."""
        if not found:
            return more
        at = self.chance.randrange(len(found))
        kinds = [
            self.OPERATORS,
            self.REDUCTIONS,
            [it for it in found + more if it[0].isalpha() and it.lower() not in KEYWORDS],
        ]
        kinds.append([it for it in found + more if it[0] == "$"])
        choices = next((it for it in kinds if found[at] in it), [found[at]])
        return found[:at] + [self.chance.choice(choices)] + found[at + 1 :]

    def another_word(self, found, more):
        at = self.chance.randrange(len(found) + 1)
        word = self.chance.choice(self.WORDS if self.one_in(2) or not found else found)
        return found[:at] + ([word] if not self.one_in(4) else []) + found[at + self.chance.randrange(2) :]

    def moved(self, found, more):
        start, end = self.span(len(found))
        rest, at = found[:start] + found[end:], self.chance.randrange(len(found) + 1)
        return rest[:at] + found[start:end] + rest[at:]

    def spliced(self, found, more):
        start, end = self.span(len(more))
        at, to = self.span(len(found))
        return found[:at] + more[start:end] + found[to:]

    def nested(self, found, more):
        """Something in many brackets or operators, about as deep as may be."""
        opens, closes = self.chance.choice(
            [
                ("(", ")"),
                ("-", ""),
                ("not ", ""),
                ("abs(", ")"),
                ("{v: ", "}"),
                ("add(", ")"),
                ("1+", ""),
                ("c[x(", ")]"),
            ]
        )
        times = self.chance.choice([1, 2, 5, 20, 60, 61, 62, 63, 64, 65, 256, 511, 512, 513, 3000])
        start, end = self.span(len(found))
        return found[:start] + [opens] * times + found[start:end] + ([closes] if closes else []) * times + found[end:]

    def repeated(self, found, more):
        start, end = self.span(len(found))
        return found[:end] + found[start:end] * self.chance.choice([1, 1, 2, 30, 63, 300]) + found[end:]

    def edge_number(self, found, more):
        places = [k for k, it in enumerate(found) if it.isdigit()]
        if places:
            found[self.chance.choice(places)] = str(self.edge())
        return found
