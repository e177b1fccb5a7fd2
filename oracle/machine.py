"""The machine, read from its description: named coverages, requests, templates, jobs, and messages over HTTP/1.1."""

import copy
import re
import urllib.parse
from dataclasses import dataclass, replace

from language import KEYWORDS, MOST_NAME, Refused, number
from meaning import MOST_AXES, MOST_POINTS, Coverage, Fault, answer, count, fits, points, rank, submitted

MOST_COVERAGES, MOST_FIELDS, MOST_JOBS, MOST_UNITS, MOST_RADIUS = 1024, 16, 64, 1000, 8
MOST_QUERY, MOST_HEAD, MOST_HEAD_FIELDS, MOST_BODY, MOST_MESSAGES = 65536, 16384, 64, 2**20, 1000

RANGES = {
    "bool": None,
    "u8": (0, 255),
    "i16": (-(2**15), 2**15 - 1),
    "i32": (-(2**31), 2**31 - 1),
    "i64": (-(2**63), 2**63 - 1),
}
NAMES = (
    "1 BadHead 2 BodyTooLong 3 NoSuchPath 4 NotServed 10 NoRequest 11 UnknownRequest 12 MissingKey 13 RepeatedKey 14 BadValue"
    " 20 NoSuchCoverage 21 CoverageExists 22 BadDomain 23 BadField 24 OutsideDomain 25 ValueCount 26 ValueRange"
    " 27 TooManyCoverages 28 Busy 30 BadToken 31 NumberTooLarge 32 BadSyntax 33 TooDeep 40 UnknownName 41 NameTaken 42 NoSuchField"
    " 43 NoSuchAxis 44 AxisTwice 45 DomainMismatch 46 TrimOutside 47 NeedsScalar 48 NeedsBoolean 49 NeedsInteger"
    " 50 NeedsOneField 51 ListLength 52 MustEncode 53 BadInterval 54 TooMuchWork 55 ResultTooLarge 56 TooManyCombinations"
    " 60 Overflow 61 DivideByZero 62 OutOfDomain 63 EmptyCondense 64 BadBit 70 NoSuchJob 71 NotReady 72 TooManyJobs 80 NoSuchTemplate 81 BadParameter"
    " 92 NoRoom 93 Damaged"
).split()
REFUSALS = dict(zip(map(int, NAMES[::2]), NAMES[1::2]))
STATUSES = {3: 404, 20: 404, 70: 404, 21: 409, 28: 409, 71: 409, 2: 413, 4: 501, 27: 503, 72: 503, 92: 503, 93: 500}
PHRASES = {
    200: "OK",
    400: "Bad Request",
    404: "Not Found",
    409: "Conflict",
    413: "Payload Too Large",
    500: "Internal Server Error",
    501: "Not Implemented",
    503: "Service Unavailable",
}


def decoded(text):
    """The text of some bytes of a form."""
    return urllib.parse.unquote_to_bytes(text.replace(b"+", b" ")).decode(errors="replace")


# What a key's value is read as; None is 14.


def name_in(text):
    is_name = re.fullmatch(r"[A-Za-z_][A-Za-z0-9_]*", text) and len(text) <= MOST_NAME
    return text if is_name and text.lower() not in KEYWORDS else None


def signed_in(text):
    if not re.fullmatch(r"[+-]?[0-9]+", text):
        return None
    value = number(text.lstrip("+-")) * (-1 if text[0] == "-" else 1)
    return value if -(2**63) <= value < 2**63 else None


def number_in(text):
    return number(text) if re.fullmatch(r"[0-9]+", text) and number(text) < 2**64 else None


def units_in(text):
    units = signed_in(text)
    return units if units is not None and 1 <= units <= MOST_UNITS else None


def interval_in(text):
    found = re.fullmatch(r"([^(]*)\(([^:]*):([^)]*)\)", text)
    parts = found and (name_in(found[1]), signed_in(found[2]), signed_in(found[3]))
    return parts if parts and None not in parts else None


def field_in(text):
    name, _, kind = text.partition(":")
    return (name_in(name), kind) if name_in(name) and kind in RANGES else None


def cell_in(text):
    return text == "true" if text in ("true", "false") else signed_in(text)


def listed_in(read):
    def read_all(text):
        found = [read(it) for it in text.split(",")]
        return None if None in found else found

    return read_all


def query_in(text):
    return text if len(text.encode()) <= MOST_QUERY else None


def layer_in(text):
    coverage, dot, field = text.partition(".")
    if not name_in(coverage) or (dot and not name_in(field)):
        return None
    return coverage, field if dot else None


@dataclass
class Job:
    """A query, the coverages that it names, the store as it was at its submission, and the units left."""

    query: bytes
    names: set
    store: dict
    left: int


class Machine:
    """Coverages by name, and jobs by number. A coverage is never changed in place: a write puts another one under its
    name, so that a job keeps the store of its submission. Which units a job has is the server's choice: `units` has
    that of each number, and where it has none, or more than there may be, it is one."""

    def __init__(self, units=None):
        self.store, self.jobs, self.next, self.units = {}, {}, 1, units or {}

    def reply(self, pairs):
        """The reply to some pairs, bytes: (200, the kind of text, the text), or the number of a refusal."""
        self.pairs = [tuple(map(decoded, it.partition(b"=")[::2])) for it in pairs.split(b"&") if it]
        try:
            name = self.key("request", lambda text: text, 10)
            request = getattr(self, name, None) if re.fullmatch(r"([A-Z][a-z]+){2}", name) else None
            if request is None:
                raise Refused(11)
            kind, text = request()
            return kind, text
        except (Refused, Fault) as refusal:
            return refusal.number

    def values(self, key):
        found = [value for given, value in self.pairs if given.isascii() and given.lower() == key]
        if len(found) > 1:
            raise Refused(13)
        return found

    def key(self, key, read, absent=12):
        found = self.values(key)
        if not found:
            raise Refused(absent)
        value = read(found[0])
        if value is None:
            raise Refused(14)
        return value

    def optional(self, key, read):
        return self.key(key, read) if self.values(key) else None

    def coverage(self, name):
        if name not in self.store:
            raise Refused(20)
        return self.store[name]

    def put(self, name, coverage, written=()):
        """Puts a coverage, new or written, under a name. What is written is a field, by its place, and a box."""
        self.store[name] = coverage

    def job(self, number):
        if number not in self.jobs:
            raise Refused(70)
        return self.jobs[number]

    def InsertCoverage(self):
        name, axes, fields = (
            self.key("coverage", name_in),
            self.key("domain", listed_in(interval_in)),
            self.key("fields", listed_in(field_in)),
        )
        if name in self.store:
            raise Refused(21)
        if not is_domain(axes):
            raise Refused(22)
        if len(fields) > MOST_FIELDS or len({field for field, _ in fields}) < len(fields):
            raise Refused(23)
        if len(self.store) == MOST_COVERAGES:
            raise Refused(27)
        self.put(name, Coverage(axes, fields, [self.cells(axes, kind) for _, kind in fields]))
        return "plain", "ok\n"

    def cells(self, axes, kind):
        """The cells of a new field."""
        return [False if kind == "bool" else 0] * count(axes)

    def UpdateCoverage(self):
        name, field, box = (
            self.key("coverage", name_in),
            self.key("field", name_in),
            self.key("box", listed_in(interval_in)),
        )
        fill, values = self.values("fill"), self.values("values")
        if not fill and not values:
            raise Refused(12)
        if fill and values:
            raise Refused(14)
        cells = listed_in(cell_in)((fill or values)[0]) if values else [cell_in(fill[0])]
        if cells is None or None in cells:
            raise Refused(14)
        c = self.coverage(name)
        names = [it for it, _ in c.fields]
        if field not in names:
            raise Refused(42)
        k = names.index(field)
        if (
            not is_domain(box)
            or [it[0] for it in box] != [it[0] for it in c.axes]
            or any(lo < low or high < hi for (_, lo, hi), (_, low, high) in zip(box, c.axes))
        ):
            raise Refused(24)
        if values and len(cells) != count(box):
            raise Refused(25)
        if not all(holds(c.fields[k][1], cell) for cell in cells):
            raise Refused(26)
        written = copy.copy(c.cells[k])
        for at, point in enumerate(points(box)):
            written[rank(c.axes, point)] = cells[at] if values else cells[0]
        self.put(name, replace(c, cells=[*c.cells[:k], written, *c.cells[k + 1 :]]), (k, box))
        return "plain", "ok\n"

    def DeleteCoverage(self):
        name = self.key("coverage", name_in)
        self.coverage(name)
        del self.store[name]
        return "plain", "ok\n"

    def ListCoverages(self):
        return "plain", "".join(f"{name}\n" for name in self.store)

    def DescribeCoverage(self):
        c = self.coverage(self.key("coverage", name_in))
        lines = [f"axis {name} {lo} {hi}\n" for name, lo, hi in c.axes] + [
            f"field {name} {kind}\n" for name, kind in c.fields
        ]
        return "plain", "".join(lines)

    def answered(self, query, coverages):
        """The CSV of a query over a store."""
        return answer(query, coverages)

    def ProcessCoverages(self):
        return "csv", self.answered(self.key("query", query_in).encode(), self.store)

    def SubmitQuery(self):
        query = self.key("query", query_in).encode()
        names, most = submitted(query, self.store)
        if len(self.jobs) == MOST_JOBS or self.next == 2**64:
            raise Refused(72)
        number, left = self.next, self.units.get(self.next, 1)
        self.next += 1
        self.jobs[number] = Job(query, names, dict(self.store), left if 1 <= left <= most else 1)
        return "plain", f"job {number} left {self.jobs[number].left}\n"

    def StepJob(self):
        number, units = self.key("job", number_in), self.key("units", units_in)
        job = self.job(number)
        job.left = max(0, job.left - units)
        return "plain", f"left {job.left}\n"

    def FetchJob(self):
        number = self.key("job", number_in)
        job = self.job(number)
        if job.left > 0:
            raise Refused(71)
        del self.jobs[number]
        return "csv", self.answered(job.query, job.store)

    def CancelJob(self):
        number = self.key("job", number_in)
        self.job(number)
        del self.jobs[number]
        return "plain", "ok\n"

    def ExpandTemplate(self):
        return "plain", self.expanded() + "\n"

    def ProcessTemplate(self):
        return "csv", self.answered(self.expanded().encode(), self.store)

    def expanded(self):
        """The query of a template."""
        template, layer = self.key("template", lambda text: text), self.key("layer", layer_in)
        second, radius = self.optional("second", layer_in), self.optional("radius", signed_in)
        found = re.fullmatch(
            r"(Local)(Sum|Difference|Product|Maximum|Minimum)|(Focal|Zonal)(Sum|Maximum|Minimum)", template
        )
        if not found:
            raise Refused(80)
        kind, operation = found[1] or found[3], found[2] or found[4]
        takes_second = kind != "Focal"
        first = self.coverage(layer[0])
        other = self.coverage(second[0]) if takes_second and second else None
        used = [(layer, first)] + ([(second, other)] if other else [])
        if any(not has_layer(it, c) for it, c in used) or (takes_second and not second):
            raise Refused(81)
        if kind == "Focal" and (radius is None or not 1 <= radius <= MOST_RADIUS or len(first.axes) != 2):
            raise Refused(81)
        if kind == "Zonal" and first.axes != other.axes:
            raise Refused(81)
        a = "a" + (f".{layer[1]}" if layer[1] else "")
        b = second[0] if other else ""
        dot = f".{second[1]}" if other and second[1] else ""
        if kind == "Local":
            return f"for a in ({layer[0]}), b in ({b}) return encode({local(operation, a, 'b' + dot)}, csv)"
        op = {"Sum": "+", "Maximum": "max", "Minimum": "min"}[operation]
        if kind == "Focal":
            return focal(layer[0], first.axes, a, op, radius)
        return zonal(layer[0], b, first.axes, a, "z" + dot, op)


def is_domain(axes):
    names = [name for name, _, _ in axes]
    return (
        len(axes) <= MOST_AXES
        and len(set(names)) == len(names)
        and all(fits(lo) and fits(hi) and lo <= hi for _, lo, hi in axes)
        and count(axes) <= MOST_POINTS
    )


def holds(kind, cell):
    if kind == "bool" or isinstance(cell, bool):
        return kind == "bool" and isinstance(cell, bool)
    low, high = RANGES[kind]
    return low <= cell <= high


def has_layer(layer, c):
    """Whether the layer names a field of its coverage, or none of the only one."""
    return layer[1] in [name for name, _ in c.fields] if layer[1] else len(c.fields) == 1


def local(operation, a, b):
    return {
        "Sum": f"{a} + {b}",
        "Difference": f"{a} - {b}",
        "Product": f"{a} * {b}",
        "Maximum": f"{a} * ({a} >= {b}) + {b} * ({a} < {b})",
        "Minimum": f"{a} * ({a} <= {b}) + {b} * ({a} > {b})",
    }[operation]


def focal(layer, axes, a, op, radius):
    (x, x0, x1), (y, y0, y1) = axes
    return (
        f"for a in ({layer}) return encode(coverage f over $p {x}({x0}:{x1}), $q {y}({y0}:{y1}) values condense {op}"
        f" over $u {x}(-{radius}:{radius}), $v {y}(-{radius}:{radius})"
        f" where $p + $u >= {x0} and $p + $u <= {x1} and $q + $v >= {y0} and $q + $v <= {y1}"
        f" using {a}[{x}($p + $u), {y}($q + $v)], csv)"
    )


def zonal(layer, second, axes, a, z, op):
    def over(letter):
        return ", ".join(f"${letter}{k} {name}({lo}:{hi})" for k, (name, lo, hi) in enumerate(axes, 1))

    def at(letter):
        return ", ".join(f"{name}(${letter}{k})" for k, (name, _, _) in enumerate(axes, 1))

    return (
        f"for a in ({layer}), z in ({second}) return encode(coverage f over {over('p')} values condense {op} over {over('u')}"
        f" where {z}[{at('u')}] = {z}[{at('p')}] using {a}[{at('u')}], csv)"
    )


# Messages


def reply_bytes(reply, last, bare):
    """The bytes of a reply; `bare` leaves the body out."""
    if isinstance(reply, int):
        status, kind, body = STATUSES.get(reply, 400), "plain", f"refused {reply} {REFUSALS[reply]}\n".encode()
    else:
        status, (kind, text) = 200, reply
        body = text.encode()
    head = f"HTTP/1.1 {status} {PHRASES[status]}\r\nContent-Type: text/{kind}\r\nContent-Length: {len(body)}\r\n"
    return (head + ("Connection: close\r\n" if last else "") + "\r\n").encode() + (b"" if bare else body)


# Empty lines, a request line, fields, an empty line; a line ends in CR LF or in LF alone.
HEAD = re.compile(
    rb"(?:\r?\n)*([!#$%&'*+.^_`|~0-9A-Za-z-]+) ([!-~\x80-\xff]+) HTTP/1\.([01])\r?\n"
    rb"((?:[!#$%&'*+.^_`|~0-9A-Za-z-]+:[\t -~\x80-\xff]*\r?\n)*)\r?\n"
)


def is_text(data):
    try:
        data.decode()
        return True
    except UnicodeDecodeError:
        return False


def served(machine, stream):
    """The replies to all messages of a stream."""
    out, messages = b"", 0
    while stream:
        found = HEAD.match(stream)
        if not found or found.end() > MOST_HEAD or not is_text(found[2]):
            return out + reply_bytes(1, True, False)
        fields = [
            (name.lower(), value.strip(b" \t"))
            for name, _, value in (line.partition(b":") for line in found[4].replace(b"\r", b"").split(b"\n")[:-1])
        ]
        bare = found[1] == b"HEAD"
        if len(fields) > MOST_HEAD_FIELDS:
            return out + reply_bytes(1, True, False)
        lengths = [value for name, value in fields if name == b"content-length"]
        if any(name == b"transfer-encoding" for name, _ in fields):
            return out + reply_bytes(4, True, bare)
        if (
            any(number_in(it.decode(errors="replace")) is None for it in lengths)
            or len({number_in(it.decode()) for it in lengths}) > 1
        ):
            return out + reply_bytes(1, True, bare)
        length = number_in(lengths[0].decode()) if lengths else 0
        if length > MOST_BODY:
            return out + reply_bytes(2, True, bare)
        body = stream[found.end() : found.end() + length]
        if len(body) < length:
            return out + reply_bytes(1, True, bare)
        stream = stream[found.end() + length :]
        messages += 1
        closes = any(
            name == b"connection" and b"close" in [it.strip(b" \t").lower() for it in value.split(b",")]
            for name, value in fields
        )
        last = closes or found[3] == b"0" or messages == MOST_MESSAGES
        path, _, query = found[2].partition(b"?")
        if found[1] not in (b"GET", b"POST"):
            reply, last = 4, True
        elif path != b"/ows":
            reply = 3
        else:
            reply = machine.reply(body if found[1] == b"POST" else query)
        out += reply_bytes(reply, last, bare)
        if last:
            return out
    return out
