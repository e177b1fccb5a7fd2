"""A store's file, and messages over it."""

import struct
from urllib.parse import urlencode


def message(**pairs):
    body = urlencode(pairs, safe="(),:;").encode()
    return b"POST /ows HTTP/1.1\r\nContent-Length: %d\r\n\r\n%s" % (len(body), body)


def lai():
    """A closed file with a coverage `lai` of a hundred 7s."""
    named = b"\x03lai\x01\x01x" + struct.pack("<ii", 0, 99) + b"\x01\x01v\x02"
    listed = struct.pack("<4I", 1, 0, 4, 1)
    metadata = struct.pack("<QI", 4 + len(named), 1) + named + struct.pack("<Q", len(listed)) + listed
    header = b"WCPSTORE" + struct.pack("<4IQ", 1, 2, 3, 2, len(metadata))
    return (
        header.ljust(4096, b"\0")
        + struct.pack("<Hh", 100, 7).ljust(4096, b"\0")
        + (bytes(4) + metadata).ljust(4096, b"\0")
    )


def insert(name, domain, fields):
    return message(request="InsertCoverage", coverage=name, domain=domain, fields=fields)


def update(name, field, box, **cells):
    return message(request="UpdateCoverage", coverage=name, field=field, box=box, **cells)


def query(text):
    return message(request="ProcessCoverages", query=text)


def submit(text):
    return message(request="SubmitQuery", query=text)


def step(job, units=1):
    return message(request="StepJob", job=job, units=units)


def of_job(request, job):
    return message(request=request, job=job)


def template(request, name, **pairs):
    return message(request=request, template=name, **pairs)


SHORT = [
    insert("w", "y(0:69),x(0:1)", "v:i16"),
    update("w", "v", "y(0:69),x(0:1)", values=",".join(str(k % 11) for k in range(140))),
    query("for c in (w) return encode(c + 1, csv)"),
    submit("for c in (w) return add(c)"),
    step(1),
    update("w", "v", "y(0:69),x(1:1)", fill=5),
    step(1, 1000),
    of_job("FetchJob", 1),
    template("ProcessTemplate", "FocalSum", layer="w", radius=1),
    message(request="DeleteCoverage", coverage="w"),
]

# the same, where nothing is written between the steps of the job
PLAIN = SHORT[:5] + SHORT[6:]

CELLS = "3,1,4,1,5,9,2,6"

# all requests and types of cells, one to four axes, some faults, five jobs, three templates; between the steps of jobs
# what they read is written, and deleted and inserted anew
LONG = [
    message(request="ListCoverages"),
    query("for c in (lai) return encode(c, csv)"),
    insert("a", "x(0:4999)", "v:bool"),
    insert("b", "y(-2:1),x(0:69)", "v:u8,w:i64"),
    insert("c", "t(0:1),y(0:16),x(5:20)", "v:i32"),
    insert("d", "k(0:8),t(0:1),y(0:1),x(0:8)", "v:i16,ok:bool"),
    insert("a", "x(0:1)", "v:u8"),
    update("a", "v", "x(0:2500)", fill="true"),
    update("a", "v", "x(4094:4099)", values="true,false,true,true,false,true"),
    update("b", "v", "y(-2:-1),x(60:63)", values=CELLS),
    update("b", "w", "y(-2:1),x(0:69)", fill="-9223372036854775808"),
    update("b", "w", "y(0:1),x(3:6)", values=CELLS),
    update("c", "v", "t(0:1),y(15:16),x(5:20)", fill=7),
    update("c", "v", "t(0:0),y(0:0),x(5:12)", values=CELLS),
    update("d", "v", "k(7:8),t(0:1),y(0:1),x(8:8)", values=CELLS),
    update("d", "ok", "k(0:8),t(0:1),y(0:1),x(0:8)", fill="true"),
    update("d", "v", "k(0:0),t(0:0),y(0:0),x(0:0)", fill=40000),
    message(request="DescribeCoverage", coverage="d"),
    message(request="DescribeCoverage", coverage="e"),
    query("for c in (a) return count(c)"),
    query("for c in (b) return encode({p: c.v; q: c.w > 0}, csv)"),
    query("for c in (b) return encode(c.w - 1, csv)"),
    query("for c in (c) return encode(c[t(0), y(14:16)] * 3, csv)"),
    query("for c in (c), d in (d) where add(c) > 3 return max(d.v[k(8)])"),
    query("for c in (lai, a) return encode(c[x(0:3)] = c[x(1:4)], csv)"),
    query(
        "for c in (c) return encode(coverage m over $i x(0:5), $j y(0:2) values"
        " condense + over $k x(5:8) using c[t(1), y($j), x($k + $i)], csv)"
    ),
    query("for c in (lai) return condense * over $i x(0:3) where c[x($i)] = 7 using c[x($i)] + $i"),
    query("for c in (lai) return encode(coverage m over $i x(0:2) values c[x($i + 98)], csv)"),
    query("for c in (lai) return 1 / (c[x(0)] - 7)"),
    query("for c in (lai) return encode(coverage m over $i x(0:3) value list <1; -2; 3; 4>, csv)"),
    query("for c in (lai) return nothing"),
    submit("for c in (b) return encode(c.v + 1, csv)"),
    submit("for c in (a) return some(c)"),
    submit("for c in (lai) return max(1 / (c - 7))"),
    submit("for c in (d) return encode(c.v[x(8)], csv)"),
    submit("for c in (d) return add(c.v) + count(c.ok)"),
    step(1),
    step(2, 1000),
    update("b", "v", "y(0:0),x(0:0)", fill=1),
    step(1, 1000),
    step(3, 1000),
    step(5),
    message(request="DeleteCoverage", coverage="d"),
    step(5),
    insert("d", "x(0:1)", "v:u8"),
    update("d", "v", "x(0:1)", fill=200),
    query("for c in (d) return add(c)"),
    step(5, 1000),
    of_job("FetchJob", 5),
    of_job("FetchJob", 1),
    of_job("FetchJob", 2),
    of_job("FetchJob", 3),
    of_job("FetchJob", 4),
    of_job("CancelJob", 4),
    of_job("CancelJob", 4),
    template("ExpandTemplate", "LocalSum", layer="b.v", second="b.w"),
    template("ProcessTemplate", "LocalMaximum", layer="b.v", second="b.v"),
    template("ProcessTemplate", "FocalSum", layer="b.v", radius=1),
    template("ProcessTemplate", "ZonalSum", layer="a", second="a"),
    update("b", "v", "y(-2:1),x(0:69)", fill=0),
    message(request="DeleteCoverage", coverage="c"),
    message(request="DeleteCoverage", coverage="c"),
    insert("e", "x(0:9)", "v:u8"),
    message(request="ListCoverages"),
]
