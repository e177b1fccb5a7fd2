r"""A client of rasterd, over HTTP/1.1, with the standard library alone; numpy makes arrays of answers if it is there.

    session = rasterd.Session(port=8080)
    session.insert("hill", {"y": (0, 2), "x": (0, 3)}, {"v": "i16"})
    session.write("hill", "v", [[1, 2, 3, 4], [5, 6, 7, 8], [9, 10, 11, 12]])
    session.query("for c in (hill) return add(c)")        # '78\n'
    session.array("for c in (hill) return encode(c[y(0:1)], csv)")
    session.run("for c in (hill) return max(c)")          # as a job, with a line that shows its progress

A refusal is raised as `Refused`, with its number, its name and, where it can be found, what to change. The server serves one
connection at a time, so a connection ends with each call, and others are served. Many short requests go faster inside a
`with`, which keeps the connection for them: `with session: ..`.
"""

import contextlib
import http.client
import re
import select
import sys
import time
import urllib.parse

# What a body may have, and of that the cells, less some room for the other keys.
MAX_BODY, MAX_VALUES = 1_048_576, 1_000_000

# What a form may have as it is.
PLAIN = ",:()"

# How long a step of a job is to take, in seconds, and the most units of one: the units after these may be far slower.
STEP, MOST_UNITS = 0.05, 32

# The refusals after which a job is there no more: its answer was a fault, which it has told, or it was gone before.
GONE = (60, 61, 62, 63, 64, 70)

# What a field type holds, both inclusive; a bool holds false and true.
RANGES = {
    "u8": (0, 2**8 - 1),
    "i16": (-(2**15), 2**15 - 1),
    "i32": (-(2**31), 2**31 - 1),
    "i64": (-(2**63), 2**63 - 1),
}


class Refused(Exception):
    """A request that the server refused: `number` and `name` say why, `status` is that of HTTP, and `reason` what to
    change, or None where that was not found."""

    def __init__(self, number, name, status, reason=None):
        super().__init__(f"{number} {name}: {reason}" if reason else f"{number} {name}")
        self.number, self.name, self.status, self.reason = number, name, status, reason


class NotUnderstood(Exception):
    """An answer that is none of this server's."""


# What a request raises where no answer of the server came: whether it was done is not known.
NO_ANSWER = (OSError, http.client.HTTPException, NotUnderstood)


def interval_list(box):
    """The text of a box: a mapping from axes, in order, to their lowest and highest coordinates, as `y(0:2),x(0:3)`."""
    return ",".join(f"{axis}({lo}:{hi})" for axis, (lo, hi) in box.items())


def cell_text(cell):
    """The text of a cell: `true` or `false` of a Boolean, numpy's too, else the number, which has to be whole."""
    if isinstance(cell, bool) or type(cell).__name__ in ("bool_", "bool"):
        return "true" if cell else "false"
    try:
        whole = int(cell)
    except (TypeError, ValueError, OverflowError):
        whole = None
    if whole is None or whole != cell:
        raise ValueError(f"{cell!r} is no cell: cells are whole numbers and Booleans")
    return str(whole)


def texts_of(cells):
    """The texts of some cells of an array of numpy, all at once; texts stay as they are."""
    if not hasattr(cells, "dtype"):
        return cells
    if cells.dtype.kind == "b":
        return ["true" if cell else "false" for cell in cells.tolist()]
    return list(map(str, cells.tolist()))


def longest_of(cells):
    """The length of the longest text of some cells."""
    if hasattr(cells, "dtype"):
        return (
            max(len(str(int(cell))) for cell in (cells.min(), cells.max())) if cells.dtype.kind != "b" else len("false")
        )
    return max(map(len, cells), default=1)


def flat(values):
    """The cells of nested sequences, or of an array, in row-major order."""
    for value in values.flat if hasattr(values, "flat") else values:
        if isinstance(value, (list, tuple)) or getattr(value, "shape", ()):
            yield from flat(value)
        else:
            yield value


def arranged(values):
    """What cells are given in, as an array of numpy where it can be one, else as a list. Masked cells are none."""
    if hasattr(values, "filled") and values.mask.any():
        raise ValueError(
            "cells are masked: give values.filled(0), and write ~values.mask into a Boolean field beside it"
        )
    if hasattr(values, "__array__"):
        import numpy

        return numpy.asarray(values)
    return list(values)


def shape_of(values):
    """The lengths of an array, or of nested sequences, along their axes; a cell has none."""
    if not isinstance(values, (list, tuple)):
        return tuple(getattr(values, "shape", ()))
    shapes = {shape_of(value) for value in values}
    if len(shapes) > 1:
        raise ValueError("the cells are given in sequences of unlike lengths")
    return (len(values), *(shapes.pop() if shapes else ()))


def of_several(sizes):
    """The sizes of the axes that have more than one coordinate: in which order cells stand depends on these alone."""
    return [size for size in sizes if size != 1]


def in_a_row(values):
    """The cells in row-major order: an array of numpy where they are one of integers or Booleans, else their texts."""
    if hasattr(values, "dtype") and values.dtype.kind in "iub" and values.size:
        return values.ravel()
    return [cell_text(cell) for cell in flat(values)]


def parsed_cell(text):
    """The cell of a text: a bool or an int."""
    return text == "true" if text in ("true", "false") else int(text)


def items_of(csv):
    """The items of an answer: for each a list of lines, of lists of cells, of tuples of fields."""
    if not csv:
        return []
    return [
        [[tuple(map(parsed_cell, cell.split(" "))) for cell in line.split(",")] for line in item.splitlines()]
        for item in csv.split("\n\n")
    ]


def has_come(sock):
    """Whether something, or its end, has come on a connection; whatever its number, as `select` takes none from 1,024
    on."""
    poll = select.poll()
    poll.register(sock, select.POLLIN)
    return bool(poll.poll(0))


def print_progress(done, whole):
    """A line on standard error that is written over until all is done."""
    print(f"\r{done:,} of {whole:,} units", end="\n" if done == whole else "", file=sys.stderr, flush=True)


class Session:
    """Requests to one server, at a path of a proxy's where there is one, and over TLS by an `ssl.SSLContext`.

    The connection is kept inside a call and inside a `with`. It is made anew where the server has ended it: it does so
    after 1,000 messages, and after 60 seconds without one."""

    def __init__(self, host="127.0.0.1", port=8080, timeout=60, path="/ows", tls=None):
        self.path, self.depth = path, 0
        if tls:
            self.connection = http.client.HTTPSConnection(host, port, timeout=timeout, context=tls)
        else:
            self.connection = http.client.HTTPConnection(host, port, timeout=timeout)

    def __enter__(self):
        self.depth += 1
        return self

    def __exit__(self, *_):
        self.depth -= 1
        if not self.depth:
            self.close()

    def close(self):
        """Ends the connection; the next request makes a new one."""
        self.connection.close()

    def request(self, request, **keys):
        """The body of the reply to a request. A key that is None is left out. Nothing is sent twice."""
        pairs = {"request": request} | {key: value for key, value in keys.items() if value is not None}
        body = urllib.parse.urlencode(pairs, safe=PLAIN).encode()
        if len(body) > MAX_BODY:
            # as the server would, which ends the connection before it has read all
            raise Refused(2, "BodyTooLong", 413, self.reason(2, pairs))
        status, text = self.sent(body)
        if status == 200:
            return text
        words = text.split()
        if len(words) != 3 or words[0] != "refused" or not words[1].isdigit():
            raise NotUnderstood(f"status {status}: {text[:200]!r}")
        raise Refused(int(words[1]), words[2], status, self.reason(int(words[1]), pairs))

    def sent(self, body):
        """The status and the text of the reply to a form."""
        if self.connection.sock and has_come(self.connection.sock):
            # the server has ended it since the last reply
            self.close()
        try:
            self.connection.request("POST", self.path, body)
            reply = self.connection.getresponse()
            found = reply.status, reply.read().decode()
        except BaseException:
            # what is left of a reply must not be taken for that of the next request
            self.close()
            raise
        if not self.depth:
            self.close()
        return found

    def reason(self, number, pairs):
        """What to change after a refusal, where the module beside this one finds it."""
        # advice, which must never stand in the way of the refusal itself
        with contextlib.suppress(Exception):
            import rasterd_why

            return rasterd_why.reason(number, pairs, self.describe)

    # Coverages

    def insert(self, coverage, domain, fields):
        """Makes a coverage of zeros: `domain` maps axes, in order, to their bounds, and `fields` names to types."""
        self.request(
            "InsertCoverage",
            coverage=coverage,
            domain=interval_list(domain),
            fields=",".join(f"{name}:{kind}" for name, kind in fields.items()),
        )

    def delete(self, coverage):
        self.request("DeleteCoverage", coverage=coverage)

    def list(self):
        """The names of the coverages, in order of insertion."""
        return self.request("ListCoverages").splitlines()

    def describe(self, coverage):
        """The domain and the fields of a coverage, as `insert` takes them."""
        words = [line.split(" ") for line in self.request("DescribeCoverage", coverage=coverage).splitlines()]
        domain = {it[1]: (int(it[2]), int(it[3])) for it in words if it[0] == "axis"}
        return domain, {it[1]: it[2] for it in words if it[0] == "field"}

    def fill(self, coverage, field, cell, box=None):
        """Gives all cells of a box, or of the whole coverage, one value."""
        with self:
            box = interval_list(self.describe(coverage)[0] if box is None else box)
            self.request("UpdateCoverage", coverage=coverage, field=field, box=box, fill=cell_text(cell))

    def write(self, coverage, field, values, box=None, progress=None):
        """Writes cells into a box, or into the whole coverage: an array or nested sequences of its shape, in which axes
        of one coordinate may be left out, or all cells in a row, in row-major order. What is too long for one request
        goes in several, each of whole rows along the first axis or parts of them; `progress` is called with the cells
        that are written and all that there are. Where a request is refused, the parts before it have been written."""
        with self:
            box = self.describe(coverage)[0] if box is None else box
            values = arranged(values)
            cells, points = in_a_row(values), points_of(box)
            if len(cells) != points:
                raise ValueError(f"the box has {points} cells, and {len(cells)} are given")
            shape, sizes = shape_of(values), tuple(hi - lo + 1 for lo, hi in box.values())
            if len(shape) > 1 and of_several(shape) != of_several(sizes):
                raise ValueError(f"the box has the shape {sizes}, and the cells have {shape}")
            at = 0
            for part in parts_of(box, max(1, MAX_VALUES // (longest_of(cells) + 1))):
                count = points_of(part)
                self.request(
                    "UpdateCoverage",
                    coverage=coverage,
                    field=field,
                    box=interval_list(part),
                    values=",".join(texts_of(cells[at : at + count])),
                )
                at += count
                if progress:
                    progress(at, points)

    # Queries

    def query(self, query):
        """The answer to a query, as the server's CSV."""
        return self.request("ProcessCoverages", query=query)

    def items(self, query):
        """The items of the answer; see `items_of`."""
        return items_of(self.query(query))

    def array(self, query, shape=None):
        """The one item of the answer as an array, or, of several fields, as a list of one for each. Lines and cells are
        its two axes unless a shape is given."""
        return arrays_of(self.query(query), shape)

    # Jobs

    def submit(self, query):
        """Makes a job of a query: its number, and the units that it has left. Its answer is that of the coverages as
        they are now. Updates and deletions of them are taken meanwhile; what they write over stays in the file until
        the job has no units left or is cancelled, so a job that is not brought to its end is to be cancelled."""
        words = self.request("SubmitQuery", query=query).split()
        return int(words[1]), int(words[3])

    def step(self, job, units=1):
        """Does so many units of a job, 1 to 1,000, and gives those that are left."""
        return int(self.request("StepJob", job=job, units=units).split()[1])

    def fetch(self, job):
        """The answer of a job without units left, as the server's CSV. The job is gone then, also where its answer is a
        fault, which is raised as `Refused`."""
        return self.request("FetchJob", job=job)

    def cancel(self, job):
        """Ends a job, with units left or without."""
        self.request("CancelJob", job=job)

    def run(self, query, units=None, progress=print_progress):
        """The answer to a query as a job, so many units a request, or as many as take some 50 milliseconds, measured as
        it goes. Others are served between these, as the connection is ended after each. The answer is fetched on the
        last connection, since a run of the server, with its jobs, may end between two. `progress` is called with the
        units done and all that there are; None is for silence. A job that is not brought to its end is cancelled."""
        job, whole = self.submit(query)
        left, size, answer = whole, units or 1, None
        try:
            self.close()
            while left:
                size, start = min(size, left), time.monotonic()
                with self:
                    left = self.stepped(job, left, size)
                    took = max(time.monotonic() - start, 1e-6)
                    try:
                        answer = None if left else self.fetch(job)
                    finally:
                        self.close()
                        if progress:
                            progress(whole - left, whole)
                size = units or max(1, min(2 * size, int(size * STEP / took), MOST_UNITS))
            return answer
        except BaseException as fault:
            if answer is None and not is_gone(fault):
                with contextlib.suppress(Refused, *NO_ANSWER):
                    self.cancel(job)
            raise

    def stepped(self, job, left, units):
        """The units that a job has left after a step. Another number than is to come is that of another job: then
        another server answered, or a run of the server has ended, and its jobs with it."""
        found = self.step(job, units)
        if found != max(0, left - units):
            raise NotUnderstood(
                f"job {job} is another one: a server's jobs end with its run, and are known to it alone"
            )
        return found

    # Templates

    def expand(self, template, layer, second=None, radius=None):
        """The query of a template."""
        return self.request("ExpandTemplate", template=template, layer=layer, second=second, radius=radius)

    def template(self, template, layer, second=None, radius=None):
        """The answer to the query of a template, as the server's CSV."""
        return self.request("ProcessTemplate", template=template, layer=layer, second=second, radius=radius)


def is_gone(fault):
    """Whether a fault says that a job is there no more, or is another's by now: its number may be given anew."""
    return isinstance(fault, (NotUnderstood, ConnectionError)) or getattr(fault, "number", None) in GONE


def points_of(box):
    """How many points a box has."""
    points = 1
    for lo, hi in box.values():
        points *= hi - lo + 1
    return points


def parts_of(box, most):
    """Parts of a box that follow one another in row-major order, each with at most so many points."""
    if points_of(box) <= most:
        return [box]
    (axis, (lo, hi)), *rest = box.items()
    row = points_of(dict(rest))
    if row <= most:
        step = most // row
        return [{axis: (at, min(hi, at + step - 1)), **dict(rest)} for at in range(lo, hi + 1, step)]
    return [{axis: (at, at), **part} for at in range(lo, hi + 1) for part in parts_of(dict(rest), most)]


def arrays_of(csv, shape=None):
    """The one item of an answer as an array of numpy, or a list of them where it has several fields."""
    import numpy

    if not csv or "\n\n" in csv:
        count = csv.count("\n\n") + 1 if csv else 0
        raise ValueError(f"the answer has {count} items, and an array is made of one")
    booleans = [it in ("true", "false") for it in re.match(r"[^,\n]*", csv)[0].split(" ")]
    if any(booleans):
        csv = csv.replace("true", "1").replace("false", "0")
    lines = csv.count("\n")
    cells = numpy.fromstring(csv.rstrip("\n").replace(" ", ",").replace("\n", ","), numpy.int64, sep=",")
    cells = cells.reshape(lines, -1, len(booleans))
    fields = [cells[:, :, k].astype(bool) if it else cells[:, :, k] for k, it in enumerate(booleans)]
    shaped = [it.reshape(shape) if shape else it for it in fields]
    return shaped[0] if len(shaped) == 1 else shaped
