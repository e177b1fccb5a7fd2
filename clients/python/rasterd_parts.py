"""A raster in parts over many servers: its cells as dask arrays, and what is folded where the cells are.

    raster = rasterd_parts.find(["127.0.0.1:8001", "127.0.0.1:8002"], "terrain")
    raster.array("v").mean().compute()       # the cells come to whoever computes
    raster.mean("v")                         # each server folds its parts, and the answers are joined exactly
    raster.zonal("v", "district", range(1, 7))

A part is a coverage: NAME itself where one coverage has the whole raster, else NAME_0_0, NAME_0_1 and so on, a number
for each axis. Servers that have a part of the same box are copies, and are asked in turn. Where a server does not
answer, its copies are asked, and then all of them again until `patience` seconds have gone; then NoAnswer names the
servers and the part. An answer is made of all parts or not at all.

Partial answers are computed by dask: by threads, or by the cluster of a client of dask.distributed. It needs Debian's
packages python3-numpy and python3-dask, and python3-distributed for a cluster.
"""

import bisect
import contextlib
import dataclasses
import itertools
import json
import re
import sys
import time
import uuid
import warnings

import dask
import dask.array
import numpy
import rasterd

KINDS = {"bool": "bool", "u8": "uint8", "i16": "int16", "i32": "int32", "i64": "int64"}

# The most cells of an answer, and of a coverage.
MOST_CELLS = 2**20
MOST_POINTS = 2**24

# The side of a tile by the number of axes, and that of a chunk: whole tiles, and no more cells than an answer may have.
TILE = {1: 4096, 2: 64, 3: 16, 4: 8, 5: 4, 6: 4}
CHUNK = {1: MOST_CELLS, 2: 1024, 3: 96, 4: 32, 5: 16, 6: 8}

# How much work one request may ask, of the 2^32 that the server takes: others are served between two of them.
WORK = 2**29

# In seconds: how long servers that do not answer are asked again, and the pause between; how long one may be silent.
PATIENCE = 60
PAUSE = 0.2
SILENCE = 60


class NoAnswer(Exception):
    """No server that has a part has answered for as long as was waited."""


@dataclasses.dataclass(frozen=True)
class Part:
    """A coverage with a part of a raster, and the servers that have it."""

    coverage: str
    domain: dict
    servers: tuple

    def __str__(self):
        return f"{self.coverage} with {rasterd.interval_list(self.domain)}"


def session(server):
    host, _, port = server.strip().rpartition(":")
    if not host or not port.isdigit():
        raise ValueError(f"`{server}` is not host:port, as 127.0.0.1:8080")
    return rasterd.Session(host, int(port), timeout=SILENCE)


def tell(text):
    """Warns; where dask.distributed runs this, its client is warned too."""
    sys.modules.get("distributed", warnings).warn(text)


def asked(part, ask, patience=PATIENCE, turn=0):
    """What `ask` gives for a session with a server that has the part."""
    end, count, silent = time.monotonic() + patience, len(part.servers), set()
    while True:
        for k in range(count):
            server = part.servers[(turn + k) % count]
            try:
                with session(server) as it:
                    return ask(it)
            except rasterd.NO_ANSWER as fault:
                why = f"no answer from {server}, which has {part}: {fault!r}"
            except rasterd.Refused as refusal:
                if refusal.number != 20:
                    raise
                why = f"{server} has no coverage {part.coverage} any more: {part} is missing there"
            if server not in silent:
                tell(why)
            silent.add(server)
        if time.monotonic() > end:
            raise NoAnswer(f"no answer from {' and '.join(part.servers)} in {patience} s: {part} is missing")
        time.sleep(PAUSE)


def read(part, field, box, patience=PATIENCE, turn=0):
    """The cells of a box of a part."""
    shape = [hi - lo + 1 for lo, hi in box.values()]
    query = f"for c in ({part.coverage}) return encode(c.{field}[{rasterd.interval_list(box)}], csv)"
    return asked(part, lambda it: it.array(query, shape), patience, turn)


def write(part, field, box, cells, patience=PATIENCE):
    """Writes the cells of a box; where no answer comes the same is written again."""
    asked(part, lambda it: it.write(part.coverage, field, cells, box), patience)


def numbers(part, query, patience, turn):
    """The numbers of an answer, in order, of any size."""
    return [int(it) for it in asked(part, lambda it: it.query(query), patience, turn).replace(",", " ").split()]


def answers(asks, patience):
    """The numbers of some queries one after the other, each of a part and with the turn of its copies."""
    return [numbers(part, query, patience, turn) for part, query, turn in asks]


def meeting(one, other):
    """The box in which two boxes on the same axes meet, or None."""
    found = {axis: (max(lo, other[axis][0]), min(hi, other[axis][1])) for axis, (lo, hi) in one.items()}
    return found if all(lo <= hi for lo, hi in found.values()) else None


def bounding(boxes):
    """The smallest box with some boxes in it, which have the same axes."""
    return {axis: (min(it[axis][0] for it in boxes), max(it[axis][1] for it in boxes)) for axis in boxes[0]}


def slabs(part, most):
    """Boxes of a part in its order, each with at most so many cells; in whole tiles where these are not too many."""
    lo, hi = next(iter(part.domain.values()))
    tiles = rasterd.points_of(part.domain) // (hi - lo + 1) * TILE[len(part.domain)]
    return rasterd.parts_of(part.domain, most // tiles * tiles or most)


class Layout:
    """Where parts lie: the edges of the parts on each axis, and which part is between them. Each cell has exactly
    one."""

    def __init__(self, name, parts):
        if len({tuple(it.domain) for it in parts}) > 1:
            raise ValueError(f"the parts of {name} have unlike axes")
        self.edges = {
            axis: sorted({it.domain[axis][0] for it in parts} | {it.domain[axis][1] + 1 for it in parts})
            for axis in parts[0].domain
        }
        self.numbers = numpy.full([len(it) - 1 for it in self.edges.values()], -1)
        for number, part in enumerate(parts):
            there = self.numbers[self.place(part.domain)]
            if (there >= 0).any():
                raise ValueError(f"{part} and {parts[there.max()]} overlap")
            there[...] = number
        if (self.numbers < 0).any():
            raise ValueError(f"parts of {name} are missing: no server has {rasterd.interval_list(self.first_gap())}")

    def place(self, box):
        """The slices of the layout that a box takes, which begins and ends at edges."""
        found = [(it, *box[axis]) for axis, it in self.edges.items()]
        return tuple(slice(bisect.bisect(edges, lo) - 1, bisect.bisect(edges, hi)) for edges, lo, hi in found)

    def first_gap(self):
        at = numpy.argwhere(self.numbers < 0)[0]
        return {axis: (it[k], it[k + 1] - 1) for k, (axis, it) in zip(at, self.edges.items())}

    def part_at(self, box):
        """The number of the part that a box begins in."""
        return self.numbers[tuple(it.start for it in self.place(box))]


def coverages_of(server, name):
    """The coverages of a server that are a part of a raster, each with its domain and its fields."""
    try:
        with session(server) as it:
            listed = it.list()
            own = (
                [name]
                if name in listed
                else [other for other in listed if re.fullmatch(re.escape(name) + r"(_\d+)+", other)]
            )
            described = {coverage: it.describe(coverage) for coverage in own}
    except rasterd.NO_ANSWER as fault:
        raise NoAnswer(f"no answer from {server}: which part of {name} it has is not known ({fault})") from fault
    found = {key: it for key, it in described.items() if key == name or key.count("_") - name.count("_") == len(it[0])}
    if not found:
        raise ValueError(f"{server} has no part of {name}")
    return found


def find(servers, name, patience=PATIENCE):
    """The raster of a name that some servers, each `host:port`, have among them."""
    held, fields = {}, None
    for server in servers:
        for coverage, (domain, found) in coverages_of(server, name).items():
            if fields not in (None, found):
                raise ValueError(f"{coverage} at {server} has the fields {found}, and others have {fields}")
            fields = found
            held.setdefault((coverage, tuple(domain.items())), []).append(server)
    parts = [Part(coverage, dict(domain), tuple(those)) for (coverage, domain), those in held.items()]
    return Raster(name, fields, parts, patience)


def load(path, patience=PATIENCE):
    """The raster that `Raster.save` has written down: no server is asked for it."""
    with open(path, encoding="utf-8") as file:
        kept = json.load(file)
    parts = [
        Part(it["coverage"], {axis: tuple(bounds) for axis, bounds in it["domain"].items()}, tuple(it["servers"]))
        for it in kept["parts"]
    ]
    return Raster(kept["name"], kept["fields"], parts, patience)


class Raster:
    """A raster in parts. Its folds are exact: of integers of any size, and a mean is one division of a sum by a
    count."""

    def __init__(self, name, fields, parts, patience=PATIENCE):
        self.name, self.fields, self.patience = name, fields, patience
        self.parts = sorted(parts, key=lambda it: list(it.domain.values()))
        self.layout = Layout(name, self.parts)
        self.domain = bounding([it.domain for it in parts])

    def save(self, path):
        """Writes down where the parts are, so that a server that is down later is named with its part."""
        kept = {"name": self.name, "fields": self.fields, "parts": list(map(dataclasses.asdict, self.parts))}
        with open(path, "w", encoding="utf-8") as file:
            json.dump(kept, file)

    # Cells

    def cuts(self, sizes=None):
        """The intervals of each axis that chunks are made of: cut where parts end, and where a chunk is long enough."""
        found = {}
        for axis, edges in self.layout.edges.items():
            size = (sizes or {}).get(axis, CHUNK[len(self.domain)])
            starts = [at for first, after in itertools.pairwise(edges) for at in range(first, after, size)]
            found[axis] = [(first, after - 1) for first, after in itertools.pairwise([*starts, edges[-1]])]
        return found

    def array(self, field, chunks=None):
        """A field as a dask array; `chunks` may give the side of a chunk by its axis."""
        cuts, kind = self.cuts(chunks), KINDS[self.fields[field]]
        name, graph = f"rasterd-{uuid.uuid4().hex}", {}
        places = itertools.product(*(range(len(it)) for it in cuts.values()))
        for turn, (place, box) in enumerate(zip(places, itertools.product(*cuts.values()))):
            named = dict(zip(cuts, box))
            part = self.parts[self.layout.part_at(named)]
            graph[(name, *place)] = (typed, part, field, named, kind, self.patience, turn)
        sizes = [tuple(hi - lo + 1 for lo, hi in it) for it in cuts.values()]
        return dask.array.Array(graph, name, sizes, kind)

    def cells(self, field, box):
        """The cells of a box as an array of numpy, from all parts that it meets."""
        bounds = zip(box.values(), self.domain.values())
        if list(box) != list(self.domain) or any(lo < low or high < hi for (lo, hi), (low, high) in bounds):
            raise ValueError(f"{rasterd.interval_list(box)} is no box inside {rasterd.interval_list(self.domain)}")
        kind = KINDS[self.fields[field]]
        made = numpy.empty([hi - lo + 1 for lo, hi in box.values()], kind)
        for part in self.parts:
            common = meeting(part.domain, box)
            for piece in rasterd.parts_of(common, MOST_CELLS) if common else []:
                place = tuple(slice(lo - box[axis][0], hi - box[axis][0] + 1) for axis, (lo, hi) in piece.items())
                made[place] = read(part, field, piece, self.patience)
        return made

    # Folds where the cells are

    def partial(self, query, most=MOST_POINTS):
        """The numbers of a query of each box of each part, each with at most so many cells; copies share a part's
        boxes. A server answers one request at a time, so those to one server are one task of dask."""
        tasks = {}
        for part in self.parts:
            share = -(-rasterd.points_of(part.domain) // len(part.servers))
            for turn, box in enumerate(slabs(part, max(1, min(most, share)))):
                server = part.servers[turn % len(part.servers)]
                tasks.setdefault(server, []).append((part, query(part, rasterd.interval_list(box)), turn))
        found = dask.compute(*(dask.delayed(answers, pure=False)(asks, self.patience) for asks in tasks.values()))
        return list(itertools.chain(*found))

    def cell(self, field, box, variable="c"):
        """The expression of a field in a box, a Boolean as a number."""
        return f"{'+' if self.fields[field] == 'bool' else ''}{variable}.{field}[{box}]"

    def fold(self, name, field):
        return self.partial(lambda part, box: f"for c in ({part.coverage}) return {name}({self.cell(field, box)})")

    def sum(self, field):
        return sum(it for (it,) in self.fold("add", field))

    def mean(self, field):
        return self.sum(field) / rasterd.points_of(self.domain)

    def min(self, field):
        return min(it for (it,) in self.fold("min", field))

    def max(self, field):
        return max(it for (it,) in self.fold("max", field))

    def counts(self, field, classes):
        """How many cells have each of some values that follow one another, by the value."""
        lo, hi = classes[0], classes[-1]

        def query(part, box):
            values = f"count({self.cell(field, box)} = $k)"
            return f"for c in ({part.coverage}) return encode(coverage t over $k class({lo}:{hi}) values {values}, csv)"

        found = self.partial(query, WORK // (4 * (hi - lo + 1)))
        return dict(zip(range(lo, hi + 1), map(sum, zip(*found))))

    def zonal(self, field, zone, zones, of=None):
        """The number of cells and the sum of a field in each zone, by the zone: values that follow one another of the
        field `zone`, of this raster or of another one, which is cut alike over the same servers."""
        lo, hi, of = zones[0], zones[-1], of or self
        beside = of.beside(self)

        def query(part, box):
            zoned = f"{of.cell(zone, box, 'd')} = $k"
            over = f"over $k zone({lo}:{hi}) values"
            count, total = f"count({zoned})", f"add({self.cell(field, box)} * ({zoned}))"
            names = f"c in ({part.coverage}), d in ({beside[part.coverage]})"
            return f"for {names} return encode({{n: coverage n {over} {count}; s: coverage s {over} {total}}}, csv)"

        found = self.partial(query, WORK // (10 * (hi - lo + 1)))
        joined = list(map(sum, zip(*found)))
        return dict(zip(range(lo, hi + 1), zip(joined[::2], joined[1::2])))

    def beside(self, other):
        """The coverage of this raster that lies at the same servers as each coverage of another one, and has its
        box."""
        found = {}
        for part in other.parts:
            own = [it for it in self.parts if it.domain == part.domain and set(part.servers) <= set(it.servers)]
            if not own:
                raise ValueError(f"{self.name} has no part of the same box beside {part} at {', '.join(part.servers)}")
            found[part.coverage] = own[0].coverage
        return found


def typed(part, field, box, kind, patience, turn):
    return read(part, field, box, patience, turn).astype(kind)


def focal_sum(array, radius):
    """The sum of the cells at most so far away on each axis, as an array of dask: chunks lend each other their edges,
    also where another server has the neighbour, and a window ends where the raster does."""

    def summed(block):
        for axis in range(block.ndim):
            block = numpy.lib.stride_tricks.sliding_window_view(block, 2 * radius + 1, axis).sum(-1)
        return block

    wide = array.astype("int64")
    return dask.array.map_overlap(summed, wide, depth=radius, boundary=0, trim=False, dtype="int64")


# Cutting


def cut(domain, count):
    """A box in so many parts or a few more, in whole tiles, none of which is larger than a coverage may be; and of each
    part its place on each axis."""
    pieces, tile = {axis: 1 for axis in domain}, TILE[len(domain)]

    def length(axis):
        lo, hi = domain[axis]
        found = -(-(hi - lo + 1) // pieces[axis])
        return -(-found // tile) * tile if pieces[axis] > 1 else found

    while numpy.prod(list(pieces.values())) < count or numpy.prod([length(it) for it in domain]) > MOST_POINTS:
        longest = max(domain, key=length)
        if length(longest) == 1:
            break
        pieces[longest] += 1
    intervals = []
    for axis, (lo, hi) in domain.items():
        size = length(axis)
        intervals.append([(at, min(hi, at + size - 1)) for at in range(lo, hi + 1, size)])
    for place in itertools.product(*(range(len(it)) for it in intervals)):
        yield place, {axis: those[k] for axis, those, k in zip(domain, intervals, place)}


def make(servers, name, domain, fields, patience=PATIENCE):
    """A raster of zeros, cut over some servers, which get its parts in turn."""
    boxes = list(cut(domain, len(servers)))
    if len(boxes) < len(servers):
        left = ", ".join(servers[len(boxes) :])
        tell(
            f"{name} has {len(boxes)} parts, of whole tiles: {left} has none, and is not named when the raster is opened"
        )
    parts = []
    for k, (place, box) in enumerate(boxes):
        coverage = name if len(boxes) == 1 else "_".join([name, *map(str, place)])
        parts.append(Part(coverage, box, (servers[k % len(servers)],)))
    raster, made = Raster(name, fields, parts, patience), []
    with undone(made):
        for part in parts:
            insert(part, fields)
            made.append(part)
    return raster


def insert(part, fields):
    """Makes a part of zeros. What fails has a note where the part may be there all the same."""
    server = part.servers[0]
    try:
        # asked once: a second insertion would be refused where the first was done
        with session(server) as it:
            it.insert(part.coverage, part.domain, fields)
    except BaseException as fault:
        is_silent = isinstance(fault, rasterd.NO_ANSWER)
        told = NoAnswer(f"no answer from {server}, which was to have {part}: {fault!r}") if is_silent else fault
        if not isinstance(fault, (rasterd.Refused, ConnectionRefusedError)):
            # taken away blindly it might be another client's of the same name
            told.add_note(f"{part} may have been made at {server}")
        raise told


@contextlib.contextmanager
def undone(parts):
    """Deletes the parts where what is done meanwhile fails; what could not be deleted is noted with the fault."""
    try:
        yield
    except BaseException as fault:
        try:
            remove(parts)
        except NoAnswer as left:
            fault.add_note(str(left))
        raise


def remove(parts):
    """Deletes the parts of a raster at all their servers."""
    left = []
    for part, server in [(part, server) for part in parts for server in part.servers]:
        try:
            with session(server) as it:
                it.delete(part.coverage)
        except (rasterd.Refused, *rasterd.NO_ANSWER) as fault:
            if getattr(fault, "number", None) != 20:
                left.append(f"{part} at {server} ({fault})")
    if left:
        raise NoAnswer(f"not deleted: {', '.join(left)}")
