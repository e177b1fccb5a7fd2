"""The machine over a file of at most 2^20 blocks: which of them are in use, by the tiles of coverages and of what jobs
keep, and which updates and insertions lack room. And a file that is nearly full."""

import functools
import itertools
import struct

import store
from language import Refused
from machine import Machine
from meaning import MOST_POINTS, points, rank

LINK = 4092
# in the nearly full file: one coverage in 2^21 tiles, of which each that is listed takes ten blocks
FILLER = "full"
FILLER_AXES = [("k", 0, MOST_POINTS - 1), ("t", 0, 0), ("y", 0, 0), ("x", 0, 0)]
TILE_BLOCKS = store.LONGEST_RUNS // store.BLOCK


def blocks_in(size, block):
    """How many blocks so many bytes fill."""
    return -(-size // block)


def catalogue_bytes(signatures):
    """The bytes of the catalogue of some coverages, each a name, its axes and its fields."""
    data = struct.pack("<I", len(signatures))
    for name, axes, fields in signatures:
        data += spelled(name) + struct.pack("B", len(axes))
        data += b"".join(spelled(axis) + struct.pack("<ii", lo, hi) for axis, lo, hi in axes)
        data += struct.pack("B", len(fields))
        data += b"".join(spelled(field) + struct.pack("B", store.TYPES.index(kind)) for field, kind in fields)
    return data


def spelled(name):
    return struct.pack("B", len(name)) + name.encode()


def tile_length(kind, cells):
    """How many bytes a tile has: those of its runs, or of its cells one after the other where these are fewer."""
    return min(store.runs_size(kind, cells), struct.calcsize(store.VALUES[kind]) * len(cells))


def meets(box, other):
    return all(lo <= high and low <= hi for (_, lo, hi), (_, low, high) in zip(box, other))


class Filler:
    """A coverage that takes up all blocks but `spare` and those of its own metadata, so many a tile."""

    def __init__(self, spare, tile_blocks=TILE_BLOCKS):
        self.blocks, self.tile_blocks = 0, tile_blocks
        signatures = catalogue_bytes([(FILLER, FILLER_AXES, [("v", "i64")])])
        taken, chain = store.MOST_BLOCKS, 0
        while self.blocks != taken:
            taken = self.blocks
            self.blocks = store.MOST_BLOCKS - 1 - chain - spare
            self.tiles = blocks_in(self.blocks, tile_blocks)
            self.length = 8 + len(signatures) + 8 + 4 + 8 * self.tiles + 4 * self.blocks
            chain = blocks_in(self.length, LINK)
        self.signatures, self.chain = signatures, chain

    def index(self):
        """The bytes of its index: its tiles in turn, over its blocks in turn."""
        found = [struct.pack("<I", self.tiles)]
        for number, first in enumerate(range(1, self.blocks + 1, self.tile_blocks)):
            blocks = range(first, min(first + self.tile_blocks, self.blocks + 1))
            found.append(struct.pack(f"<II{len(blocks)}I", number, len(blocks) * store.BLOCK, *blocks))
        return b"".join(found)

    @functools.cached_property
    def metadata(self):
        index = self.index()
        return struct.pack("<Q", len(self.signatures)) + self.signatures + struct.pack("<Q", len(index)) + index

    def write(self, path):
        """Makes the file, whose metadata stands behind the coverage's blocks. No tile is written, since none is asked
        for."""
        first, metadata = self.blocks + 1, self.metadata
        with open(path, "wb") as file:
            file.truncate(store.MOST_BLOCKS * store.BLOCK)
            file.write(b"WCPSTORE" + struct.pack("<4IQ", 1, 2, store.MOST_BLOCKS, first, len(metadata)))
            file.seek(first * store.BLOCK)
            for k in range(self.chain):
                part = metadata[k * LINK : k * LINK + LINK]
                link = first + k + 1 if k + 1 < self.chain else 0
                file.write((struct.pack("<I", link) + part).ljust(store.BLOCK, b"\0"))


class Roomy(Machine):
    """The machine, which has the blocks of each listed tile by number: `indexes` those of the coverages by name, a list
    a field, and `held` those of what a job keeps, by the job's number. A write takes new blocks for all tiles that meet
    its box and are not 0 everywhere, and gives the old ones back afterwards; they are free where no job with units left
    keeps them.
    """

    def __init__(self, units=None, filler=None):
        super().__init__(units)
        self.filler, self.indexes, self.held, self.fresh = filler, {}, {}, itertools.count()

    def in_use(self, kept=True):
        """The blocks of tiles, with those that jobs keep or without."""
        lists = [*self.indexes.values(), *(it for lists in self.held.values() if kept for it in lists)]
        return {block for fields in lists for tiles in fields for blocks in tiles.values() for block in blocks}

    def free(self, kept=True):
        filled = self.filler.blocks if self.filler else 0
        return store.MOST_BLOCKS - 1 - filled - len(self.in_use(kept))

    def reserve(self, coverages, indexes):
        """How many blocks the metadata of a store would take."""
        size = 8 + len(catalogue_bytes([(name, it.axes, it.fields) for name, it in coverages.items()]))
        for fields in indexes.values():
            size += sum(8 + 4 + sum(8 + 4 * len(blocks) for blocks in tiles.values()) for tiles in fields)
        if self.filler:
            size += self.filler.length - 8 - 4
        return blocks_in(size, LINK)

    def lacks(self, new, reserve, kept=True):
        return self.free(kept) < new + reserve

    def put(self, name, coverage, written=()):
        fields, new = self.indexes.get(name) or [{} for _ in coverage.fields], 0
        if written:
            k, box = written
            tiles = self.tiles(coverage, k, box, fields[k])
            new = sum(len(tiles[number]) for number in tiles if tiles[number] != fields[k].get(number))
            fields = [*fields[:k], tiles, *fields[k + 1 :]]
        indexes = self.indexes | {name: fields}
        reserve = self.reserve(self.store | {name: coverage}, indexes)
        if self.lacks(new, reserve):
            self.refused_room(new, reserve)
            raise Refused(92)
        super().put(name, coverage, written)
        self.indexes = indexes

    def refused_room(self, new, reserve):
        """What is to be noted of a refusal."""

    def tiles(self, coverage, k, box, before):
        """The blocks of a field's listed tiles after a write."""
        after = dict(before)
        for number in range(store.tile_count(coverage.axes)):
            part = store.tile_box(coverage.axes, number)
            if not meets(part, box):
                continue
            cells = [coverage.cells[k][rank(coverage.axes, point)] for point in points(part)]
            after.pop(number, None)
            if any(cells):
                size = tile_length(coverage.fields[k][1], cells)
                after[number] = [next(self.fresh) for _ in range(blocks_in(size, store.BLOCK))]
        return after

    def DeleteCoverage(self):
        reply = super().DeleteCoverage()
        self.indexes = {name: it for name, it in self.indexes.items() if name in self.store}
        return reply

    def ListCoverages(self):
        kind, text = super().ListCoverages()
        return kind, (f"{FILLER}\n" if self.filler else "") + text

    def SubmitQuery(self):
        reply = super().SubmitQuery()
        number = self.next - 1
        self.held[number] = [self.indexes[name] for name in self.jobs[number].names]
        return reply

    def StepJob(self):
        reply = super().StepJob()
        self.released()
        return reply

    def CancelJob(self):
        reply = super().CancelJob()
        self.released()
        return reply

    def released(self):
        """Ends what is kept for jobs that have no units left, or are gone."""
        self.held = {
            number: it for number, it in self.held.items() if number in self.jobs and self.jobs[number].left > 0
        }

    def reopened(self, units=None):
        """The machine after a close and the next opening: the store alone stays."""
        self.jobs, self.next, self.held, self.units = {}, 1, {}, units or {}
