"""The file of a store, read from its description, docs/FILE-FORMAT.md: to named fields in tiles, or to a refusal."""

import itertools
import struct
from dataclasses import dataclass

from machine import MOST_COVERAGES, MOST_FIELDS, is_domain, name_in
from meaning import MOST_AXES, count, needs, points, rank

BLOCK, MOST_BLOCKS, MOST_TILE, MOST_AXES_OF_ONE = 4096, 2**20, 4096, 4
LONGEST_METADATA = 15_000_000
RAW, LONGEST_RUNS, LONGEST_RAW = 2**31, 40960, 32768
EDGES = {1: MOST_TILE, 2: 64, 3: 16, 4: 8, 5: 4, 6: 4}
TYPES = ["bool", "u8", "i16", "i32", "i64"]
RUNS = dict(zip(TYPES, ["<HB", "<HB", "<Hh", "<Hi", "<Hq"]))
VALUES = dict(zip(TYPES, ["<B", "<B", "<h", "<i", "<q"]))
# why a file may be refused, by number
FILE_REFUSALS = {93: "Damaged", 94: "NotAStore", 95: "NotClosed"}


@dataclass
class Stored:
    """Axes and fields as a coverage has them, and for each field its listed tiles by number: whether raw, and the
    bytes."""

    axes: list
    fields: list
    tiles: list


class Bytes:
    """Some bytes, taken from the front; 93 where they do not last, or where a number is not in its range."""

    def __init__(self, data):
        self.data, self.at = data, 0

    def take(self, size):
        needs(size <= len(self.data) - self.at, 93)
        self.at += size
        return self.data[self.at - size : self.at]

    def number(self, spelling, lo=None, hi=None):
        (found,) = struct.unpack(spelling, self.take(struct.calcsize(spelling)))
        needs((lo is None or lo <= found) and (hi is None or found <= hi), 93)
        return found

    def name(self):
        found = name_in(self.take(self.number("B")).decode("latin-1"))
        needs(found is not None, 93)
        return found

    def part(self):
        """What is inside of a part that says its length first."""
        return Bytes(self.take(self.number("<Q")))

    def end(self):
        needs(self.at == len(self.data), 93)


def grid(axes):
    """How many tiles stand along each axis."""
    edge = EDGES[len(axes)]
    return [(hi - lo) // edge + 1 for _, lo, hi in axes]


def tile_count(axes):
    found = 1
    for side in grid(axes):
        found *= side
    return found


def tile_box(axes, number):
    """The part of a domain that a tile holds."""
    edge, box = EDGES[len(axes)], []
    for (name, lo, hi), side in zip(reversed(axes), reversed(grid(axes))):
        number, place = divmod(number, side)
        box.insert(0, (name, lo + place * edge, min(hi, lo + place * edge + edge - 1)))
    return box


def runs_size(kind, cells):
    """How many bytes the runs of cells take."""
    return struct.calcsize(RUNS[kind]) * sum(1 for _ in itertools.groupby(cells))


def values_in(kind, is_raw, data):
    """The numbers of a tile in either form, or 93."""
    spelling = VALUES[kind] if is_raw else RUNS[kind]
    needs(len(data) % struct.calcsize(spelling) == 0, 93)
    if is_raw:
        found = [value for value, in struct.iter_unpack(spelling, data)]
        needs(len(data) < runs_size(kind, found), 93)
        return found
    found = []
    for times, value in struct.iter_unpack(spelling, data):
        needs(1 <= times <= MOST_TILE and found[-1:] != [value], 93)
        found += [value] * times
    return found


def decoded(kind, size, is_raw, data):
    """The cells of a tile of this size in either form, or 93."""
    values = values_in(kind, is_raw, data)
    needs(len(values) == size and (kind != "bool" or all(value < 2 for value in values)), 93)
    return [value == 1 if kind == "bool" else value for value in values]


def cells_of(stored, k, number):
    """The cells of a tile of field k, or 93; of one that is not listed, 0 or false."""
    kind, size = stored.fields[k][1], count(tile_box(stored.axes, number))
    if number not in stored.tiles[k]:
        return [False if kind == "bool" else 0] * size
    return decoded(kind, size, *stored.tiles[k][number])


def all_cells(stored, k):
    """The cells of field k in row-major order, or 93."""
    cells = [None] * count(stored.axes)
    for number in range(tile_count(stored.axes)):
        for point, cell in zip(points(tile_box(stored.axes, number)), cells_of(stored, k, number)):
            cells[rank(stored.axes, point)] = cell
    return cells


def header(file):
    """The first block of the metadata and its length."""
    needs(len(file) >= BLOCK, 94)
    magic, version, state, blocks, first, length = struct.unpack_from("<8s4IQ", file)
    needs(magic == b"WCPSTORE" and version in (1, 2), 94)
    needs(state != 1, 95)
    needs(state == 2 and not any(file[32:BLOCK]), 93)
    needs(len(file) == blocks * BLOCK and blocks <= MOST_BLOCKS, 93)
    needs(0 < length <= LONGEST_METADATA, 93)
    return first, length


def version_of(file):
    return struct.unpack_from("<I", file, 8)[0]


def block(file, k):
    needs(1 <= k < len(file) // BLOCK, 93)
    return file[k * BLOCK : k * BLOCK + BLOCK]


def chain(file, first, length):
    """The metadata, and its blocks."""
    data, used, k = b"", [], first
    while len(data) < length:
        needs(k not in used, 93)
        it = block(file, k)
        used.append(k)
        data += it[4:]
        (k,) = struct.unpack_from("<I", it)
    needs(k == 0, 93)
    return data[:length], used


def axis(data):
    return data.name(), data.number("<i"), data.number("<i")


def typed_field(data):
    return data.name(), TYPES[data.number("B", 0, len(TYPES) - 1)]


def catalogue(data, version):
    """The coverages of a catalogue by name, without tiles."""
    found = {}
    for _ in range(data.number("<I", 0, MOST_COVERAGES)):
        name = data.name()
        axes = [axis(data) for _ in range(data.number("B", 1, MOST_AXES if version == 2 else MOST_AXES_OF_ONE))]
        fields = [typed_field(data) for _ in range(data.number("B", 1, MOST_FIELDS))]
        needs(name not in found and is_domain(axes), 93)
        needs(len({it for it, _ in fields}) == len(fields), 93)
        found[name] = Stored(axes, fields, [])
    data.end()
    return found


def form_and_length(told):
    """Whether a tile is raw, and how many bytes it has, by the number that an index tells."""
    is_raw, length = divmod(told, RAW)
    return is_raw == 1, length


def index(data, axes, version):
    """Of each listed tile its number, the number that tells its form and length, and its blocks."""
    found, least = [], 0
    for _ in range(data.number("<I")):
        number = data.number("<I", least, tile_count(axes) - 1)
        told = data.number("<I")
        is_raw, length = form_and_length(told)
        needs(1 <= length <= (LONGEST_RAW if is_raw else LONGEST_RUNS) and not (is_raw and version == 1), 93)
        found.append((number, told, [data.number("<I") for _ in range(-(-length // BLOCK))]))
        least = number + 1
    data.end()
    return found


def tile(file, told, blocks):
    """Whether a tile is raw, and its bytes."""
    is_raw, length = form_and_length(told)
    return is_raw, b"".join(block(file, k) for k in blocks)[:length]


def read(file):
    """The coverages of a file by name, or the refusal of its opening."""
    if not file:
        return {}
    metadata, used = chain(file, *header(file))
    data = Bytes(metadata)
    found = catalogue(data.part(), version_of(file))
    for stored in found.values():
        for _ in stored.fields:
            listed = index(data.part(), stored.axes, version_of(file))
            used += itertools.chain.from_iterable(blocks for _, _, blocks in listed)
            stored.tiles.append({number: tile(file, told, blocks) for number, told, blocks in listed})
    data.end()
    needs(len(set(used)) == len(used), 93)
    return found


def is_same(found, store):
    """Whether the coverages of a file are those of a machine."""
    return [(name, it.axes, it.fields) for name, it in found.items()] == [
        (name, it.axes, it.fields) for name, it in store.items()
    ] and all(all_cells(it, k) == store[name].cells[k] for name, it in found.items() for k in range(len(it.fields)))
