"""Changes by chance to the file of a store."""

import re
import struct

import store
from language import Refused
from mutants import Chance


def listed_in(data):
    """The bytes of a file's catalogue, and of each field its axes, its type and its index."""
    metadata = store.Bytes(store.chain(data, *store.header(data))[0])
    catalogue = metadata.part().data
    found = store.catalogue(store.Bytes(catalogue), store.version_of(data))
    fields = [(it.axes, kind) for it in found.values() for _, kind in it.fields]
    return catalogue, [
        (axes, kind, store.index(metadata.part(), axes, store.version_of(data))) for axes, kind in fields
    ]


def with_length(data):
    return struct.pack("<Q", len(data)) + data


def index_bytes(entries):
    parts = [struct.pack(f"<II{len(blocks)}I", number, told, *blocks) for number, told, blocks in entries]
    return struct.pack("<I", len(entries)) + b"".join(parts)


def listing(data, catalogue, fields):
    """A file with these indexes."""
    indexes = (with_length(index_bytes(entries)) for _, _, entries in fields)
    return chained(data, with_length(catalogue) + b"".join(indexes))


class Files(Chance):
    """Changes to the bytes of a file, or to what they say."""

    def changed(self, data):
        changes = [
            self.changed_byte,
            self.changed_byte,
            self.changed_number,
            self.changed_header,
            self.blocks,
            self.length,
        ]
        changes += [self.metadata, self.metadata, self.tile, self.of_format, self.of_format, self.of_format]
        for _ in range(self.chance.choice([1, 1, 1, 2, 3])):
            data = bytes(self.chance.choice(changes)(bytearray(data)))
        return data

    def place(self, data):
        """A place at or near a byte that is not zero."""
        found = [it.start() for it in re.finditer(rb"[^\0]", data)] or [0]
        at = self.chance.choice(found) + self.chance.choice([0, 0, 0, 0, -1, 1, 2, 3, 7])
        return min(max(0, at), max(0, len(data) - 8))

    def changed_byte(self, data):
        if data:
            at = self.place(data)
            near = [(data[at] + 1) % 256, (data[at] - 1) % 256, 0, 255, data[at] ^ 1 << self.chance.randrange(8)]
            data[at] = self.chance.choice(near)
        return data

    def changed_number(self, data):
        if len(data) >= 8:
            at = self.place(data) // 4 * 4
            struct.pack_into("<I", data, at, self.edge() % 2**32)
        return data

    def changed_header(self, data):
        if len(data) >= store.BLOCK:
            blocks = len(data) // store.BLOCK
            at, spelling = self.chance.choice(
                [(8, "<I"), (12, "<I"), (16, "<I"), (20, "<I"), (24, "<Q"), (32, "<I"), (4092, "<I")]
            )
            value = self.chance.choice([0, 1, 2, 3, blocks - 1, blocks, blocks + 1, self.edge() % 2**32])
            struct.pack_into(spelling, data, at, value)
        return data

    def blocks(self, data):
        """One block in the place of another, or both by turns."""
        count_of = len(data) // store.BLOCK
        if count_of < 2:
            return data
        a, b = (self.chance.randrange(count_of) * store.BLOCK for _ in range(2))
        first, second = data[a : a + store.BLOCK], data[b : b + store.BLOCK]
        data[b : b + store.BLOCK] = first
        if self.one_in(2):
            data[a : a + store.BLOCK] = second
        return data

    def length(self, data):
        """A longer or a shorter file, at times with its number of blocks."""
        blocks = self.chance.randrange(len(data) // store.BLOCK + 3)
        size = blocks * store.BLOCK + self.chance.choice([0, 0, 0, 1, -1, 100])
        data = (data + bytes(3 * store.BLOCK))[: max(0, size)]
        if self.one_in(2) and len(data) >= store.BLOCK:
            struct.pack_into("<I", data, 16, blocks)
        return data

    def tile(self, data):
        """A byte of a block that holds neither header nor metadata, at or near one that is not zero."""
        try:
            chain = store.chain(data, *store.header(data))[1]
        except Refused:
            return data
        rest = [k for k in range(1, len(data) // store.BLOCK) if k not in chain]
        if rest:
            start = self.chance.choice(rest) * store.BLOCK
            data[start : start + store.BLOCK] = self.changed_byte(data[start : start + store.BLOCK])
        return data

    def metadata(self, data):
        """The metadata changed, at times in its length, and written anew behind all else."""
        try:
            found = bytearray(store.chain(data, *store.header(data))[0])
        except Refused:
            return data
        at = self.place(found)
        change = self.chance.randrange(4)
        if change == 0:
            found[at : at + self.chance.randrange(9)] = bytes(
                self.chance.randrange(4) for _ in range(self.chance.randrange(9))
            )
        elif change == 1:
            start, end = self.span(len(found))
            found[end:end] = found[start:end]
        elif change == 2 and len(found) >= 4:
            struct.pack_into("<I", found, at, self.edge() % 2**32)
        elif found:
            found[at] = (found[at] + self.chance.choice([-2, -1, 1, 2])) % 256
        return chained(data, bytes(found) or b"\0")

    def of_format(self, data):
        """A change to an index, to a tile's runs or to the chain of the metadata, where the file can be read."""
        try:
            return self.chance.choice([self.entry, self.runs, self.runs, self.link])(data)
        except Refused:
            return data

    def link(self, data):
        """Another next block in the chain of the metadata."""
        used = store.chain(data, *store.header(data))[1]
        choices = [
            0,
            1,
            used[0],
            used[-1],
            len(data) // store.BLOCK - 1,
            len(data) // store.BLOCK,
            self.edge() % 2**32,
        ]
        struct.pack_into("<I", data, self.chance.choice(used) * store.BLOCK, self.chance.choice(choices))
        return data

    def entry(self, data):
        """An entry of an index changed: its tile, its length, its blocks, or its place among the others."""
        catalogue, fields = listed_in(data)
        indexes = [entries for _, _, entries in fields if entries]
        if not indexes:
            return data
        entries = self.chance.choice(indexes)
        k = self.chance.randrange(len(entries))
        changes = [self.same_tile, self.other_tile, self.other_length, self.shared_block, self.block_outside]
        used = [block for it in indexes for _, _, blocks in it for block in blocks]
        entries[k : k + 1] = self.chance.choice(changes)(entries[k], used, len(data) // store.BLOCK)
        if self.one_in(5):
            entries.reverse()
        return listing(data, catalogue, fields)

    def same_tile(self, entry, used, count):
        """The entry, and another of its tile in a block that nothing uses."""
        free = [block for block in range(1, count) if block not in used]
        is_raw, length = store.form_and_length(entry[1])
        told = is_raw * store.RAW + min(length, store.BLOCK)
        return [entry, (entry[0], told, [self.chance.choice(free)])] if free else [entry]

    def other_tile(self, entry, used, count):
        return [(self.chance.choice([entry[0] + 1, entry[0] - 1, self.edge()]) % 2**32, *entry[1:])]

    def other_length(self, entry, used, count):
        """Another length, the other form, or the longest of either and one more."""
        ends = [store.LONGEST_RUNS, store.LONGEST_RAW + store.RAW]
        near = [entry[1] - 1, entry[1] + 1, entry[1] ^ store.RAW, 0, *ends, *(it + 1 for it in ends)]
        return [(entry[0], self.chance.choice([*near, self.edge() % 2**32]), entry[2])]

    def shared_block(self, entry, used, count):
        """A block of a tile, or the one behind all, where the metadata will begin."""
        return [(*entry[:2], entry[2][:-1] + [self.chance.choice(used + [count])])]

    def block_outside(self, entry, used, count):
        return [(*entry[:2], entry[2][:-1] + [self.chance.choice([0, count + 100, self.edge() % 2**32])])]

    def runs(self, data):
        """A tile's runs changed: cut in two alike, exchanged, longer or shorter, more or fewer; or its raw cells."""
        catalogue, fields = listed_in(data)
        choices = [(kind, entries, k) for _, kind, entries in fields for k in range(len(entries))]
        if not choices:
            return data
        kind, entries, k = self.chance.choice(choices)
        number, told, blocks = entries[k]
        is_raw, old = store.tile(data, told, blocks)
        spelling = (store.VALUES if is_raw else store.RUNS)[kind]
        if len(old) % struct.calcsize(spelling):
            return data
        parts = list(struct.iter_unpack(spelling, old))
        new = b"".join(struct.pack(spelling, *it) for it in (self.other_cells if is_raw else self.other_runs)(parts))
        if len(new) > len(blocks) * store.BLOCK:
            return data
        for at, it in enumerate(blocks):
            part = new[at * store.BLOCK : at * store.BLOCK + store.BLOCK]
            data[it * store.BLOCK : it * store.BLOCK + len(part)] = part
        entries[k] = number, is_raw * store.RAW + len(new), blocks
        return listing(data, catalogue, fields)

    def other_runs(self, runs):
        at = self.chance.randrange(len(runs))
        count, value = runs[at]
        part = self.chance.randrange(1, max(2, count))
        changes = [[(part, value), (count - part, value)], [(count + 1, value)], [(count - 1, value)], []]
        changes += [[(count, value), (0, 1)], [(count, 1 - value if value in (0, 1) else 0)], [(4097, value)]]
        runs[at : at + 1] = self.chance.choice(changes)
        if self.one_in(3):
            runs[at : at + 2] = reversed(runs[at : at + 2])
        return [(count % 65536, value) for count, value in runs]

    def other_cells(self, cells):
        """Raw cells with many alike, or another number of them."""
        start, end = self.span(len(cells))
        if start < end:
            changes = [[cells[start]] * (end - start), [], cells[start:end] * 2, [(1,)] * (end - start)]
            cells[start:end] = self.chance.choice(changes)
        return cells


def chained(data, metadata):
    """A file with this metadata, in a chain behind all of its blocks."""
    first, parts = len(data) // store.BLOCK, [metadata[k : k + 4092] for k in range(0, len(metadata), 4092)]
    for k, part in enumerate(parts, 1):
        data += (struct.pack("<I", first + k if k < len(parts) else 0) + part).ljust(store.BLOCK, b"\0")
    struct.pack_into("<IIQ", data, 16, first + len(parts), first, len(metadata))
    return data
