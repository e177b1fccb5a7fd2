#!/usr/bin/env python3
"""Files of version 1 of the format, which open for ever.

    oracle/version_1.py PROGRAM            opens each of them with the program, and fails where it holds something else
    oracle/version_1.py files FOLDER       makes the files themselves, in a folder
    oracle/version_1.py texts PROGRAM      how the texts were made: by a program that writes version 1

Each file is kept as a text in oracle/version_1: its length, and the rows of 32 bytes that are not zero, each behind the
place where it stands, both in hexadecimal digits; zeros at the end of a row are left out. What the files hold is said
here, by the writes that made them, and the cells that are expected come from these alone. Each file is read from its
description (`store.py`); then the program opens it, tells all of its cells and closes it; then it opens what it has
closed, reads and writes cells of its tiles, and closes it again. After each close the file is read from its description
once more, and a tile that nobody wrote is as it was.
"""

import os
import random
import sys
import tempfile
from dataclasses import dataclass

sys.dont_write_bytecode = True

import store
from files import Asks, content_of, csv_of, interval_list, posted, replies_in
from language import Refused
from meaning import cell_text, count, points, rank
from runs import run

FOLDER = os.path.join(os.path.dirname(os.path.abspath(__file__)), "version_1")
ROW = 32
TYPES = [("b", "bool"), ("u", "u8"), ("s", "i16"), ("i", "i32"), ("l", "i64")]
ENDS = {"bool": (0, 1), "u8": (0, 255), "i16": (-(2**15), 2**15 - 1), "i32": (-(2**31), 2**31 - 1)}
ENDS["i64"] = (-(2**63), 2**63 - 1)


@dataclass
class Written:
    """A coverage: its axes, its fields, and what was written: a field, a box, and the cells in row-major order, or one
    for all."""

    name: str
    axes: list
    fields: list
    writes: list


def cell(kind, number):
    return number == 1 if kind == "bool" else number


def noise(kind, size):
    """Cells of which few neighbours are alike, from both ends of the type and from between."""
    low, high = ENDS[kind]
    spread = [low, high] + [low + (k * k * 2654435761 + k * 40503 + 17) % (high - low + 1) for k in range(2, size)]
    return [cell(kind, it) for it in spread[:size]]


def runs(kind, size, length):
    """Runs of so many cells: the least of the type, 1, the greatest, 0, and so on."""
    low, high = ENDS[kind]
    return [cell(kind, [low, 1, high, 0][k // length % 4]) for k in range(size)]


def one():
    """The coverage of docs/FILE-FORMAT.md: a hundred cells of 7."""
    axes = [("x", 0, 99)]
    return [Written("lai", axes, [("v", "i16")], [("v", axes, 7)])]


def types():
    """Fields of all types over whole and clipped tiles, in runs and in noise, on one axis to four."""
    plate = [("y", 5, 74), ("x", -3, 62)]
    whole, right = [("y", 5, 68), ("x", -3, 60)], [("y", 5, 68), ("x", 61, 62)]
    below, corner = [("y", 69, 74), ("x", -3, 60)], [("y", 69, 74), ("x", 61, 62)]
    writes = []
    for name, kind in TYPES:
        writes += [(name, whole, runs(kind, 4096, 700)), (name, right, noise(kind, 128))]
        writes += [(name, below, runs(kind, 384, 16)), (name, corner, noise(kind, 12))]
    strip, rest = [("x", -5, 4504)], [("x", 4091, 4504)]
    cube, side = [("t", 0, 16), ("y", 0, 16), ("x", 0, 17)], [("t", 16, 16), ("y", 3, 10), ("x", 0, 15)]
    hyper = [("k", 0, 8), ("t", 0, 8), ("y", 0, 8), ("x", -4, 4)]
    end = [("k", 8, 8), ("t", 8, 8), ("y", 8, 8), ("x", 4, 4)]
    return [
        Written("plate", plate, TYPES, writes),
        Written("strip", strip, [("l", "i64")], [("l", strip, -1), ("l", rest, noise("i64", 414))]),
        Written("cube", cube, [("s", "i16")], [("s", side, noise("i16", 128))]),
        Written("hyper", hyper, [("w", "bool"), ("n", "i32")], [("w", hyper, True), ("n", end, -7)]),
    ]


def many():
    """64 coverages, of one axis to four, of one field to three; of every third nothing was written."""
    found = []
    for k in range(64):
        name = "n" * 64 if k == 0 else "_" if k == 1 else f"c{k}"
        axes = [(axis, -k, -k + side) for axis, side in zip("txyz", [k % 9, 1, 2, 0][: k % 4 + 1])]
        fields = [TYPES[(k + step) % 5] for step in range(k % 3 + 1)]
        last, kind = fields[-1]
        writes = [(last, axes, cell(kind, 1))] if k % 3 else []
        found.append(Written(name, axes, fields, writes))
    return found


FILES = {"one": one, "types": types, "many": many}


def messages(coverages):
    """The messages that wrote a file."""
    for it in coverages:
        fields = ",".join(f"{name}:{kind}" for name, kind in it.fields)
        pairs = {"request": "InsertCoverage", "coverage": it.name, "domain": interval_list(it.axes), "fields": fields}
        yield posted(pairs)
        for field, box, cells in it.writes:
            pairs = {"request": "UpdateCoverage", "coverage": it.name, "field": field, "box": interval_list(box)}
            listed = isinstance(cells, list)
            pairs |= {"values": ",".join(map(cell_text, cells))} if listed else {"fill": cell_text(cells)}
            yield posted(pairs)


def cells_of(coverage, field, kind):
    """The cells of a field in row-major order, by the writes that made them."""
    found = [cell(kind, 0)] * count(coverage.axes)
    for written, box, cells in coverage.writes:
        if written == field:
            for k, point in enumerate(points(box)):
                found[rank(coverage.axes, point)] = cells[k] if isinstance(cells, list) else cells
    return found


def asked(coverages):
    """Messages that tell all that a file holds, each with the body of its reply."""
    yield posted({"request": "ListCoverages"}), "".join(f"{it.name}\n" for it in coverages)
    for it in coverages:
        lines = [f"axis {axis} {lo} {hi}\n" for axis, lo, hi in it.axes]
        lines += [f"field {name} {kind}\n" for name, kind in it.fields]
        yield posted({"request": "DescribeCoverage", "coverage": it.name}), "".join(lines)
        for field, kind in it.fields:
            line = it.axes[-1][2] - it.axes[-1][1] + 1
            query = f"for c in ({it.name}) return encode(c.{field}, csv)"
            yield posted({"request": "ProcessCoverages", "query": query}), csv_of(cells_of(it, field, kind), line)


def holds(data, coverages):
    """Whether a file holds some coverages, by its description."""
    found = store.read(data)
    return [(name, it.axes, it.fields) for name, it in found.items()] == [
        (it.name, it.axes, it.fields) for it in coverages
    ] and all(
        store.all_cells(found[it.name], k) == cells_of(it, *field)
        for it in coverages
        for k, field in enumerate(it.fields)
    )


def tiles(data):
    return [(name, it.tiles) for name, it in store.read(data).items()]


def text_of(data):
    """A file as the text that is kept of it."""
    lines = [f"{len(data)} bytes\n"]
    for at in range(0, len(data), ROW):
        row = data[at : at + ROW].rstrip(b"\0")
        lines += [f"{at:06x} {row.hex()}\n"] * bool(row)
    return "".join(lines)


def data_of(name):
    """The file of a text that is kept."""
    with open(f"{FOLDER}/{name}.txt", encoding="ascii") as file:
        size, *rows = file.read().splitlines()
    data = bytearray(int(size.removesuffix(" bytes")))
    for row in rows:
        at, _, digits = row.partition(" ")
        piece = bytes.fromhex(digits)
        data[int(at, 16) : int(at, 16) + len(piece)] = piece
    return bytes(data)


def put(path, data):
    with open(path, "wb") as file:
        file.write(data)


def session(program, path, pairs):
    """What was wrong with a session over a file: its end, or the first reply that is another one."""
    status, _, out, errors = run(program, path, b"".join(message for message, _ in pairs))
    if (status, errors) != (0, b""):
        return f"status {status}, {errors}"
    came = [body for _, body in replies_in(out)]
    for (message, wanted), body in zip(pairs, came):
        if body != wanted.encode():
            return f"{message}: {body[:200]}, and not {wanted[:200]!r}"
    return None if len(came) == len(pairs) else f"{len(came)} replies to {len(pairs)} messages"


def wrong(program, name, path):
    """What is wrong with a file of version 1, or None."""
    data, coverages = data_of(name), FILES[name]()
    if data[8:12] != b"\1\0\0\0" or not holds(data, coverages):
        return "the text that is kept does not hold, by the description, what was written"
    put(path, data)
    if told := session(program, path, list(asked(coverages))):
        return told
    closed = content_of(path)
    if closed[8:12] != b"\2\0\0\0":
        return "after its close it is no file of version 2"
    if not holds(closed, coverages) or tiles(closed) != tiles(data):
        return "after its close it holds something else, or its tiles in another spelling"
    asks = Asks(random.Random(name), store.read(closed))
    if told := session(program, path, asks.made):
        return f"when it was opened again: {told}"
    if Asks.known(store.read(content_of(path))) != asks.after:
        return "after its updates it holds something else"
    return None


def check(program):
    failed = 0
    with tempfile.TemporaryDirectory() as folder:
        for name in FILES:
            try:
                told = wrong(os.path.abspath(program), name, f"{folder}/{name}")
            except Refused as refusal:
                told = f"refused as {refusal.number} by the description"
            print(f"{name}: {told or 'ok'}")
            failed += bool(told)
    return 1 if failed else 0


def make_texts(program):
    with tempfile.TemporaryDirectory() as folder:
        for name, made in FILES.items():
            stream = list(messages(made()))
            told = session(os.path.abspath(program), f"{folder}/{name}", [(it, "ok\n") for it in stream])
            data = content_of(f"{folder}/{name}")
            if told or data[8] != 1:
                sys.exit(f"{name}: {told or 'the program does not write version 1'}")
            put(f"{FOLDER}/{name}.txt", text_of(data).encode())


def main(*words):
    if len(words) == 2 and words[0] == "files":
        for name in FILES:
            put(f"{words[1]}/{name}", data_of(name))
    elif len(words) == 2 and words[0] == "texts":
        make_texts(words[1])
    elif len(words) == 1:
        return check(*words)
    else:
        sys.exit(__doc__)
    return 0


if __name__ == "__main__":
    sys.exit(main(*sys.argv[1:]))
