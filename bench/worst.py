#!/usr/bin/env python3
"""The time of the worst queries for a unit of their work, beside a plain scan in the same run.

usage: bench/worst.py [PROGRAM] [WORD..]    only the lines that have all of these words

Three layers are written into a new file by UpdateCoverage: noise, 2,048 x 2,048 cells of i16 in runs of one cell; land,
as many in runs of some twenty; and line, 2^20 cells of i64 on one axis in runs of one. They have 1,024, 1,024 and 256
tiles, of which the server keeps 64 decoded. Each query goes through a pipe to the built program over that file; the
seconds are those that the server was on a processor, the least of two askings. The work of a query is counted by
oracle/meaning.py; the last column says how many minutes 2^32 units of such work would take, which is the most that a
query may have. A reply may be a fault, and no other refusal. `rt run` in crates/rasterd builds the program.
"""
import os
import random
import re
import sys
import tempfile

sys.dont_write_bytecode = True
TOP = os.path.dirname(os.path.dirname(os.path.abspath(__file__)))
sys.path[:0] = [f"{TOP}/oracle", f"{TOP}/faults"]

import scripts
from language import parsed
from meaning import Coverage, combinations, work_of
from shim import Run

PROGRAM = f"{TOP}/crates/rasterd/out/rasterd"
SIDE, LINE = 2048, 2**20
# a query that took so many seconds is not asked again
ENOUGH = 5
SQUARE = [("y", 0, SIDE - 1), ("x", 0, SIDE - 1)]
LAYERS = {
    "noise": Coverage(SQUARE, [("v", "i16")], []),
    "land": Coverage(SQUARE, [("v", "i16")], []),
    "line": Coverage([("x", 0, LINE - 1)], [("v", "i64")], []),
}
C, Z = "for c in (LAYER) return ", "for c in (LAYER), z in (land) return "
CORNER = "[y(0:511), x(0:511)]"
CELL = "c[y($j), x($i)]"


def wrapped(text):
    """A number as a coordinate: less its greatest multiple of the side."""
    return f"{text} - {text} / {SIDE} * {SIDE}"


def scattered(count):
    place = f"c[y({wrapped('($i * 787)')}), x({wrapped('($i * 1009)')})]"
    return f"{C}condense max over $i i(0:{count - 1}) using {place}"


def over(box, body, op="+"):
    return f"condense {op} over {box} using {body}"


def array(box, body):
    return f"encode(coverage m over {box} values {body}, csv)"


def folds(body, hi=1):
    """Sixteen folds of two points, or of one, in one another."""
    return "".join(over(f"$f{k} x(0:{hi})", "") for k in range(16)) + body


def apart(factor):
    """A read at two sums of the folds' numbers, as far apart as the factor has them."""
    sums = [" + ".join(f"$f{k} * {factor(k)}" for k in range(start, 16, 2)) for start in (0, 1)]
    return f"c[y({sums[0]}), x({sums[1]})]"


def window(radius, size):
    near, box = f"$v y(-{radius}:{radius}), $u x(-{radius}:{radius})", f"$q y(500:{499 + size}), $p x(500:{499 + size})"
    return C + array(box, over(near, "c[y($q + $v), x($p + $u)]"))


TWOS = " + ".join(f"$f{k}" for k in range(16))
ON_LINE = " + ".join(f"$f{k} * {4099 * (k + 1)}" for k in range(16))
LIST = f"(coverage m over $i x(0:7999) value list <{'; '.join(str(k % 90) for k in range(8000))}>)"
ONES = "; ".join(f"a{k}: add(c[y({k}:{k}), x(7:7)])" for k in range(1800))
RECORD = "; ".join(f"a{k}: add(c + {k})" for k in range(16))

# on the layers of two axes
QUERIES = [
    ("plain scan", C + "max(c)"),
    ("count of a condition", C + "count(c > 5 and c != 0)"),
    ("1,024 scattered reads", scattered(1024)),
    ("16,384 scattered reads", scattered(16384)),
    ("65,536 scattered reads", scattered(65536)),
    ("a cell of each tile", C + over("$j j(0:31), $i i(0:31)", "c[y($j * 64), x($i * 64)]", "max")),
    (
        "a cell of each tile, 64 times",
        C + over("$j j(0:31), $i i(0:31)", over("$k k(0:63)", "c[y($j * 64), x($i * 64 + $k)]", "max")),
    ),
    ("a column of cells", C + over("$j j(0:2047)", "c[y($j), x(5)]", "max")),
    ("a diagonal", C + over("$j j(0:2047)", "c[y($j), x($j)]", "max")),
    ("a part with its axes exchanged", C + array("$i x(0:511), $j y(0:511)", CELL)),
    ("16 folds of two points around 1", C + folds("1")),
    ("16 folds of two points around a sum", C + folds(TWOS)),
    ("16 folds of two points around a read", C + folds(apart(lambda k: 3 * k * k))),
    ("16 folds of two points around a read of a tile", C + folds(apart(lambda k: k // 4))),
    ("16 folds of two points around a read of a list", C + folds(f"{LIST}[x({TWOS})]")),
    ("16 folds of one point, 512 x 512", C + array("$q y(0:511), $p x(0:511)", folds(f"$p + {TWOS}", 0))),
    ("faults at all places, division", C + "add(1 / (c - c))"),
    ("faults at half of the places, division", C + "add(1 / (c / 2 * 2 - c))"),
    ("faults at all places, overflow", C + "add((c * c + 1) * 9223372036854775807)"),
    (
        "faults at all places, outside",
        C + "add(coverage m over $j y(0:511), $i x(0:511) values c[y($j + 5000), x($i)])",
    ),
    (
        "faults that a condition leaves out",
        C + "condense + over $j y(0:511), $i x(0:511) where $i > 255 using c[y($j), x($i - 256)]",
    ),
    ("wide products", C + "max(c * 4294967296 * 30000 / 3)"),
    ("wide products of columns", C + "max((c * 65536) * (c * 65536) / 7)"),
    ("a product of all places", C + over("$j y(0:511), $i x(0:511)", f"1 - 2 * bit({CELL}, 0)", "*")),
    ("divisions by numbers", C + "max(c / 3 / 5 / 7 / 11)"),
    ("divisions by cells", C + "max((c * 1000003) / (c * c + 1) / (c * c + 3))"),
    ("bits", C + "count(bit(c, abs(c) - abs(c) / 64 * 64))"),
    ("window of radius 1, 256 x 256", window(1, 256)),
    ("window of radius 8, 128 x 128", window(8, 128)),
    ("sums of 64 keys, 512 x 512", Z + array("$k k(0:63)", f"add(c{CORNER} * (z{CORNER} = $k))")),
    (
        "sums of 16 keys by a condition, 256 x 256",
        Z + array("$k k(0:15)", f"condense + over $j y(0:255), $i x(0:255) where z[y($j), x($i)] = $k using {CELL}"),
    ),
    ("2^18 cells as CSV", C + f"encode(c{CORNER}, csv)"),
    ("8,000 fields, a number each", C + "{" + ";".join(f"a{k}:1" for k in range(8000)) + "}"),
    ("1,800 fields, a sum of one cell each", C + "{" + ONES + "}"),
    ("sixteen sums", C + "encode({" + RECORD + "}, csv)"),
]

# on the layer of one axis
LINE_QUERIES = [
    ("plain scan", C + "max(c)"),
    ("16,384 scattered reads", C + over("$i i(0:16383)", "c[x($i * 4099 - $i / 255 * 1045245)]", "max")),
    ("a cell of each tile", C + over("$i i(0:255)", "c[x($i * 4096)]", "max")),
    ("a cell of each tile, 64 times", C + over("$i i(0:255)", over("$k k(0:63)", "c[x($i * 4096 + $k)]", "max"))),
    ("16 folds of two points around a read", C + folds(f"c[x({ON_LINE})]")),
    ("2^18 cells as CSV", C + "encode(c[x(0:262143)], csv)"),
]


def lines():
    """Each kind with its layer and its query."""
    for kind, query in QUERIES:
        for layer in ("noise", "land"):
            yield kind, layer, query.replace("LAYER", layer)
    for kind, query in LINE_QUERIES:
        yield kind, "line", query.replace("LAYER", "line")


def square(chance, name):
    """The cells of a layer of two axes as text, in row-major order."""
    if name == "noise":
        return [str(it - 32768) for it in chance.choices(range(65536), k=SIDE * SIDE)]
    cells = []
    while len(cells) < SIDE * SIDE:
        cells += [str(chance.randrange(16))] * chance.randrange(1, 40)
    return cells[: SIDE * SIDE]


def boxes(name):
    """The boxes by which a layer is written, with the number of their cells."""
    if name == "line":
        return [(f"x({start}:{start + 2**18 - 1})", 2**18) for start in range(0, LINE, 2**18)]
    return [(f"y({start}:{start + 63}),x(0:{SIDE - 1})", 64 * SIDE) for start in range(0, SIDE, 64)]


def make(run, name, layer):
    chance = random.Random(name)
    axes, ((field, kind),) = layer.axes, layer.fields
    domain = ",".join(f"{axis}({lo}:{hi})" for axis, lo, hi in axes)
    told = [run.ask(scripts.insert(name, domain, f"{field}:{kind}"))]
    # no two neighbours of the line are alike
    cells = [str(k % 5 + chance.choice([0, 5])) for k in range(LINE)] if name == "line" else square(chance, name)
    start = 0
    for box, size in boxes(name):
        told.append(run.ask(scripts.update(name, field, box, values=",".join(cells[start : start + size]))))
        start += size
    if not all(it.endswith(b"\r\n\r\nok\n") for it in told):
        sys.exit("a layer was not written")


def on_processor(run):
    """The seconds that the program was on a processor so far."""
    with open(f"/proc/{run.process.pid}/schedstat", encoding="ascii") as file:
        return int(file.read().split()[0]) / 1e9


def measured(run, text):
    """The least seconds of two askings, and the fault that came, if one did."""
    times = []
    while len(times) < 2 and sum(times) < ENOUGH:
        begun = on_processor(run)
        reply = run.ask(scripts.query(text))
        times.append(on_processor(run) - begun)
    found = re.search(rb"\r\n\r\nrefused (\d+) \w+\n$", reply)
    if not reply or (found and not 60 <= int(found[1]) <= 64):
        sys.exit(f"no value: {text[:80]}: {reply[-60:]}")
    return min(times), found[1].decode() if found else ""


def main(*words):
    program = words[0] if words and os.path.exists(words[0]) else PROGRAM
    words = [it for it in words if it != program]
    with tempfile.TemporaryDirectory() as folder:
        run = Run(os.path.abspath(program), f"{folder}/store", None)
        for name, layer in LAYERS.items():
            make(run, name, layer)
        print(
            f"{'query':46} {'layer':5} {'fault':>5} {'seconds':>8} {'work':>10} {'ns a unit':>10} {'minutes for 2^32':>17}"
        )
        for kind, layer, text in lines():
            if all(word in f"{kind} {layer}" for word in words):
                work = work_of(combinations(parsed(text.encode()), LAYERS))
                seconds, fault = measured(run, text)
                each = 1e9 * seconds / work
                minutes = each * 2**32 / 60e9
                print(
                    f"{kind:46} {layer:5} {fault:>5} {seconds:8.3f} {work:10} {each:10.1f} {minutes:17.1f}", flush=True
                )
        if run.end() != (0, ""):
            sys.exit("the program did not close its file")


if __name__ == "__main__":
    main(*sys.argv[1:])
