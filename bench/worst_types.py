#!/usr/bin/env python3
"""Seconds and MiB for typing the worst queries that were found, each beside the length of its text and beside a plain
chain of 65,536 bytes.

usage: bench/worst_types.py [the program, else crates/bench/out/bench]

The program cuts the text into tokens, reads them as a query and types it over its own coverages; the figures are those
of the whole process, which the first row shows without any work, where it took least of five times. `rt run` in its
folder builds it.
"""
import os
import subprocess
import sys
import time

TOP = os.path.dirname(os.path.dirname(os.path.abspath(__file__)))
PROGRAM = sys.argv[1] if len(sys.argv) > 1 else f"{TOP}/crates/bench/out/bench"
LENGTH = 65536


def letters(number):
    """A short name of its own for each number; no keyword has a digit."""
    return "abcdefghijklmnopqrstuvwxyz"[number % 26] + (str(number // 26) if number >= 26 else "0")


def balanced(leaf, count):
    """So many leaves, in a sum that is not high."""
    if count == 1:
        return leaf
    if count <= 16:
        return "+".join([leaf] * count)
    half = count // 2
    return f"({balanced(leaf, half)}+{balanced(leaf, count - half)})"


def over(names, item):
    return f"for c in ({','.join(names)}) return encode({item}, csv)"


def parts(value, count):
    return "{" + ";".join(f"{letters(n)}:{value}" for n in range(count)) + "}"


def alike(number, end="z"):
    """A name of its own for each of 260 iterators, all of which end alike: with four bytes."""
    return f"${'abcdefghijklmnopqrstuvwxyz'[number % 26]}{number // 26}{end}"


def longer(number):
    """The same with nine bytes."""
    return alike(number, "zzzzzz")


def within(binders, item, named=lambda number: f"$i{number}"):
    """An item in the scope of four iterators a condenser, $i0 and so on."""
    scope = ""
    for place in range(binders):
        iterators = ",".join(f"{named(4 * place + number)} {axis}(0:0)" for number, axis in enumerate("abcd"))
        scope += f"condense + over {iterators} using "
    return scope + item


def fitted(make):
    """The longest text of that form that fits."""
    few, many = 1, LENGTH
    while few < many:
        middle = (few + many + 1) // 2
        if len(make(middle)) <= LENGTH:
            few = middle
        else:
            many = middle - 1
    return make(few)


LAI = ["lai"] * 64
UNLIKE = [f"u{n}" for n in range(64)]
WIDE = [f"w{n}" for n in range(64)]
LONG = [f"l{n}" for n in range(64)]
ROWS = [
    ("nothing", ""),
    ("700 parts at a position of 1,400 zeros, 64 times", over(LAI, parts("c", 700) + f"[x({balanced('0', 1400)})]")),
    ("parts at a position, once", fitted(lambda n: over(["lai"], parts("c", n) + f"[x({balanced('0', n)})]"))),
    ("parts at a position, 64 times", fitted(lambda n: over(LAI, parts("c", n) + f"[x({balanced('0', n)})]"))),
    ("parts at a position, 64 unlike", fitted(lambda n: over(UNLIKE, parts("c", n) + f"[x({balanced('0', n)})]"))),
    ("64 fields at a position, 64 times", fitted(lambda n: over(["wide"] * 64, f"c[x({balanced('0', n)})]"))),
    ("a sum of zeros, 64 times", fitted(lambda n: over(LAI, balanced("0", n)))),
    ("a sum of zeros, 64 unlike", fitted(lambda n: over(UNLIKE, balanced("0", n)))),
    ("a sum of fields of 64, 64 times", fitted(lambda n: over(["wide"] * 64, balanced("c.f0", n)))),
    ("nested records, 64 times", fitted(lambda n: over(LAI, "{a:" * 30 + f"{parts('c', n)}.a0" + "}.a" * 30))),
    (
        "nested records, 64 unlike",
        fitted(lambda n: over(UNLIKE, "{a:" * 30 + f"{parts('c', n)}.a0" + "}.a" * 30 + "[x(0)]")),
    ),
    ("a sum of zeros at a position, 64 unlike", fitted(lambda n: over(UNLIKE, f"c[x({balanced('0', n)})]"))),
    ("cells and zeros on axes, 64 unlike", fitted(lambda n: over(UNLIKE, balanced("(c[x(0)]" + "+0" * 26 + ")", n)))),
    ("a sum of cells, 64 unlike", fitted(lambda n: over(UNLIKE, balanced("c", n)))),
    ("a sum of cells over four long axes, 64 unlike", fitted(lambda n: over(LONG, balanced("c", n)))),
    ("cells under minus signs, 64 unlike", fitted(lambda n: over(UNLIKE, balanced("(" + "-" * 26 + "c[x(0)])", n)))),
    ("a sum of reductions, 64 unlike", fitted(lambda n: over(UNLIKE, balanced("add(c)", n)))),
    ("a sum of records, 64 unlike", fitted(lambda n: over(UNLIKE, balanced("{a:c}.a", n)))),
    ("a sum of records over four long axes, 64 unlike", fitted(lambda n: over(LONG, balanced("{a:c}.a", n)))),
    ("a sum of counts over four long axes, 64 unlike", fitted(lambda n: over(LONG, balanced("count(c>0)", n)))),
    (
        "a condition of zeros, 64 unlike",
        fitted(lambda n: f"for c in ({','.join(UNLIKE)}) where {balanced('0', n)}>1 return 1"),
    ),
    (
        "many variables and their sum, 64 unlike",
        fitted(
            lambda n: f"for {','.join([f'w{k} in (u1,u2)' for k in range(6)] + [f'v{k} in (lai)' for k in range(n)])}"
            f" return encode({'+'.join(f'w{k}[x(0)]' for k in range(6))}+{balanced(f'v{n - 1}[x(0)]', n)}, csv)"
        ),
    ),
    ("fields of 64, 64 unlike", fitted(lambda n: over(WIDE, balanced("c.f63", n)))),
    ("fields of 64 at positions, 64 unlike", fitted(lambda n: over(WIDE, balanced("c[x(0)].f63", n)))),
    (
        "120 iterators and a sum of the last, 64 unlike",
        fitted(lambda n: over(UNLIKE, within(30, balanced("$i119", n)))),
    ),
    (
        "120 iterators named alike and a sum of the last, 64 unlike",
        fitted(lambda n: over(UNLIKE, within(30, balanced(alike(119), n), alike))),
    ),
    (
        "the same with names of nine bytes, 64 unlike",
        fitted(lambda n: over(UNLIKE, within(30, balanced(longer(119), n), longer))),
    ),
    (
        "104 iterators and cells at the last, 64 unlike",
        fitted(lambda n: over(UNLIKE, within(26, balanced("c[x($i103),y(0)]", n)))),
    ),
    (
        "256 condensers, most within 120 iterators, 64 unlike",
        over(UNLIKE, within(30, balanced("(condense + over $z x(0:0) using c[x($z),y(0)])", 226))),
    ),
    (
        "many variables, then a sum",
        fitted(lambda n: f"for {','.join(f'v{k} in (lai)' for k in range(n))} return {balanced('1', n)}"),
    ),
    ("a chain of 1, 64 KiB", fitted(lambda n: "for c in (lai) return 1" + "+1" * n)),
    ("a chain of brackets, 64 KiB", fitted(lambda n: "for c in (lai) return encode(c" + "[x(0:9)]" * n + ",csv)")),
    (
        "a value list, 64 KiB",
        fitted(
            lambda n: "for c in (lai) return add(coverage m over $i x(1:"
            + str(n)
            + ") value list <1"
            + ";1" * (n - 1)
            + ">)"
        ),
    ),
]


def one_run(text):
    begun = time.monotonic()
    ran = subprocess.Popen([PROGRAM, "query", "1", "typed", text], stdout=subprocess.PIPE)
    found = ran.stdout.read().decode().strip()
    _, status, used = os.wait4(ran.pid, 0)
    if status or not found:
        sys.exit(f"{PROGRAM} ended with {os.waitstatus_to_exitcode(status)} and wrote {found!r} for {text[:200]}")
    return time.monotonic() - begun, used.ru_maxrss / 1024, found


def measured(text):
    """The run of five that took least."""
    return min(one_run(text) for _ in range(5))


def main():
    print(f"{'query':58} {'found':22} {'bytes':>7} {'seconds':>9} {'MiB':>8}")
    for name, text in ROWS:
        taken, memory, found = measured(text)
        print(f"{name:58} {found:22} {len(text):7} {taken:9.3f} {memory:8.1f}", flush=True)


if __name__ == "__main__":
    main()
