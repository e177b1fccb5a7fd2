#!/usr/bin/env python3
"""Processor time of reading and writing a store in a file, without and with a pool of 256 pages.

usage: bench/pool.py FILE [TIMES, else 9]

The actions are those of crates/bench, which `rt run` in its folder builds, on a grid of noise, whose tiles fill two
blocks each, which are read past the pages where they follow one another: windows and numbers at twelve places of a grid
of 512 blocks, each asked again and again (again, point); windows and numbers at scattered places of a grid of 2,048
blocks, and the whole of it (window, cell, read); a number written, and the whole written, in a grid of 512 blocks (put,
values). The figure is what one more round takes of the processor, the least of so many runs; the runs with and without
a pool take turns. FILE is made anew for each run, and is gone afterwards: it must not be there before.
"""
import os
import sys

from compiled import ROUNDS, absent, one_more

TOP = os.path.dirname(os.path.dirname(os.path.abspath(__file__)))
PROGRAM = [f"{TOP}/crates/bench/out/bench", "store"]
PAGES = "256"
# each action, the rows of its grid, and how many rounds are measured
ACTIONS = [
    ("again", 1024, 8000),
    ("point", 1024, 30000),
    ("window", 2048, 6000),
    ("cell", 2048, 20000),
    ("read", 2048, 10),
    ("put", 1024, 5000),
    ("values", 1024, 15),
]


def main():
    if len(sys.argv) < 2:
        sys.exit(__doc__)
    path = absent(sys.argv[1])
    times = int(sys.argv[2]) if len(sys.argv) > 2 else 9
    print(f"{'a round':8} {'blocks':>6} {'without':>14} {'with a pool':>14} {'ratio':>7}")
    for action, side, rounds in ACTIONS:
        plain = [*PROGRAM, action, str(side), ROUNDS, path]
        without, pooled = one_more([plain, [*plain, PAGES]], rounds, times, path)
        blocks = (side // 64) ** 2 * 2
        print(
            f"{action:8} {blocks:6} {without * 1e6:11.1f} us {pooled * 1e6:11.1f} us {pooled / without:7.2f}",
            flush=True,
        )


if __name__ == "__main__":
    main()
