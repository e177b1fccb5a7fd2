#!/usr/bin/env python3
"""Random queries of windows and of scattered cells on the built program, each beside the independent reading.

    oracle/windows.py PROGRAM [COUNT] [SEED]

Most queries are arrays over places, each cell of which condenses the cells around its place, as the focal templates
have it: under a condition that the neighbour lies in the domain. The boxes of neighbours need not be symmetric nor hold
the place itself; in some queries a bound of the condition is off by one, a part of it is missing, the axes are
exchanged, or the neighbour's cell is only a part of an expression, so that neighbours outside of the domain are faults.
The others read a cell here and a cell there, in whatever order, some of them outside. Coverages lie in one tile and
across several ones. Each query that is taken is asked as a job too, as zones.py does. What was found is told by the
seed of its store and the query. Ends with status 1 where a reply differs, or where no query had a value.
"""

import random
import sys

sys.dont_write_bytecode = True

from meaning import Coverage, count
from zones import compared

WIDE = 2**63


class Windows:
    """A coverage of two axes, and queries around its places."""

    def __init__(self, chance):
        self.chance = chance
        sizes = chance.choice([(1, 1), (4, 5), (7, 3), (66, 3), (2, 130), (65, 4), (9, 9)])
        lows = [chance.choice([0, 3, -5, -70, 2**31 - size, -(2**31)]) for size in sizes]
        names = chance.choice([("y", "x"), ("x", "y")])
        self.axes = [(name, lo, lo + size - 1) for name, lo, size in zip(names, lows, sizes)]
        fields = [("a", chance.choice(["i64", "i32"])), ("b", "bool")]
        n = count(self.axes)
        span = 40 if fields[0][1] == "i32" else chance.choice([40, 40, WIDE - 1])
        cells = [[chance.randint(-span, span) for _ in range(n)], [chance.random() < 0.5 for _ in range(n)]]
        self.store = {"w": Coverage(self.axes, fields, cells)}

    def neighbour(self, place, offset):
        return self.chance.choice([f"{place} + {offset}"] * 4 + [f"{offset} + {place}"])

    def condition(self, places, offsets):
        """That a neighbour lies in the domain; sometimes nearly."""
        chance = self.chance
        parts = []
        for (_, lo, hi), place, offset in zip(self.axes, places, offsets):
            slip = 0 if chance.random() < 0.93 else chance.choice([-1, 1])
            parts.append(f"{self.neighbour(place, offset)} {'>=' if slip == 0 else '>'} {lo + (slip < 0)}")
            parts.append(f"{self.neighbour(place, offset)} <= {hi + slip}")
        if chance.random() < 0.06:
            parts.pop(chance.randrange(len(parts)))
        if chance.random() < 0.1:
            chance.shuffle(parts)
        if chance.random() < 0.05:
            parts.append("true")
        return " and ".join(parts)

    def window(self):
        chance = self.chance
        places, offsets = ["$p", "$q"], ["$u", "$v"]
        whole = chance.random() < 0.6
        around, reach = [], []
        for (axis, lo, hi), place, offset in zip(self.axes, places, offsets):
            low = lo if whole else chance.randint(lo, hi)
            high = hi if whole else chance.randint(low, hi)
            around.append(f"{place} {axis}({low}:{high})")
            first = chance.choice([-1, -1, 0, -3, 2, -70])
            reach.append(
                f"{offset} {axis}({first}:{chance.choice([-first if first < 0 and first > -9 else first, first])})"
            )
        at = [
            f"{axis}({self.neighbour(place, offset)})"
            for (axis, _, _), place, offset in zip(self.axes, places, offsets)
        ]
        if chance.random() < 0.05:
            at.reverse()
        op = chance.choice(["+", "+", "+", "max", "min", "*", "and", "or"])
        cell = f"w.{'b' if op in ('and', 'or') else 'a'}[{', '.join(at)}]"
        if chance.random() < 0.08 and op not in ("and", "or"):
            cell = chance.choice([f"{cell} * 2", f"10 / {cell}", f"{cell} + $u"])
        where = f" where {self.condition(places, offsets)}" if chance.random() < 0.93 else ""
        fold = f"condense {op} over {', '.join(reach)}{where} using {cell}"
        if chance.random() < 0.08:
            fold = f"({fold}) + 1" if op not in ("and", "or") else f"not ({fold})"
        return f"for w in (w) return encode(coverage f over {', '.join(around)} values {fold}, csv)"

    def scattered(self):
        """Cells that lie far apart, or come in another order; few of them outside."""
        chance = self.chance
        n = chance.choice([1, 5, 60, 300])
        at = []
        for axis, lo, hi in self.axes:
            size = hi - lo + 1
            step = chance.choice([1, 7, 64, 65, 131])
            beyond = size if chance.random() < 0.95 else size + 1
            # the remainder of a division, since the language has none of its own
            turn = f"($i * {step} - $i * {step} / {beyond} * {beyond})"
            at.append(f"{axis}({chance.choice([f'{lo} + {turn}', f'{hi} - {turn}'])})")
        cell = f"w.{chance.choice(['a', 'a', 'b'])}[{', '.join(at)}]"
        if chance.random() < 0.5:
            return f"for w in (w) return encode(coverage f over $i k(0:{n - 1}) values {cell}, csv)"
        return f"for w in (w) return condense {chance.choice(['+', 'max'])} over $i k(0:{n - 1}) using +{cell}"

    def query(self):
        return self.window() if self.chance.random() < 0.8 else self.scattered()


def main(program, most="1000", seed="1"):
    return compared(program, int(most), int(seed), lambda number: Windows(random.Random(f"windows {number}")))


if __name__ == "__main__":
    if len(sys.argv) < 2:
        sys.exit(__doc__)
    sys.exit(main(*sys.argv[1:]))
