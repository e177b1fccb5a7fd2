#!/usr/bin/env python3
"""Random queries of zones on the built program, each beside the independent reading.

    oracle/zones.py PROGRAM [COUNT] [SEED]

A query is an array over places, each cell of which condenses a box under the condition that a key of the box equals a
key of the place, or condenses bodies in which such an equation stands, as a factor or another operand; either key may
be the left operand. One in three is a table of zones over whole layers instead. Keys and values may fault: they divide,
and they leave 64 bits. Keys are negative, Boolean, near one another, far apart, or past 32 bits; there are one zone, a
few, and as many zones as cells; boxes lie in one tile and across several ones. The program is asked for all of them in
one session for each store, and for each that it takes as a job too, whose coverages are written over between its steps.
Each reply has to be that of oracle/meaning.py. What was found is told by the seed of its store and the query. Ends with
status 1 where a reply differs, or where no query had a value.
"""

import random
import subprocess
import sys

sys.dont_write_bytecode = True

from files import posted, replies_in
from language import Refused
from meaning import Coverage, Fault, answer, count

WIDE = 2**63
# the most seconds of a run of the program
LONGEST = 600


class Zones:
    """Coverages of values and of keys, and queries over them."""

    def __init__(self, chance):
        self.chance = chance
        if chance.random() < 0.25:
            lo = chance.randint(-70, 0)
            self.axes = [("x", lo, lo + chance.randint(60, 100)), ("y", 0, chance.randint(0, 1))]
        else:
            self.axes = [("x", -1, chance.randint(-1, 5)), ("y", 3, chance.randint(3, 8))]
        self.store = {}
        for name in ("w", "z"):
            fields = [("a", "i64"), ("b", "bool")]
            cells = [self.numbers(count(self.axes)), [chance.random() < 0.5 for _ in range(count(self.axes))]]
            self.store[name] = Coverage(self.axes, fields, cells)

    def numbers(self, n):
        chance = self.chance
        kinds = [
            lambda k: 0,
            lambda k: chance.randint(-2, 2),
            lambda k: k,
            lambda k: chance.randint(0, 3) * 10**9,
            lambda k: chance.choice([-WIDE, WIDE - 1, 0, 2**32, 2**32 + 1, -(2**32)]),
            lambda k: chance.randint(0, 300_000),
        ]
        make = chance.choice(kinds)
        return [make(k) for k in range(n)]

    def key(self, variables):
        """A number or a truth value at the point of these variables."""
        chance = self.chance
        at = ", ".join(f"{axis}({v})" for (axis, _, _), v in zip(self.axes, variables))
        number, truth = f"z.a[{at}]", f"z.b[{at}]"
        return chance.choice(
            [number] * 4
            + [truth, f"({number} / 2)", f"({number} * 3)", f"(6 / {number})", f"({number} + {variables[-1]})"]
            + [f"(10 / ({number} - {chance.randint(-2, 2)}))", f"bit({number}, {variables[0]})", variables[-1]]
        )

    def value(self, variables):
        at = ", ".join(f"{axis}({v})" for (axis, _, _), v in zip(self.axes, variables))
        number = f"w.a[{at}]"
        return self.chance.choice([number] * 4 + ["1", f"({number} * {number})", f"(12 / {number})", f"({number} - 1)"])

    def iterators(self, letter, whole):
        """Variables, and the iterators over a box of the domain."""
        names, texts = [], []
        for k, (axis, lo, hi) in enumerate(self.axes):
            if not whole:
                lo = self.chance.randint(lo, hi)
                hi = self.chance.randint(lo, hi)
            names.append(f"${letter}{k}")
            texts.append(f"${letter}{k} {axis}({lo}:{hi})")
        return names, ", ".join(texts)

    def conditioned(self, box, equation, value, truth):
        """A fold whose condition is the equation."""
        chance = self.chance
        condition = f"{equation} and true" if chance.random() < 0.1 else equation
        op = chance.choice(["+", "+", "max", "min", "*", "and", "or"])
        return f"condense {op} over {box} where {condition} using {truth if op in ('and', 'or') else value}"

    def within(self, box, equation, value, truth):
        """A fold in whose body the equation stands, by itself or as an operand on either side."""
        chance = self.chance
        if chance.random() < 0.6:
            op = chance.choice(["add", "add", "add", "avg", "avg", "max", "min"])
            sides, sign = [value, equation], chance.choice(["*", "*", "*", "+", "-", "/"])
        else:
            op = chance.choice(["count", "count", "some", "all"])
            sides, sign = [truth, equation], chance.choice(["and", "and", "and", "or", "xor"])
            if chance.random() < 0.2:
                return f"{op}(coverage q over {box} values {equation})"
        chance.shuffle(sides)
        return f"{op}(coverage q over {box} values {sides[0]} {sign} {sides[1]})"

    def table(self):
        """For each number what the cells of its zone come to, by arithmetic on comparisons."""
        chance = self.chance
        low = chance.choice([0, -2, 1])
        key = chance.choice(["z.a"] * 5 + ["z.b", "z.a / 2", "(6 / z.a)", "w.a"])
        number = chance.choice(["$k"] * 5 + ["$k * 1000000000", "$k - 1", "(1 / $k)", "$k / 2"])
        sides = [key, number]
        chance.shuffle(sides)
        same = f"({sides[0]} = {sides[1]})"
        value = chance.choice(["w.a"] * 4 + ["w.b", "(w.a - 1)", "(12 / w.a)", "w.a * 3", "2"])
        truth = chance.choice(["w.b", "w.a > 0", "(12 / w.a) > 1", "true", f"w.a != {low}"])
        factors = [value, same]
        chance.shuffle(factors)
        both = [truth, same]
        chance.shuffle(both)
        body = chance.choice(
            [f"add({' * '.join(factors)})"] * 4
            + [f"avg({' * '.join(factors)})", f"max({' * '.join(factors)})", f"add({same} * 1)", f"add(+{same})"]
            + [f"count{same}", f"count({' and '.join(both)})", f"count({' and '.join(both)})"]
            + [f"some({' and '.join(both)})", f"all({' or '.join(both)})", f"count(not {same})"]
        )
        return f"for w in (w), z in (z) return encode(coverage t over $k k({low}:{low + chance.randint(0, 9)}) values {body}, csv)"

    def query(self):
        if self.chance.random() < 1 / 3:
            return self.table()
        chance = self.chance
        out, places = self.iterators("p", chance.random() < 0.6)
        own, box = self.iterators("u", chance.random() < 0.7)
        sides = [self.key(own), self.key(out)]
        if chance.random() < 0.1:
            sides[1] = str(chance.randint(-3, 3))
        chance.shuffle(sides)
        equation = f"{sides[0]} = {sides[1]}"
        value = self.value(own) if chance.random() < 0.9 else self.value(out)
        truth = f"{value} > {chance.randint(-1, 1)}"
        if chance.random() < 0.5:
            fold = self.conditioned(box, equation, value, truth)
        else:
            fold = self.within(box, f"({equation})", value, f"({truth})")
        # where each cell is a fault, the first one alone is seen: many cells keep theirs to themselves
        return f"for w in (w), z in (z) return encode(coverage m over {places} values {fold}, csv)"


def expected(query, store):
    try:
        return answer(query.encode(), store)
    except (Fault, Refused) as it:
        return f"refused {it.number} "


def made(store):
    """The messages that make coverages."""
    out = []
    for name, coverage in store.items():
        box = ",".join(f"{axis}({lo}:{hi})" for axis, lo, hi in coverage.axes)
        fields = ",".join(f"{field}:{kind}" for field, kind in coverage.fields)
        out.append({"request": "InsertCoverage", "coverage": name, "domain": box, "fields": fields})
        for (field, kind), cells in zip(coverage.fields, coverage.cells):
            told = [("true" if it else "false") if kind == "bool" else str(it) for it in cells]
            update = {"request": "UpdateCoverage", "coverage": name, "field": field, "box": box}
            out.append(update | {"values": ",".join(told)})
    return out


def as_job(query, number, update):
    """The messages that ask a query as a job. Behind its first unit a field that it may read is written over, and what
    was there comes back behind its last one."""
    written = {key: it for key, it in update.items() if key != "values"}
    yield {"request": "SubmitQuery", "query": query}
    yield {"request": "StepJob", "job": number, "units": "1"}
    yield written | {"fill": "true" if update["values"][0] in "tf" else "1"}
    yield {"request": "StepJob", "job": number, "units": "1000"}
    yield {"request": "FetchJob", "job": number}
    yield update


def asked(queries, answers, updates):
    """The messages that ask queries, and for each query the places of its answers among the replies; each that is taken
    is asked as a job too."""
    messages, places, jobs = [], [], 0
    for k, (query, wanted) in enumerate(zip(queries, answers)):
        messages.append({"request": "ProcessCoverages", "query": query})
        places.append([len(messages) - 1])
        taken = not wanted.startswith("refused") or wanted.startswith("refused 6")
        if taken:
            jobs += 1
            messages += as_job(query, str(jobs), updates[k % len(updates)])
            places[-1].append(len(messages) - 2)
    return messages, places


def compared(program, most, number, make):
    """Asks so many queries, forty over each store that is made of a number, and prints the replies that differ. Returns
    1 where one does, or where no query had a value, else 0."""
    done = wrong = values = 0
    while done < most:
        one = make(number)
        queries = [one.query() for _ in range(40)]
        answers = [expected(query, one.store) for query in queries]
        first = made(one.store)
        updates = [it for it in first if "values" in it]
        messages, places = asked(queries, answers, updates)
        sent = b"".join(posted(pairs) for pairs in [*first, *messages])
        ran = subprocess.run([program, "-", "run"], input=sent, capture_output=True, check=False, timeout=LONGEST)
        bodies = [body.decode() for _, body in replies_in(ran.stdout)][-len(messages) :]
        if len(bodies) != len(messages) or ran.returncode or ran.stderr:
            wrong += 1
            told = (
                f"{len(bodies)} replies to {len(messages)} messages, status {ran.returncode}, {ran.stderr.decode()!r}"
            )
            print(f"seed {number}: {told}")
        for query, wanted, at in zip(queries, answers, places):
            values += not wanted.startswith("refused")
            for body in (bodies[k] for k in at if k < len(bodies)):
                if body != wanted and not (wanted.startswith("refused") and body.startswith(wanted)):
                    wrong += 1
                    print(f"seed {number}: {query}\n  wanted {wanted[:200]!r}\n  got    {body[:200]!r}")
        done += len(queries)
        number += 1
    print(f"{done} queries, {values} of them with a value, {wrong} wrong")
    if not values:
        print("no value was compared")
    return 1 if wrong or not values else 0


def main(program, most="1000", seed="1"):
    return compared(program, int(most), int(seed), lambda number: Zones(random.Random(f"zones {number}")))


if __name__ == "__main__":
    if len(sys.argv) < 2:
        sys.exit(__doc__)
    sys.exit(main(*sys.argv[1:]))
