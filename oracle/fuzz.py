#!/usr/bin/env python3
"""Mutated streams, queries and store files on the built program, each beside the independent reading.

    oracle/fuzz.py PROGRAM [SECONDS] [SEED]

Inputs are made from the seed for so many seconds, 60 where they are left out, or for ever where they are 0. A stream is
a session of oracle/sessions.py whose bytes are changed; its replies have to be those of oracle/machine.py. A query's
tokens are changed; it is asked over a few coverages, at times as a job. A file is one that a session left; it is
changed, and has to open to what oracle/store.py reads in it, tile by tile, also after an update and a close, or to be
refused by that number and stay as it is. Each run of the program has to end by itself, within so much processor time
and so much memory. What was found is told by the name of its input, as 7.123, by which alone it is made again:
oracle/fuzz.py PROGRAM 0 7.123. Where a query's work is more than this reading counts up to, it has to be answered by a
value or a fault; where it is far more, the input is left out. Ends with status 1 where something was found, or where no
input was compared.
"""

import collections
import contextlib
import os
import random
import re
import sys
import tempfile
import time

sys.dont_write_bytecode = True

import sessions
import store
from files import Asks, content_of, posted, replies_in
from language import Refused, parsed
from machine import Machine, interval_in, listed_in, served
from meaning import Fault, answer_of, combinations, count, work_of
from mutants import Queries, Streams
from runs import Runs
from spoilt import Files

# the most work that is counted here, and the most that is asked; the most points of a domain
MOST_COUNTED, MOST_ASKED, MOST_POINTS = 40_000, 5_000_000, 50_000
UNKNOWN = "?"


class Beyond(Exception):
    """An input that would take this reading, or the program, too long."""


class Bounded(Machine):
    """The machine, which does moderate work for a query, writes boxes of moderate size, and has of a large coverage the
    cells alone that were written."""

    def answered(self, query, coverages):
        """The CSV of a query over a store; `UNKNOWN` where that is much work; or a fault."""
        found = combinations(parsed(query), coverages)
        work = work_of(found)
        if work > MOST_ASKED:
            raise Beyond
        return UNKNOWN if work > MOST_COUNTED else answer_of(found)

    def cells(self, axes, kind):
        if count(axes) <= MOST_POINTS:
            return super().cells(axes, kind)
        return collections.defaultdict(bool if kind == "bool" else int)

    def UpdateCoverage(self):
        for given, value in self.pairs:
            axes = given.lower() == "box" and listed_in(interval_in)(value)
            if axes and count(axes) > MOST_POINTS:
                raise Beyond
        return super().UpdateCoverage()

    def SubmitQuery(self):
        """The steps of a job take as long as its query does, whether its answer is fetched or not."""
        reply = super().SubmitQuery()
        job = self.jobs[self.next - 1]
        with contextlib.suppress(Fault):
            self.answered(job.query, job.store)
        return reply


def is_value(head, body):
    """Whether a reply is a value or a fault."""
    return head.startswith(b"HTTP/1.1 200 OK\r\nContent-Type: text/csv\r\n") or re.fullmatch(
        rb"refused 6[0-4] \w+\n", body
    )


def agree(out, expected):
    """Whether the replies are those that were expected, where a body of `UNKNOWN` is any value or fault."""
    if out == expected or UNKNOWN.encode() not in expected:
        return out == expected
    pairs = list(zip(replies_in(out), replies_in(expected)))
    return len(replies_in(out)) == len(replies_in(expected)) and all(
        is_value(*came) if body == UNKNOWN.encode() else came == (head, body) for came, (head, body) in pairs
    )


class Fuzz:
    """Makes inputs by their names, tries them, and counts."""

    def __init__(self, program, folder, tells):
        self.program, self.path, self.tells = program, f"{folder}/store", tells
        self.counts, self.replies = collections.Counter(), collections.Counter()
        self.found, self.runs = [], Runs()
        # the most that an input took, and which it was, of those that were compared and of those that were left out
        self.longest, self.largest, self.left_out, self.last = (0.0, ""), (0, ""), (0.0, ""), None

    def counted(self, what):
        self.counts[what] += 1

    def wrong(self, name, what, *shown):
        self.found.append(name)
        print(f"{name}: {what}", flush=True)
        if self.tells:
            print(*shown, sep="\n")

    def ran(self, name, stream, file=None):
        """A run on a file."""
        self.last = run = self.runs.ran(self.program, file or self.path, stream)
        if self.tells:
            print(f"{name}: {run.seconds:.3f} processor seconds, {run.kib} KiB")
        return run

    def ended(self, name, run, wanted=(0, b"")):
        """Whether a run ended as it was to."""
        self.longest, self.largest = max(self.longest, (run.seconds, name)), max(self.largest, (run.kib, name))
        if (run.status, run.errors) != wanted:
            told = f"after {run.seconds:.2f} s and {run.kib} KiB"
            self.wrong(name, f"status {run.status}, {run.errors}, and not {wanted}, {told}")
        return (run.status, run.errors) == wanted

    def trial(self, name):
        chance = random.Random(name)
        self.chance = chance
        try:
            chance.choice([self.stream, self.queries, self.file])(name)
        except Beyond:
            self.counted("left out")
            self.left_out = max(self.left_out, (self.last.seconds, name))

    def beside(self, what, name, stream):
        """A stream on an empty store in memory."""
        run = self.ran(name, stream, "-")
        expected = served(Bounded(sessions.units_in(run.out)), stream)
        self.counted(what)
        self.replies.update(map(int, re.findall(rb"^(?:refused |HTTP/1.1 (?=200))(\d+)", run.out, re.M)))
        if self.ended(name, run) and not agree(run.out, expected):
            self.wrong(name, f"{what}: other replies", stream, "wanted:", expected, "came:", run.out)

    def stream(self, name):
        self.beside(
            "streams", name, Streams(self.chance).changed(*(sessions.session_of(f"{name}.{k}") for k in range(2)))
        )

    def filled(self):
        """A session with two coverages that are written, in half of the cases such as span tiles, and its messages so
        far."""
        made, stream = sessions.Session(self.chance), b""
        made.machine = machine = Bounded()
        made.texts.store = machine.store
        insertion = self.chance.choice([made.insertion, self.wide_insertion])
        while len(machine.store) < 2 or self.chance.randrange(3):
            message = posted(insertion() if len(machine.store) < 2 else made.update())
            stream += message
            served(machine, message)
        return made, stream

    def queries(self, name):
        (made, stream), changes = self.filled(), Queries(self.chance)
        text = made.texts.query()
        for _ in range(10):
            other = made.texts.query()
            text, query = other, changes.changed(text, other)
            if changes.one_in(4):
                stream += posted([("request", "SubmitQuery"), ("query", query)])
                job = self.chance.choice([1, 1, 1, 2])
                stream += posted([("request", "StepJob"), ("job", job), ("units", 1000)])
                stream += posted([("request", "FetchJob"), ("job", job)])
            else:
                stream += posted([("request", "ProcessCoverages"), ("query", query)])
        self.beside("streams of queries", name, stream)

    def wide_insertion(self):
        """A coverage in several tiles."""
        fields = [
            f"{name}:{self.chance.choice(store.TYPES)}" for name in self.chance.choice([["v"], ["v"], ["w", "v"]])
        ]
        pairs = {"request": "InsertCoverage", "coverage": self.chance.choice(sessions.NAMES)}
        return pairs | {"domain": self.chance.choice(sessions.WIDE), "fields": ",".join(fields)}

    def file(self, name):
        stream = self.filled()[1] + sessions.session_of(f"{name}.0")
        if os.path.exists(self.path):
            os.remove(self.path)
        run = self.ran(name, stream)
        machine, data = Bounded(sessions.units_in(run.out)), content_of(self.path)
        expected = served(machine, stream)
        if any(count(it.axes) > MOST_POINTS for it in machine.store.values()):
            raise Beyond
        self.counted("files as they were written")
        if not self.ended(name, run):
            return
        if not agree(run.out, expected) or not store.is_same(store.read(data), machine.store):
            self.wrong(name, "other replies over a file, or a file that does not hold the store", stream)
        for _ in range(12):
            self.changed_file(name, Files(self.chance).changed(data))

    def changed_file(self, name, data):
        with open(self.path, "wb") as file:
            file.write(data)
        try:
            found = store.read(data)
        except Refused as refusal:
            line = f"not opened: {refusal.number} {store.FILE_REFUSALS[refusal.number]}\n".encode()
            run = self.ran(name, LIST)
            self.counted(f"files refused as {refusal.number}")
            if self.ended(name, run, (3, line)) and (run.out or content_of(self.path) != data):
                self.wrong(name, "a file that was refused, and is not as it was")
            return
        if any(count(it.axes) > MOST_POINTS for it in found.values()):
            raise Beyond
        asks = Asks(self.chance, found)
        run = self.ran(name, b"".join(message for message, _ in asks.made))
        self.counted("files with damaged tiles" if asks.damaged else "files that open")
        if not self.ended(name, run):
            return
        came = [body for _, body in replies_in(run.out)]
        for (message, wanted), body in zip(asks.made, came):
            if body != wanted.encode():
                return self.wrong(name, "another reply over a file", message, "wanted:", wanted, "came:", body)
        try:
            again = Asks.known(store.read(content_of(self.path)))
        except Refused as refusal:
            return self.wrong(name, f"a file that is refused as {refusal.number} after its close")
        if len(came) != len(asks.made) or again != asks.after:
            self.wrong(name, "a file that holds another store after its close")


LIST = b"GET /ows?request=ListCoverages HTTP/1.1\r\n\r\n"


def main(program, seconds="60", seed="1"):
    ends = time.monotonic() + float(seconds) if float(seconds) else float("inf")
    with tempfile.TemporaryDirectory() as folder:
        fuzz = Fuzz(os.path.abspath(program), folder, "." in seed)
        if "." in seed:
            fuzz.trial(seed)
        number = 0
        while "." not in seed and time.monotonic() < ends:
            fuzz.trial(f"{seed}.{number}")
            number += 1
    print(", ".join(f"{what}: {times}" for what, times in sorted(fuzz.counts.items())))
    replies = sorted(fuzz.replies.items())
    print("replies:", ", ".join(f"{'answered' if number == 200 else number}: {times}" for number, times in replies))
    (seconds, slowest), (kib, largest) = fuzz.longest, fuzz.largest
    print(
        f"{len(fuzz.found)} found; at most {seconds:.2f} processor seconds, by {slowest}, and {kib} KiB, by {largest};"
    )
    print("of those that were left out at most {:.2f} processor seconds, by {}".format(*fuzz.left_out))
    compared = sum(fuzz.counts.values()) - fuzz.counts["left out"]
    if not compared:
        print("no input was compared")
    return 1 if fuzz.found or not compared else 0


if __name__ == "__main__":
    if len(sys.argv) < 2:
        sys.exit(__doc__)
    sys.exit(main(*sys.argv[1:]))
