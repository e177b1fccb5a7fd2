#!/usr/bin/env python3
"""Random sessions on the built program, each beside an independent reading of what is to come.

    oracle/sessions.py PROGRAM [SESSIONS] [SEED]

A session is one stream of messages over an empty store: coverages are made and written, described and deleted, queries
of all forms and templates are asked, jobs submitted, stepped by turns, fetched and cancelled, some keys and texts are
spoilt, bodies and pieces cut. Half of the sessions are about jobs: between their steps what they read is written,
deleted and inserted anew. Some are over coverages in several tiles, a few have 64 jobs and more, some are parted into
runs on a file, which is closed with jobs at hand and opened again, and some run on a file that is nearly full. The
units of a job are the program's choice within their bounds. The first difference is shown; at the end stands how often
what was reached.
"""

import collections
import functools
import os
import random
import re
import subprocess
import sys
import tempfile
import urllib.parse
from dataclasses import dataclass

sys.dont_write_bytecode = True

import store
from files import content_of, interval_list, posted
from machine import RANGES, served
from met import Met
from mutants import Chance
from room import Filler, Roomy
from texts import NAMES, Texts

FIELDS = ["v", "w", "b"]
# domains in 2, 4, 8 and 16 tiles
WIDE = ["x(0:4099)", "y(-3:62),x(5:70)", "t(0:16),y(0:16),x(0:17)", "k(0:8),t(0:8),y(0:8),x(0:8)"]
WIDE += ["m(0:4),k(0:4),t(0:1),y(0:4),x(0:1)", "n(0:4),m(0:1),k(0:4),t(0:1),y(0:4),x(0:1)"]
# the most cells of an update that are listed
MOST_LISTED = 300


class Unasked(Roomy):
    """The machine while a stream is made: it evaluates no query."""

    def answered(self, query, coverages):
        return ""


class Session(Chance):
    """A stream of messages by chance; what the machine would hold after them guides the later ones."""

    def __init__(self, chance, machine=None, wide=False):
        super().__init__(chance)
        self.machine, self.about_jobs, self.wide = machine or Unasked(), machine is not None, wide
        self.texts = Texts(chance, self.machine.store)

    def pairs(self):
        if not self.machine.store or self.one_in(5):
            return self.insertion()
        makes = [
            self.update,
            self.update,
            self.asked,
            self.asked,
            self.asked,
            self.asked,
            self.template,
            self.template,
            self.other,
            self.submitted,
            self.submitted,
        ]
        makes += [self.of_job] * (6 if self.machine.jobs else self.one_in(4))
        return self.chance.choice(makes)()

    def insertion(self, name=None):
        axes = interval_list(self.texts.box())
        fields = self.chance.sample(FIELDS, self.chance.choice([1, 1, 2, 3]))
        return self.spoilt(
            {
                "request": "InsertCoverage",
                "coverage": name or self.chance.choice(NAMES),
                "domain": self.chance.choice(WIDE) if self.wide and not self.one_in(4) else axes,
                "fields": ",".join(f"{name}:{self.chance.choice(list(RANGES))}" for name in fields),
            }
        )

    def update(self, name=None):
        name = name or self.chance.choice(list(self.machine.store))
        c = self.machine.store[name]
        field, kind = self.chance.choice(c.fields)
        box, size = [], 1
        for axis, lo, hi in c.axes:
            low = self.chance.randint(lo, hi)
            box.append((axis, low, self.chance.randint(low, hi)))
            size *= box[-1][2] - low + 1
        pairs = {"request": "UpdateCoverage", "coverage": name, "field": field, "box": interval_list(box)}
        if self.one_in(3) or size > MOST_LISTED:
            pairs["fill"] = self.cell(kind)
        else:
            pairs["values"] = ",".join(self.cell(kind) for _ in range(size + self.one_in(30)))
        return self.spoilt(pairs)

    def cell(self, kind):
        if self.one_in(60):
            return self.chance.choice(["true", "70000", "x", "", "9223372036854775808"])
        if kind == "bool":
            return self.chance.choice(["true", "false"])
        low, high = RANGES[kind]
        return str(self.chance.choice([0, 1, 2, 3, 3, 5, low, high, self.chance.randint(low, high)]))

    def asked(self):
        return self.spoilt({"request": "ProcessCoverages", "query": self.texts.query()})

    def submitted(self):
        return self.spoilt({"request": "SubmitQuery", "query": self.texts.query()})

    def of_job(self):
        known = list(self.machine.jobs)
        number = (
            self.chance.choice(known)
            if known and not self.one_in(12)
            else self.chance.choice([1, 2, 3, 99, "007", "+1", "", 2**64])
        )
        request = self.chance.choice(["StepJob", "StepJob", "FetchJob", "FetchJob", "CancelJob"])
        units = {
            "units": self.chance.choice([1, 1, 2, 7, "+1000", 1000, 1000])
            if not self.one_in(20)
            else self.chance.choice([0, 1001, "-1", "x"])
        }
        return self.spoilt({"request": request, "job": number} | (units if request == "StepJob" else {}))

    def template(self):
        operation = self.chance.choice(
            [
                "LocalSum",
                "LocalDifference",
                "LocalProduct",
                "LocalMaximum",
                "LocalMinimum",
                "FocalSum",
                "FocalMaximum",
                "FocalMinimum",
                "ZonalSum",
                "ZonalMaximum",
                "ZonalMinimum",
                "Slope",
            ]
        )
        pairs = {
            "request": self.chance.choice(["ExpandTemplate", "ProcessTemplate", "ProcessTemplate"]),
            "template": operation,
            "layer": self.layer(),
        }
        if not self.one_in(6) if not operation.startswith("Focal") else self.one_in(6):
            pairs["second"] = self.layer()
        if operation.startswith("Focal") != self.one_in(8):
            pairs["radius"] = self.chance.choice(["1", "1", "2", "+3", "8", "9", "0", "-1", "x"])
        return self.spoilt(pairs)

    def layer(self):
        name = self.texts.name()
        c = self.machine.store.get(name)
        return name if self.one_in(3) or not c or len(c.fields) == 1 else f"{name}.{self.chance.choice(c.fields)[0]}"

    def on_jobs(self):
        """A request of a session about jobs."""
        if not self.machine.store:
            return self.insertion()
        makes = [self.submitted_plainly] * 2 + ([] if self.wide else [self.submitted])
        if self.machine.jobs:
            makes += [self.under_a_job] * 5 + [self.stepped] * 5 + [self.of_job] * 2 + [self.asked_plainly, self.other]
            makes += [] if self.wide else [self.asked, self.template]
        return self.chance.choice(makes)()

    def under_a_job(self):
        """A change of a coverage that a job names: written, deleted, or inserted anew."""
        name = self.chance.choice(sorted(self.chance.choice(list(self.machine.jobs.values())).names))
        if name not in self.machine.store:
            return self.insertion(name)
        return self.update(name) if not self.one_in(4) else [("request", "DeleteCoverage"), ("coverage", name)]

    def stepped(self):
        job = self.chance.choice(list(self.machine.jobs))
        return [("request", "StepJob"), ("job", job), ("units", self.chance.choice([1, 1, 1, 1, 2, 1000]))]

    def submitted_plainly(self):
        return [("request", "SubmitQuery"), ("query", self.plain_query())]

    def asked_plainly(self):
        return [("request", "ProcessCoverages"), ("query", self.plain_query())]

    def plain_query(self):
        """A query that reads all cells of a field of one coverage, or of two."""
        names = self.chance.sample(
            list(self.machine.store), min(len(self.machine.store), self.chance.choice([1, 1, 2]))
        )
        parts = [self.whole(variable, name) for variable, name in zip("cd", names)]
        item, binds = " + ".join(parts), ", ".join(f"{it} in ({name})" for it, name in zip("cd", names))
        if self.one_in(20 if self.wide else 3) and len(names) == 1:
            item = f"encode(c.{self.machine.store[names[0]].fields[0][0]}, csv)"
        return f"for {binds} return {item}"

    def whole(self, variable, name):
        """A sum or a maximum, or a count, over a field."""
        field, kind = self.chance.choice(self.machine.store[name].fields)
        return f"{'count' if kind == 'bool' else self.chance.choice(['add', 'max'])}({variable}.{field})"

    def other(self):
        name = self.texts.name()
        return self.spoilt(
            self.chance.choice(
                [
                    {"request": "ListCoverages"},
                    {"request": "DescribeCoverage", "coverage": name},
                    {"request": "DeleteCoverage", "coverage": name},
                ]
            )
        )

    def spoilt(self, pairs):
        """The pairs as a list, at times with one of them gone, doubled, with another key or value, or in another
        order."""
        found = list(pairs.items())
        if self.one_in(4):
            self.chance.shuffle(found)
        if self.one_in(20):
            k = self.chance.randrange(len(found))
            key, value = found[k]
            found[k : k + 1] = self.chance.choice(
                [
                    [],
                    [(key, value)] * 2,
                    [(key, "")],
                    [(key.upper(), value)],
                    [(key, f"{value},")],
                    [("other", "1"), (key, value)],
                    [(key, str(value).replace(":", ""))],
                ]
            )
        return found

    def asked_next(self, pairs):
        """A message with some pairs, which the machine has served. In a session about jobs few messages end the
        connection."""
        message = posted(pairs) if self.about_jobs and not self.one_in(10) else self.message(pairs)
        served(self.machine, message)
        return message

    def cut(self, stream):
        return stream[: self.chance.randrange(len(stream) + 1)] if self.one_in(12) else stream

    def message(self, pairs):
        text = urllib.parse.urlencode(
            pairs, quote_via=self.chance.choice([urllib.parse.quote, urllib.parse.quote_plus])
        )
        version = b"1.0" if self.one_in(60) else b"1.1"
        fields = b"".join(
            self.chance.choice([b"Host: h\r\n", b"Accept: */*\r\n", b"X-Y:\r\n"])
            for _ in range(self.chance.randrange(3))
        )
        if self.one_in(40):
            fields += self.chance.choice(
                [
                    b"Connection: close\r\n",
                    b"Connection: keep-alive, CLOSE\r\n",
                    b"Transfer-Encoding: chunked\r\n",
                    b"Content-Length: x\r\n",
                    b"Content-Length: 1048577\r\n",
                    b"connection: closed\r\n",
                ]
            )
        path = b"/ows" if not self.one_in(40) else self.chance.choice([b"/", b"/owsx", b"/ows/"])
        method = (
            self.chance.choice([b"PUT", b"HEAD", b"get"]) if self.one_in(80) else self.chance.choice([b"GET", b"POST"])
        )
        if method == b"POST":
            body = text.encode()
            return b"POST %s HTTP/%s\r\n%sContent-Length: %d\r\n\r\n%s" % (path, version, fields, len(body), body)
        return b"%s %s?%s HTTP/%s\r\n%s\r\n" % (method, path, text.encode(), version, fields)


# while a stream is made a job has so many units, where there may be so many
SOME_UNITS = dict.fromkeys(range(1, 200), 3)


@functools.cache
def filler_of(spare):
    return None if spare is None else Filler(spare)


def session_of(seed):
    """The stream of a session. A machine serves message by message while the stream is made."""
    made = Session(random.Random(seed))
    stream = b"".join(made.asked_next(made.pairs()) for _ in range(made.chance.randrange(1, 14)))
    return made.cut(stream)


@dataclass
class Runs:
    """A stream for each run on one file, or on no file for a single run; and how many blocks of the file are free, or
    None for a new one."""

    streams: list
    on_file: bool = False
    spare: int | None = None


def of_jobs(made, messages):
    """A stream about jobs over two coverages, or over those that are there."""
    first = [made.insertion, made.insertion, made.update, made.update, made.update]
    stream = b"".join(made.asked_next(make() if made.machine.store else made.insertion()) for make in first)
    return stream + b"".join(made.asked_next(made.on_jobs()) for _ in range(messages))


def of_many_jobs(made):
    """A stream with 64 jobs and more, over coverages that are written between one submission and the next."""
    stream = of_jobs(made, 0)
    for _ in range(70):
        stream += made.asked_next(made.submitted_plainly() if made.machine.store else made.insertion())
        for _ in range(made.chance.choice([1, 1, 2])):
            change = made.update if made.machine.store and not made.one_in(40) else made.on_jobs
            stream += made.asked_next(change())
    stream += b"".join(made.asked_next(made.on_jobs()) for _ in range(80))
    for number in list(made.machine.jobs):
        stream += made.asked_next([("request", "StepJob"), ("job", number), ("units", 1000)])
        stream += made.asked_next([("request", "FetchJob"), ("job", number)])
    return stream


def runs_of(seed):
    """The runs of a session."""
    chance = random.Random(seed)
    kind = chance.choice(["plain"] * 20 + ["jobs"] * 14 + ["reopened"] * 5 + ["full"] * 3 + ["many"])
    if kind == "plain":
        return Runs([session_of(seed)])
    wide = chance.randrange(4) == 0
    spare = chance.choice([6, 12, 20, 32] if wide else [1, 2, 3, 4]) if kind == "full" else None
    made = Session(chance, Unasked(SOME_UNITS, filler_of(spare)), wide)
    if kind == "many":
        return Runs([of_many_jobs(made)])
    runs = Runs([of_jobs(made, chance.randrange(8, 40) + 30 * (kind == "full"))], kind != "jobs", spare)
    for _ in range({"jobs": 0, "reopened": chance.choice([1, 1, 2]), "full": chance.randrange(2)}[kind]):
        made.machine.reopened(SOME_UNITS)
        runs.streams.append(of_jobs(made, chance.randrange(4, 20)))
    return runs


def units_in(replies):
    """The units that the program chose for each job."""
    return {int(number): int(left) for number, left in re.findall(rb"\njob (\d+) left (\d+)\n", replies)}


def differs(program, path, runs):
    """What one session met, and what differs: nothing, or the stream, the bytes that are to come, and those that
    came."""
    machine, file = Met(filler=filler_of(runs.spare)), path if runs.on_file else "-"
    if runs.spare is not None:
        machine.filler.write(path)
    elif os.path.exists(path):
        os.remove(path)
    replies = b""
    for number, stream in enumerate(runs.streams):
        came = subprocess.run([program, file, "run"], input=stream, capture_output=True, check=False, timeout=600)
        if number:
            machine.reopened()
        machine.units = units_in(came.stdout)
        expected = served(machine, stream)
        replies += expected
        if came.returncode or came.stdout != expected:
            told = f"run {number}, status {came.returncode} {came.stderr.decode()}"
            return machine.met, replies, (told, stream, expected, came.stdout)
    if runs.on_file and runs.spare is None and not store.is_same(store.read(content_of(path)), machine.store):
        return machine.met, replies, ("the file holds another store", b"".join(runs.streams), b"", b"")
    return machine.met, replies, None


def main(program, sessions="1000", seed="1"):
    program, numbers, met = os.path.abspath(program), collections.Counter(), collections.Counter()
    with tempfile.TemporaryDirectory() as folder:
        for k in range(int(sessions)):
            name = f"{seed}.{k}"
            found, replies, wrong = differs(program, f"{folder}/store", runs_of(name))
            if wrong:
                told, *texts = wrong
                stream, expected, came = (it.decode(errors="replace") for it in texts)
                print(f"session {name}, {told}", stream, "wanted:", expected, "came:", came, sep="\n")
                return 1
            met.update(found)
            numbers.update(it.decode() for it in re.findall(rb"^(?:refused |HTTP/1.1 (?=200))(\d+)", replies, re.M))
    counted = ", ".join(f"{'answered' if it == '200' else it}: {times}" for it, times in sorted(numbers.items()))
    print(f"{sessions} sessions, none differs; refusals by number: {counted}")
    print("met:", "; ".join(f"{what}: {times}" for what, times in sorted(met.items())))
    if not numbers["200"]:
        print("nothing was answered")
        return 1
    return 0


if __name__ == "__main__":
    if len(sys.argv) < 2:
        sys.exit(__doc__)
    sys.exit(main(*sys.argv[1:]))
