#!/usr/bin/env python3
"""Random sessions on files with damaged tiles, with jobs, each beside an independent reading of what is to come.

    oracle/damaged.py PROGRAM [SESSIONS] [SEED]

A session makes coverages in a file, in half of the cases such as span tiles. Then some bytes in the blocks of some
tiles are rewritten, so that these are no longer tiles, and messages are asked over the file: queries of all forms and
of single tiles, templates, jobs that are submitted, stepped by turns, fetched and cancelled, updates, of whole tiles
among them, deletions and insertions. At last the file is read; at times it is damaged once more and asked again.

A reply is the one of the reading, or `93 Damaged` where that may come: for a query, a template or a step of a job with
units left where a coverage that it names has a damaged tile, for a job as it was at its submission; for an update where
its box meets a damaged tile and does not cover it. It has to come for such an update, and for a query that needs a cell
of a damaged tile. Then store and jobs stay as they are, and so do the bytes of a damaged tile, until it is written
whole. The first session with a difference is shown; at the end stands how often what came.
"""

import collections
import os
import random
import subprocess
import sys
import tempfile

sys.dont_write_bytecode = True

import sessions
import store
from files import content_of, interval_list, known_tiles, posted, replies_in
from language import Refused
from machine import Machine, number_in, served, units_in
from meaning import Coverage, count, points, rank, submitted
from room import meets
from spoilt import listed_in

DAMAGED = b"refused 93 Damaged\n"
# the most bytes of a body
MOST_BYTES = 2**20
# how often bytes of a tile are rewritten until it is damaged
MOST_TRIES = 50
LIMIT = 600


class Broken:
    """What stands in the place of each cell of a damaged tile: the tile's bytes."""

    def __init__(self, data):
        self.data = data


class Cells(list):
    """The cells of a field, of which those of damaged tiles cannot be read."""

    def __getitem__(self, at):
        cell = super().__getitem__(at)
        if isinstance(cell, Broken):
            raise Refused(93)
        return cell

    def tile(self, axes, number):
        """The cells of a tile, or its bytes where it is damaged."""
        found = [list.__getitem__(self, rank(axes, it)) for it in points(store.tile_box(axes, number))]
        return found[0].data if isinstance(found[0], Broken) else found


def is_damaged(coverage):
    return any(isinstance(cell, Broken) for cells in coverage.cells for cell in cells)


def covers(box, other):
    return all(lo <= low and high <= hi for (_, lo, hi), (_, low, high) in zip(box, other))


def held(file):
    """The coverages that a file holds."""
    found = {}
    for name, it in store.read(file).items():
        fields = [Cells([None] * count(it.axes)) for _ in it.fields]
        for k, cells in enumerate(fields):
            for number, tile in enumerate(known_tiles(it, k)):
                box = store.tile_box(it.axes, number)
                of_tile = [Broken(tile)] * count(box) if isinstance(tile, bytes) else tile
                for point, cell in zip(points(box), of_tile):
                    cells[rank(it.axes, point)] = cell
        found[name] = Coverage(it.axes, it.fields, fields)
    return found


def shown(coverages):
    """Names, signatures, and of each field its tiles, or their bytes where they are damaged."""
    return [
        (name, it.axes, it.fields, [[c.tile(it.axes, n) for n in range(store.tile_count(it.axes))] for c in it.cells])
        for name, it in coverages.items()
    ]


class Beside(Machine):
    """The machine beside damaged tiles. `came` is the body of the reply that came, by which it is known whether a step
    was refused; `may` says of the last request whether damage may be told in the place of its reply."""

    def __init__(self, units, coverages):
        super().__init__(units)
        self.store, self.came, self.may, self.met = coverages, b"", False, collections.Counter()

    def cells(self, axes, kind):
        return Cells(super().cells(axes, kind))

    def put(self, name, coverage, written=()):
        if written:
            self.met["updates of what is damaged"] += is_damaged(self.store[name])
            k, box = written
            for number in range(store.tile_count(coverage.axes)):
                part = store.tile_box(coverage.axes, number)
                if meets(part, box) and isinstance(self.store[name].cells[k].tile(coverage.axes, number), bytes):
                    if not covers(box, part):
                        raise Refused(93)
                    self.met["damaged tiles that were written whole"] += 1
        super().put(name, coverage, written)

    def answered(self, query, coverages):
        """Damage may be told only where types accept the query."""
        names, _ = submitted(query, coverages)
        self.may = any(is_damaged(coverages[name]) for name in names)
        return super().answered(query, coverages)

    def StepJob(self):
        number, _ = self.key("job", number_in), self.key("units", units_in)
        job = self.job(number)
        reads_damaged = any(is_damaged(job.store[name]) for name in job.names)
        self.met["steps of jobs beside damaged tiles"] += reads_damaged and job.left > 0
        if self.came == DAMAGED and reads_damaged and job.left > 0:
            raise Refused(93)
        return super().StepJob()

    def FetchJob(self):
        try:
            return super().FetchJob()
        finally:
            self.met["answers of jobs beside damaged tiles"] += self.may
            self.may = False

    def reply_to(self, message, came):
        """The bytes that are to come for a message, where these came."""
        self.came, self.may = came.partition(b"\r\n\r\n")[2], False
        wanted = served(self, message)
        if self.may and self.came == DAMAGED != wanted.partition(b"\r\n\r\n")[2]:
            self.met["queries refused that need no damaged tile"] += 1
            return came
        self.met["queries answered beside damaged tiles"] += self.may and self.came != DAMAGED
        return wanted


class Guide(Machine):
    """The machine while a stream is made: it evaluates no query."""

    def answered(self, query, coverages):
        return ""


class Asking(sessions.Session):
    """Messages by chance over coverages that are there."""

    def message_of(self, pairs):
        """The message of pairs; a list in place of one whose body is too long, behind which no message would be
        read."""
        message = posted(pairs)
        if len(message) > MOST_BYTES:
            message = posted([("request", "ListCoverages")])
        served(self.machine, message)
        return message

    def of_tile(self):
        """A coverage, a field of it with its type, and the box of a tile, or of all of the coverage."""
        name = self.chance.choice(list(self.machine.store))
        c = self.machine.store[name]
        field, kind = self.chance.choice(c.fields)
        box = c.axes if self.one_in(8) else store.tile_box(c.axes, self.chance.randrange(store.tile_count(c.axes)))
        return name, field, kind, box

    def tile_query(self):
        name, field, kind, box = self.of_tile()
        part = f"c.{field}[{', '.join(f'{axis}({lo}:{hi})' for axis, lo, hi in box)}]"
        whole = "count" if kind == "bool" else self.chance.choice(["add", "max"])
        item = f"encode({part}, csv)" if self.one_in(3) else f"{whole}({part})"
        request = self.chance.choice(["ProcessCoverages", "SubmitQuery"])
        return [("request", request), ("query", f"for c in ({name}) return {item}")]

    def tile_update(self):
        name, field, kind, box = self.of_tile()
        written = interval_list(box)
        pairs = [("request", "UpdateCoverage"), ("coverage", name), ("field", field), ("box", written)]
        if count(box) <= sessions.MOST_LISTED and self.one_in(2):
            return pairs + [("values", ",".join(self.cell(kind) for _ in range(count(box))))]
        return pairs + [("fill", self.cell(kind))]

    def filling(self):
        """The messages that make two to four coverages, most tiles of which are not 0."""
        while len(self.machine.store) < 2 or (len(self.machine.store) < 4 and self.one_in(2)):
            before = set(self.machine.store)
            yield self.message_of(self.insertion())
            for name in set(self.machine.store) - before:
                c = self.machine.store[name]
                box = interval_list(c.axes)
                for field, kind in c.fields:
                    pairs = {"request": "UpdateCoverage", "coverage": name, "field": field, "box": box}
                    yield self.message_of(pairs | {"fill": "true" if kind == "bool" else self.chance.choice("1237")})
        for _ in range(self.chance.randrange(4, 12)):
            yield self.message_of(self.update())

    def asked_next(self, pairs=None):
        if not self.machine.store:
            return self.message_of(self.insertion())
        makes = [self.tile_query] * 5 + [self.tile_update, self.update, self.update, self.submitted_plainly]
        makes += [self.asked_plainly, self.other] + ([self.template] if not self.wide else [])
        makes += [self.asked, self.asked, self.submitted] if not self.wide else [self.tile_query] * 2
        makes += [self.stepped] * 6 + [self.fetched] * 3 + [self.under_a_job, self.of_job] if self.machine.jobs else []
        return self.message_of(self.chance.choice(makes)())

    def fetched(self):
        """A job is fetched that has no units left here, where there is one."""
        done = [number for number, job in self.machine.jobs.items() if job.left == 0]
        return [("request", "FetchJob"), ("job", self.chance.choice(done or list(self.machine.jobs)))]


def damaged(chance, data):
    """A file with bytes of some tiles rewritten, so that most of these are damaged and some have other cells."""
    data = bytearray(data)
    tiles = [(axes, kind, it) for axes, kind, entries in listed_in(bytes(data))[1] for it in entries]
    for axes, kind, (number, told, blocks) in chance.sample(tiles, min(len(tiles), chance.choice([1, 1, 2, 3, 6]))):
        is_raw, length = store.form_and_length(told)
        for _ in range(MOST_TRIES):
            at = chance.randrange(length)
            data[blocks[at // store.BLOCK] * store.BLOCK + at % store.BLOCK] = chance.choice([0, 1, 2, 3, 16, 255])
            tile = b"".join(store.block(bytes(data), it) for it in blocks)[:length]
            try:
                store.decoded(kind, count(store.tile_box(axes, number)), is_raw, tile)
            except Refused:
                break
    return bytes(data)


class Different(Exception):
    """A session with a difference, and what differs."""


def run(program, path, messages):
    """What the program wrote for messages over a file."""
    stream = b"".join(messages)
    ended = subprocess.run([program, path, "run"], input=stream, capture_output=True, timeout=LIMIT, check=False)
    if ended.returncode or ended.stderr:
        raise Different(f"status {ended.returncode}, {ended.stderr.decode()}", stream)
    return ended.stdout


def asked_over(program, path, chance, wide, met):
    """Damages the file, asks messages over it, and compares the replies and what it holds then."""
    data = damaged(chance, content_of(path))
    with open(path, "wb") as file:
        file.write(data)
    made = Asking(chance, Guide(sessions.SOME_UNITS), wide)
    made.machine.store.update(held(data))
    messages = [made.asked_next() for _ in range(chance.randrange(15, 60))]
    out = run(program, path, messages)
    machine = Beside(sessions.units_in(out), held(data))
    met["sessions over damaged tiles"] += any(map(is_damaged, machine.store.values()))
    replies = [head + b"\r\n\r\n" + body for head, body in replies_in(out)]
    if len(replies) != len(messages):
        raise Different(f"{len(replies)} replies for {len(messages)} messages", b"".join(messages), out)
    for k, (message, came) in enumerate(zip(messages, replies)):
        wanted = machine.reply_to(message, came)
        if came != wanted:
            raise Different(f"message {k}", b"".join(messages[: k + 1]), wanted, came)
        if came.endswith(DAMAGED):
            request = next(value for key, value in machine.pairs if key.lower() == "request")
            met[f"93 for {request}"] += 1
    if shown(held(content_of(path))) != shown(machine.store):
        raise Different("the file holds another store", b"".join(messages))
    met.update(machine.met)


def session(program, path, name, met):
    chance = random.Random(name)
    wide = chance.randrange(2) == 0
    if os.path.exists(path):
        os.remove(path)
    run(program, path, Asking(chance, Guide(), wide).filling())
    for _ in range(chance.choice([1, 1, 2])):
        asked_over(program, path, chance, wide, met)


def main(program, number="1000", seed="1"):
    program, met = os.path.abspath(program), collections.Counter()
    with tempfile.TemporaryDirectory() as folder:
        for k in range(int(number)):
            try:
                session(program, f"{folder}/store", f"{seed}.{k}", met)
            except Different as difference:
                told, *texts = difference.args
                print(f"session {seed}.{k}: {told}", *(it.decode(errors="replace") for it in texts), sep="\n")
                return 1
    print(f"{number} sessions, none differs; {'; '.join(f'{what}: {times}' for what, times in sorted(met.items()))}")
    if not met["sessions over damaged tiles"]:
        print("no tile was damaged")
        return 1
    return 0


if __name__ == "__main__":
    if len(sys.argv) < 2:
        sys.exit(__doc__)
    sys.exit(main(*sys.argv[1:]))
