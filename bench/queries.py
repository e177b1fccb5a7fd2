#!/usr/bin/env python3
"""The time of queries on three layers of 4,096 x 4,096 cells of i16, each beside a loop in C over the same cells.

usage: bench/queries.py [--again] [--beside] [WORD..]    only the rows that have all of these words

The queries go to the built program over the store of layers.py, through a pipe. The time is that which the program is
on a processor from the query to the end of its reply; the loops of queries.c read cells of 16 bits in memory and write
their own digits; they are compiled here by cc -O3, and their times are processor time too. A query and its loop take
turns, and both times are medians of nine or more. Small requests go over one connection on loopback, by turns with
those to a server in C, echo.c, that finds the end of a message and writes the same reply. Each reply is compared with
what the loop printed. The second column is what the program has had of memory at most until then. The aim is how many
times C's time a query is to take at most, or how many times another row's, where that is printed too; the last lines
say which aims were missed. Behind the queries stand small requests, and what a store of as many tiles as a file of 4
GiB has room for takes to open and to close.

With --beside the same is asked of PostGIS raster (by_postgis.py) and of numpy behind a small HTTP server (by_numpy.py),
each where it is installed, and their processor times stand in columns of their own: that of the backend, and that of
the server. A dash is where one has no reasonable form. `rt run` in crates/rasterd builds the program; SERVER names
another one. With --again the store is made anew. bench/submissions.py has what jobs take.
"""
import contextlib
import os
import socket
import statistics
import subprocess
import sys
import time

sys.dont_write_bytecode = True
TOP = os.path.dirname(os.path.dirname(os.path.abspath(__file__)))
sys.path[:0] = [f"{TOP}/oracle", f"{TOP}/scripts"]

import by_numpy
import by_postgis
from compiled import compiled
from layers import FOLDER, PROGRAM, SIDE, STORE, Connection, Session, cells_of, is_made, make_store, message, updates
from room import FILLER, Filler
from served import connected, free_port

# no more askings of a query once they took so many seconds
ENOUGH = 20
# how often small requests are asked
TURNS = 100
COVERAGES = 1024
WRITTEN = 1024


def query(text):
    return message(request="ProcessCoverages", query=text)


def template(name, layer, **pairs):
    return message(request="ProcessTemplate", template=name, layer=layer, **pairs)


def by_products(part, kinds):
    """The sums of noise by the kinds of land over a part, each of products with a comparison."""
    over = f"add(c{part} * (z{part} = $k))"
    return query(f"for c in (noise), z in (land) return encode(coverage s over $k k(0:{kinds - 1}) values {over}, csv)")


def by_zones(side, kinds):
    """The sums of noise by the kinds of land over a corner, each by a fold under a condition."""
    box = f"$y y(0:{side - 1}), $x x(0:{side - 1})"
    return query(
        f"for c in (noise), z in (land) return encode(coverage s over $k k(0:{kinds - 1}) values"
        f" condense + over {box} where z[y($y), x($x)] = $k using c[y($y), x($x)], csv)"
    )


CORNER = "[y(0:1023), x(0:1023)]"
COUNT = "return count((c * 3 + 7) / 2 > 100 and c != 0)"
RADIUS_3 = "FocalSum, radius 3"
ZONES_16 = "sums of 16 zones, 4096 x 4096, by products"
# what a row is called, its loop in C, its aim, and its request
QUERIES = [
    ("add(c), noise", "add_noise", 3.5, query("for c in (noise) return add(c)")),
    ("add(c), terrain", "add_terrain", 4, query("for c in (terrain) return add(c)")),
    ("add(c), land", "add_land", 3, query("for c in (land) return add(c)")),
    ("max(c), noise", "max_noise", 4, query("for c in (noise) return max(c)")),
    ("max(c), land", "max_land", 4, query("for c in (land) return max(c)")),
    ("count((c*3+7)/2 > 100 and c != 0), noise", "count_noise", 8, query("for c in (noise) " + COUNT)),
    ("the same count, terrain", "count_terrain", 8, query("for c in (terrain) " + COUNT)),
    ("the same count, land", "count_land", 5, query("for c in (land) " + COUNT)),
    ("add(abs(c - d))", "difference", 7, query("for c in (noise), d in (terrain) return add(abs(c - d))")),
    (
        "64 x 64 window in one tile as CSV",
        "inner_window",
        1.5,
        query("for c in (noise) return encode(c[y(1024:1087), x(1024:1087)], csv)"),
    ),
    (
        "64 x 64 window across four tiles as CSV",
        "window",
        2.5,
        query("for c in (noise) return encode(c[y(1000:1063), x(1000:1063)], csv)"),
    ),
    ("2^20 cells as CSV", "cells", 1.5, query(f"for c in (noise) return encode(c{CORNER}, csv)")),
    ("FocalSum, radius 1, 512 x 512 as CSV", "focal_sum_1", 3, template("FocalSum", "hill", radius=1)),
    (RADIUS_3, "focal_sum_3", 6, template("FocalSum", "hill", radius=3)),
    ("FocalSum, radius 8", "focal_sum_8", (3, RADIUS_3), template("FocalSum", "hill", radius=8)),
    ("FocalMaximum, radius 1", "focal_max_1", 3, template("FocalMaximum", "hill", radius=1)),
    ("FocalMaximum, radius 3", "focal_max_3", 6, template("FocalMaximum", "hill", radius=3)),
    ("ZonalSum, 64 x 64 as CSV", "zonal_64", 12, template("ZonalSum", "noise64", second="land64")),
    ("ZonalSum, 130 x 130", "zonal_130", 40, template("ZonalSum", "noise130", second="land130")),
    ("sums of 16 zones, 1024 x 1024, by products", "zones_16", 6, by_products(CORNER, 16)),
    ("sums of 16 zones, 1024 x 1024, by conditions", "zones_16", 6, by_zones(1024, 16)),
    ("sums of 256 zones, 1024 x 1024, by conditions", "zones_256", 12, by_zones(1024, 256)),
    (ZONES_16, "all_zones_16", 6, by_products("", 16)),
    ("sums of 48 zones, 4096 x 4096, by products", "all_zones_48", (2, ZONES_16), by_products("", 48)),
]
FIVE = query("for c in (noise) return 2 + 3")
# the same of small requests, and how many of each are sent together
SMALL = [
    ("2 + 3, one at a time", "five", 2, FIVE, 1),
    ("2 + 3, sixteen at a time, each", "five", 3, FIVE, 16),
    ("one cell", "cell", None, query("for c in (noise) return c[y(1000), x(1000)]"), 1),
]
INGEST = f"4096 x {WRITTEN} cells written by values"
BESIDE_MANY = [f"one cell beside {COVERAGES} coverages", f"a list of {COVERAGES} coverages"]
MOST_TILES = "as many tiles as there can be, opened"


class Table:
    """The rows that have some words, which are printed one by one, with columns for what is asked besides."""

    def __init__(self, words, beside):
        self.words, self.beside = words, beside
        self.taken, self.missed = {}, []
        others = "".join(f"{it.name + ' ms':>12}" for it in beside)
        print(f"{'request':46}{'ms':>11}{'MiB':>5}{'C ms':>10}{others}{'times C':>9}  aim", flush=True)

    def has(self, *names):
        return any(all(word in name for word in self.words) for name in names)

    def row(self, name, taken, mebibytes=None, plain=None, others=None, aim=None):
        """Prints seconds: the program's, those of the loop in C, and those of the others."""
        self.taken[name] = taken
        times, base = aim if isinstance(aim, tuple) else (aim, None)
        bound = self.taken.get(base) if base else plain
        told = f"{times} x {base}" if base else times or "-"
        if times and bound and taken > times * bound:
            self.missed.append(f"{name}: {taken / bound:.1f}, not {told}")
            told = f"{told}  missed"
        columns = [(mebibytes, 5, 0), (plain and plain * 1e3, 10, 3)]
        columns += [(it and it * 1e3, 12, 3) for it in others or [None] * len(self.beside)]
        columns += [(plain and taken / plain, 9, 1)]
        cells = "".join(f"{'-':>{width}}" if it is None else f"{it:{width}.{places}f}" for it, width, places in columns)
        print(f"{name:46}{taken * 1e3:11.3f}{cells}  {told}", flush=True)

    def end(self):
        print(*([f"missed: {it}" for it in self.missed] or ["no aim was missed"]), sep="\n")


class Loops:
    """The loops in C over the layers in memory, in one process, each run once whenever it is asked for."""

    def __init__(self, program):
        self.process = subprocess.Popen([program], stdin=subprocess.PIPE, stdout=subprocess.PIPE)

    def __enter__(self):
        return self

    def __exit__(self, *_):
        self.process.stdin.close()
        self.process.wait()

    def run(self, name):
        """The processor time of a loop, and what it printed."""
        self.process.stdin.write(f"{name}\n".encode())
        self.process.stdin.flush()
        seconds, length = self.process.stdout.readline().split()
        return float(seconds), self.process.stdout.read(int(length))


def timed(session, *requests):
    """The seconds on a processor for requests that are sent together, and their replies in one."""
    before = session.spent()
    bodies = session.ask(*requests)
    return session.spent() - before, bodies if isinstance(bodies, bytes) else b"".join(bodies)


def asked(session, request, wanted, together=1):
    """The seconds for each of some requests that are sent together, which have to have that reply."""
    taken, body = timed(session, *[request] * together)
    if body != wanted * together:
        sys.exit(f"another answer than C's: {request[:200]!r}: {body[:60]!r} is not {wanted[:60]!r}")
    return taken / together


def medians(loops, loop, turns, text):
    """The medians of the seconds of the first request, of the loop in C and of the other requests, which take turns
    nine times, or more often where the first is quick. Each of the turns is whom it is asked of, and a request."""
    first, *behind = turns
    rounds, begun = [], time.monotonic()
    while len(rounds) < 9 or (len(rounds) < 50 and sum(it[0] for it in rounds) < 0.1):
        taken, plain = asked(*first, text), loops.run(loop)[0]
        rounds.append([taken, plain] + [asked(*it, text) for it in behind])
        if time.monotonic() > begun + ENOUGH:
            break
    return map(statistics.median, zip(*rounds))


def queries(table, session, loops):
    for name, loop, aim, request in QUERIES:
        if table.has(name):
            having = [it for it in table.beside if loop in it.forms]
            turns = [(session, request)] + [(it, it.forms[loop]) for it in having]
            taken, plain, *times = medians(loops, loop, turns, loops.run(loop)[1])
            found = dict(zip(having, times))
            most = session.resident(True) >> 10
            table.row(name, taken, most, plain, [found.get(it) for it in table.beside], aim)


def ingest(table, session, loops, cells):
    """The first rows of noise are written once more, as text, beside a loop in C that reads that text, by turns."""
    taken, plain = 0, []
    for update in updates("noise", cells, SIDE, 0, WRITTEN):
        plain.append(loops.run("ingest")[0])
        taken += timed(session, update)[0]
    others = [sum(timed(it, write)[0] for write in it.writes(cells, WRITTEN)) for it in table.beside]
    sums, wanted = query("for c in (noise) return add(c)"), loops.run("add_noise")[1]
    for it, request in [(session, sums)] + [(it, it.forms["add_noise"]) for it in table.beside]:
        asked(it, request, wanted)
    table.row(INGEST, taken, session.resident(True) >> 10, statistics.median(plain), others, 4)


@contextlib.contextmanager
def listener(*words):
    """A connection over loopback to a server, behind whose words stand its port and how many connections it serves."""
    port = free_port()
    with subprocess.Popen([*words, str(port), "1"], stdin=subprocess.DEVNULL) as process:
        with connected(port) as client:
            client.setsockopt(socket.IPPROTO_TCP, socket.TCP_NODELAY, 1)
            with client.makefile("wb") as messages, client.makefile("rb") as replies:
                yield Connection(process, messages, replies)


def echo(program, request, body):
    """A server in C that writes the reply with this body to each such request."""
    head = b"HTTP/1.1 200 OK\r\nContent-Type: text/csv\r\nContent-Length: %d\r\n\r\n" % len(body)
    return listener(program, head + body, str(len(request.split(b"\r\n\r\n", 1)[1])))


def small_requests(table, echoes, loops):
    """Small requests over a connection, one at a time and many at a time, of all by turns."""
    for name, loop, aim, request, together in SMALL:
        if table.has(name):
            text = loops.run(loop)[1]
            with listener(PROGRAM, STORE, "listen") as session, echo(echoes, request, text) as server:
                turns = [(session, request), (server, request)] + [(it, it.forms[loop]) for it in table.beside]
                rounds = [[asked(*it, text, together) for it in turns] for _ in range(max(TURNS // together, 25))]
                most = session.resident(True) >> 10
            taken, least, *others = map(statistics.median, zip(*rounds))
            table.row(name, taken, most, least, others, aim)


def beside_many(table):
    """A query and a list beside as many coverages as there can be."""
    path = f"{FOLDER}/many.store"
    if os.path.exists(path):
        os.remove(path)
    # a connection takes 1,000 messages at most
    for start in range(0, COVERAGES, COVERAGES // 2):
        with Session(path) as session:
            for k in range(start, start + COVERAGES // 2):
                session.ask(message(request="InsertCoverage", coverage=f"c{k}", domain="x(0:9)", fields="v:i16"))
    with Session(path) as session:
        requests = [query("for c in (c7) return c[x(3)]"), message(request="ListCoverages")]
        for name, request in zip(BESIDE_MANY, requests):
            table.row(name, statistics.median(timed(session, request)[0] for _ in range(100)))
    os.remove(path)


def opened_and_closed(table):
    """A store of as many tiles of one block as there can be: the seconds to open it, with its first query, and to
    close."""
    path, filler = f"{FOLDER}/most.store", Filler(16, 1)
    filler.write(path)
    with Session(path) as session:
        session.ask(query(f"for c in ({FILLER}) return c[k(16777215), t(0), y(0), x(0)]"))
        table.row(MOST_TILES, session.spent(), session.resident(True) >> 10)
        begun = time.monotonic()
    table.row("and closed, by the clock", time.monotonic() - begun)
    os.remove(path)


def others(stack, program):
    """What is asked besides, as far as it is installed."""
    found = []
    for name, installed, begun in [
        ("PostGIS", by_postgis.FOUND, by_postgis.postgis),
        ("numpy", by_numpy.interpreter(), by_numpy.numpy),
    ]:
        if installed:
            found.append(stack.enter_context(begun(program)))
        else:
            print(f"{name} is not installed", flush=True)
    return found


def processor():
    with open("/proc/cpuinfo") as file:
        names = [line.split(":", 1)[1].strip() for line in file if line.startswith("model name")]
    return f"{len(names)} x {names[0]}" if names else "a machine without a name"


def source(name):
    with open(f"{TOP}/bench/{name}") as file:
        return file.read()


def main():
    options = {it for it in sys.argv[1:] if it in ("--again", "--beside")}
    with contextlib.ExitStack() as stack:
        program = stack.enter_context(compiled(source("queries.c"), "-O3"))
        echoes = stack.enter_context(compiled(source("echo.c")))
        if "--again" in options or not is_made():
            make_store(program)
        print(f"{processor()}, load {os.getloadavg()[0]:.1f}")
        beside = others(stack, program) if "--beside" in options else []
        table = Table([it for it in sys.argv[1:] if it not in options], beside)
        loops = stack.enter_context(Loops(program))
        with Session() as session:
            queries(table, session, loops)
        if table.has(INGEST):
            with Session() as session:
                ingest(table, session, loops, cells_of(program, "noise"))
        small_requests(table, echoes, loops)
        if table.has(*BESIDE_MANY):
            beside_many(table)
        if table.has(MOST_TILES):
            opened_and_closed(table)
        table.end()


if __name__ == "__main__":
    main()
