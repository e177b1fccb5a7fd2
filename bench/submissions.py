#!/usr/bin/env python3
"""What the submission and the cancel of a job take, in milliseconds and in memory, and a query of one cell beside jobs.

usage: bench/submissions.py

The jobs are over a coverage of one cell, over one layer of the store of layers.py, over all three, and over as many
tiles as a file of 4 GiB has blocks for: a submission copies the index of each coverage. The time is by the clock, at
the client. `rt run` in crates/rasterd builds the program; SERVER names another one.
"""
import os
import statistics
import sys
import time

sys.dont_write_bytecode = True
TOP = os.path.dirname(os.path.dirname(os.path.abspath(__file__)))
sys.path.insert(0, f"{TOP}/oracle")

from compiled import compiled
from layers import FOLDER, Session, is_made, make_store, message
from room import FILLER, Filler

ONE_CELL = "for c in (noise) return c[y(1000), x(1000)]"
# how many jobs may be there
JOBS = 64
# what a job is over, and its query
SUBMISSIONS = [
    ("one cell", "for c in (single) return max(c)"),
    ("noise", "for c in (noise) return max(c)"),
    ("the three layers", "for c in (noise), d in (terrain), e in (land) return max(c) + max(d) + max(e)"),
]


def timed(session, **pairs):
    """The body of the reply to a request, and its milliseconds."""
    begun = time.monotonic()
    body = session.ask(message(**pairs))
    return body, 1e3 * (time.monotonic() - begun)


def told(what, times, more=""):
    least, middle = min(times), statistics.median(times)
    print(f"{what:44} least {least:8.3f} ms, median {middle:8.3f}, longest {max(times):8.3f}{more}", flush=True)


def jobs(session, name, query, count, beside):
    """Prints what jobs of a query do that are submitted and cancelled, and another query beside them."""
    before, submitted, numbers = session.resident(), [], []
    for _ in range(count):
        body, took = timed(session, request="SubmitQuery", query=query)
        submitted.append(took)
        numbers.append(int(body.split()[1]))
    told(f"a job over {name}, submitted", submitted, f"; {(session.resident() - before) / count:.0f} KiB a job")
    meanwhile = [timed(session, request="ProcessCoverages", query=beside)[1] for _ in range(100)]
    told(f"a job over {name}, cancelled", [timed(session, request="CancelJob", job=it)[1] for it in numbers])
    told(f"one cell beside {count} of these", meanwhile)


def over_layers():
    """Some 800 messages, of at most 1,000 on one connection."""
    with Session() as session:
        session.ask(message(request="InsertCoverage", coverage="single", domain="x(0:0)", fields="v:i16"))
        told("one cell", [timed(session, request="ProcessCoverages", query=ONE_CELL)[1] for _ in range(100)])
        for name, query in SUBMISSIONS:
            jobs(session, name, query, JOBS, ONE_CELL)
        session.ask(message(request="DeleteCoverage", coverage="single"))


def over_the_most_tiles():
    """The same over as many tiles of one block each as there can be. None of them is written, so none is read."""
    path, filler = f"{FOLDER}/most.store", Filler(16, 1)
    filler.write(path)
    with Session(path) as session:
        beside = f"for c in ({FILLER}) return c[k(16777215), t(0), y(0), x(0)]"
        jobs(session, f"{filler.tiles:,} tiles", f"for c in ({FILLER}) return max(c)", 8, beside)
    os.remove(path)


def main():
    with open(f"{TOP}/bench/queries.c") as file:
        source = file.read()
    with compiled(source, "-O3") as loops:
        if not is_made():
            make_store(loops)
    over_layers()
    over_the_most_tiles()


if __name__ == "__main__":
    main()
