#!/usr/bin/env python3
"""A job beside other clients, over loopback.

usage: bench/jobs.py

Starts the program on an empty store. One client submits a job of 200 units and steps it by one unit a request, each on
a connection of its own, while another writes and asks a small coverage, and writes a column of the one that the job
reads, each by one request on a connection of its own too. Every answer is compared with what it has to be: the job's
with that of its query before all writes beside it. Prints how long a step took, and what the other client waited for
each request, beside the same requests without a job and beside the query in one request. `rt run` in crates/rasterd
builds the program.
"""
import os
import statistics
import sys
import threading
import time

sys.dont_write_bytecode = True
TOP = os.path.dirname(os.path.dirname(os.path.abspath(__file__)))
sys.path[:0] = [f"{TOP}/clients/python", f"{TOP}/scripts"]

import rasterd
from served import served

PROGRAM = os.environ.get("SERVER", f"{TOP}/crates/rasterd/out/rasterd")
ROWS, COLUMNS, UNITS = 640, 1280, 200
QUERY = "for c in (large) return encode(c * 3 + 1, csv)"


def timed(work):
    """What it gives, and its milliseconds."""
    start = time.perf_counter()
    found = work()
    return found, 1000 * (time.perf_counter() - start)


class Other(threading.Thread):
    """A client that writes and asks a small coverage, and writes a column of the large one, in turns with a number each
    until it is told to stop."""

    def __init__(self, port, number):
        super().__init__()
        self.port, self.number, self.over = port, number, threading.Event()
        self.waits, self.wrong, self.turns, self.written = [], [], 0, 0

    def wait(self, work):
        """Makes a request on a connection of its own, and notes how long that took."""
        found, took = timed(lambda: one(self.port, work))
        self.waits.append(took)
        return found

    def turn(self):
        self.turns += 1
        self.wait(lambda it: it.fill("small", "v", self.number, {"x": (0, 99)}))
        if self.wait(lambda it: it.query("for c in (small) return max(c)")) != f"{self.number}\n":
            self.wrong.append(self.number)
        self.wait(lambda it: it.fill("large", "v", self.number, {"y": (0, ROWS - 1), "x": (0, 0)}))
        self.written += 1
        self.number = self.number % 30000 + 1

    def run(self):
        while not self.over.is_set():
            self.turn()

    def end(self):
        self.over.set()
        self.join()


def one(port, work):
    with rasterd.Session(port=port) as session:
        return work(session)


def figure(name, times):
    print(f"{name:52} median {statistics.median(times):8.2f} ms, longest {max(times):8.2f} ms")


def main():
    with served(PROGRAM) as port:
        one(port, lambda it: it.insert("large", {"y": (0, ROWS - 1), "x": (0, COLUMNS - 1)}, {"v": "i16"}))
        one(
            port,
            lambda it: it.write("large", "v", [(y * 31 + x * 7) % 1000 for y in range(ROWS) for x in range(COLUMNS)]),
        )
        one(port, lambda it: it.insert("small", {"x": (0, 99)}, {"v": "i16"}))
        alone = Other(port, 1)
        alone.start()
        time.sleep(1)
        alone.end()
        whole, took = timed(lambda: one(port, lambda it: it.query(QUERY)))
        number, units = one(port, lambda it: it.submit(QUERY))
        other, steps, left = Other(port, alone.number), [], units
        other.start()
        while left:
            left, step = timed(lambda: one(port, lambda it: it.step(number)))
            steps.append(step)
        other.end()
        answer, fetched = timed(lambda: one(port, lambda it: it.fetch(number)))
        present = one(port, lambda it: it.query(QUERY))
    figure("the query in one request", [took])
    figure(f"one of {len(alone.waits)} small requests beside nothing", alone.waits)
    figure(f"a step of one unit, of {units}", steps)
    figure(f"one of {len(other.waits)} small requests meanwhile", other.waits)
    figure("the answer fetched", [fetched])
    wrong = [
        it
        for it, holds in [
            ("the job has another number of units", units == UNITS),
            ("the job's answer is another than the query's", answer == whole),
            ("a small answer was wrong", not alone.wrong and not other.wrong),
            ("a write was not taken", 0 < alone.written == alone.turns and 0 < other.written == other.turns),
            ("the store is as it was at the job's submission", present != whole),
        ]
        if not holds
    ]
    print(*wrong or ["all answers are right"], sep="\n")
    return 1 if wrong else 0


if __name__ == "__main__":
    sys.exit(main())
