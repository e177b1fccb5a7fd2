"""A store with three layers of 4,096 x 4,096 cells of i16, which benchmarks share, and a connection to the program over
it.

The layers are noise; terrain, in runs of about three cells; and land cover of 16 kinds, in runs of about twenty. They
are made by queries.c with a fixed seed and written by UpdateCoverage into bench/out/layers.store, which is kept for the
next run. Beside them stand corners of them, as coverages of their own, for templates, which go over whole coverages.
"""
import array
import os
import subprocess
import sys
import threading
import time
from urllib.parse import urlencode

TOP = os.path.dirname(os.path.dirname(os.path.abspath(__file__)))
PROGRAM = os.environ.get("SERVER", f"{TOP}/crates/rasterd/out/rasterd")
FOLDER = f"{TOP}/bench/out"
STORE = f"{FOLDER}/layers.store"
SIDE = 4096
LAYERS = ["noise", "terrain", "land"]
# the name of a corner, the layer that it is of, and its side
CORNERS = [("hill", "terrain", 512), ("noise64", "noise", 64), ("land64", "land", 64)]
CORNERS += [("noise130", "noise", 130), ("land130", "land", 130)]
# an update of 64 rows of half a layer, of 7 bytes a cell at most, is within the limit of a body
ROWS, COLUMNS = 64, 2048
# no reply is awaited for longer than so many seconds
LONGEST = 900


def message(**pairs):
    body = urlencode(pairs, safe="(),:;").encode()
    return b"POST /ows HTTP/1.1\r\nContent-Length: %d\r\n\r\n" % len(body) + body


def on_processor(pid):
    """The seconds that a process has been on a processor."""
    with open(f"/proc/{pid}/schedstat") as file:
        return int(file.read().split()[0]) / 1e9


class Connection:
    """Messages to a process, and its replies, each through a file."""

    def __init__(self, process, messages, replies):
        self.process, self.messages, self.replies = process, messages, replies

    def reply(self):
        """The body of the next reply."""
        head = b""
        while not head.endswith(b"\r\n\r\n"):
            line = self.replies.readline()
            if not line:
                sys.exit("no reply")
            head += line
        fields = dict(line.split(b": ", 1) for line in head[:-4].split(b"\r\n")[1:])
        body = self.replies.read(int(fields[b"Content-Length"]))
        if body.startswith(b"refused"):
            sys.exit(f"a request was refused: {body.decode().strip()}")
        return body

    def ask(self, *requests):
        """The bodies of the replies to messages that are sent together, or the body where there is one."""
        timer = threading.Timer(LONGEST, self.process.kill)
        timer.start()
        try:
            self.messages.write(b"".join(requests))
            self.messages.flush()
            bodies = [self.reply() for _ in requests]
        finally:
            timer.cancel()
        return bodies[0] if len(bodies) == 1 else bodies

    def spent(self):
        return on_processor(self.process.pid)

    def resident(self, most=False):
        """The KiB of memory that the process has, or has had at most."""
        with open(f"/proc/{self.process.pid}/status") as file:
            return next(int(line.split()[1]) for line in file if line.startswith("VmHWM" if most else "VmRSS"))


class Session(Connection):
    """The program over a store, one connection through a pipe."""

    def __init__(self, store=STORE):
        process = subprocess.Popen([PROGRAM, store, "run"], stdin=subprocess.PIPE, stdout=subprocess.PIPE)
        super().__init__(process, process.stdin, process.stdout)

    def __enter__(self):
        return self

    def __exit__(self, *_):
        self.process.stdin.close()
        if self.process.wait() != 0:
            sys.exit(f"the program ended with status {self.process.returncode}")


def updates(name, cells, side, row, rows):
    """The messages that write rows of a square coverage."""
    for top in range(row, row + rows, ROWS):
        for left in range(0, side, COLUMNS):
            low, last = min(top + ROWS, row + rows), min(left + COLUMNS, side)
            parts = (",".join(map(str, cells[y * SIDE + left : y * SIDE + last])) for y in range(top, low))
            box = f"y({top}:{low - 1}),x({left}:{last - 1})"
            yield message(request="UpdateCoverage", coverage=name, field="v", box=box, values=",".join(parts))


def write_square(session, name, cells, side):
    domain = f"y(0:{side - 1}),x(0:{side - 1})"
    session.ask(message(request="InsertCoverage", coverage=name, domain=domain, fields="v:i16"))
    for update in updates(name, cells, side, 0, side):
        session.ask(update)


def cells_of(loops, name):
    """The cells of a layer, as the program in C makes them."""
    return array.array("h", subprocess.run([loops, name], stdout=subprocess.PIPE, check=True).stdout)


def make_store(loops):
    os.makedirs(FOLDER, exist_ok=True)
    if os.path.exists(STORE):
        os.remove(STORE)
    begun = time.monotonic()
    with Session() as session:
        for name in LAYERS:
            cells = cells_of(loops, name)
            write_square(session, name, cells, SIDE)
            for corner, layer, side in CORNERS:
                if layer == name:
                    write_square(session, corner, cells, side)
    print(f"made {STORE} of {os.path.getsize(STORE) >> 20} MiB in {time.monotonic() - begun:.0f} s", flush=True)


def is_made():
    """Whether the store is there, was closed, and has the layers and their corners."""
    if not os.path.exists(STORE):
        return False
    with open(STORE, "rb") as file:
        if file.read(16)[12:13] != b"\2":
            return False
    with Session() as session:
        names = session.ask(message(request="ListCoverages")).decode().split()
    return sorted(names) == sorted(LAYERS + [name for name, _, _ in CORNERS])
