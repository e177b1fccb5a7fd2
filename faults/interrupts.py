#!/usr/bin/env python3
"""A server that is stopped and continued under load, and two servers on one file.

    faults/interrupts.py PROGRAM [CONNECTIONS]

The first part sends SIGSTOP and SIGCONT to a server while a client writes and asks over loopback, so many connections
one after the other, 200 where the number is left out, its messages in pieces with pauses. The system tells a call that
it was interrupted, and the server makes it again: each connection has to get all of its replies, and the file has to
hold each update.

The second part has one server open a file, stops it between its reading of the header and its first write (by shim.c),
and has a second one open the file. This one has to be refused as 91, and to leave the file as it is; the first goes on
to its close, and the file has to hold what it wrote. A server that comes behind the first one's first write is refused
as well, and one that comes after its close opens the file.

Ends with status 1 where something was wrong, or where shim.c cannot be loaded.
"""

import contextlib
import os
import random
import signal
import socket
import subprocess
import sys
import tempfile
import threading
import time

sys.dont_write_bytecode = True

import scripts
import shim
from failing import content_of, shown_by
from served import LONGEST, connected, free_port, until

CELLS = 64


def rest(client):
    """What comes until the server ends the connection."""
    found = b""
    with contextlib.suppress(ConnectionResetError):
        while part := client.recv(1 << 16):
            found += part
    return found


def in_pieces(client, chance, data):
    with contextlib.suppress(OSError):
        while data:
            size = chance.randrange(1, len(data) + 1)
            client.sendall(data[:size])
            data = data[size:]
            time.sleep(chance.random() * 0.01)
        client.shutdown(socket.SHUT_WR)


def ok(kind, body):
    return b"HTTP/1.1 200 OK\r\nContent-Type: text/%s\r\nContent-Length: %d\r\n\r\n%s" % (kind, len(body), body)


def load(port, chance, connections):
    """What may be the value of each cell, how many connections lacked a reply, and how many replies were wrong."""
    cells, lacking, wrong = [{0} for _ in range(CELLS)], 0, 0
    for _ in range(connections):
        place, value = chance.randrange(CELLS), chance.randrange(100)
        box, point = f"x({place}:{place})", f"for c in (w) return c[x({place})]"
        with connected(port) as client:
            in_pieces(client, chance, scripts.update("w", "v", box, fill=value) + scripts.query(point))
            came = rest(client)
        done, wanted = ok(b"plain", b"ok\n"), ok(b"plain", b"ok\n") + ok(b"csv", b"%d\n" % value)
        # without the first reply the update was done or not
        cells[place] = {value} if came.startswith(done) else cells[place] | {value}
        lacking += came != wanted and wanted.startswith(came)
        wrong += not wanted.startswith(came)
    return cells, lacking, wrong


@contextlib.contextmanager
def stopping(pid):
    """Stops and continues a process by turns meanwhile. The list gets an item for each time."""
    chance, over, times = random.Random(1), threading.Event(), []

    def turns():
        while not over.wait(chance.random() * 0.01):
            os.kill(pid, signal.SIGSTOP)
            time.sleep(chance.random() * 0.01)
            os.kill(pid, signal.SIGCONT)
            times.append(pid)

    thread = threading.Thread(target=turns)
    thread.start()
    try:
        yield times
    finally:
        over.set()
        thread.join()


def stopped(program, folder, connections):
    """A server under load that is stopped and continued. Whether something was wrong."""
    path, port = f"{folder}/stopped", free_port()
    words = [program, path, "listen", str(port), str(connections + 1)]
    with subprocess.Popen(words, stdin=subprocess.DEVNULL) as server:
        try:
            with connected(port, server) as client:
                in_pieces(client, random.Random(0), scripts.insert("w", f"x(0:{CELLS - 1})", "v:u8"))
                rest(client)
            with stopping(server.pid) as times:
                cells, lacking, wrong = load(port, random.Random(2), connections)
            status = server.wait(LONGEST)
        finally:
            server.kill()
    held = shown_by(content_of(path))
    lost = held if isinstance(held, int) else sum(cell not in may for cell, may in zip(held[0][3][0], cells))
    print(
        f"stopped {len(times)} times under {connections} connections: {lacking} ended without a reply,"
        f" wrong replies: {wrong}, lost updates: {lost}, status {status}",
        flush=True,
    )
    return bool(lacking or wrong or lost or status or not times)


def two(program, made, folder):
    """Two servers on one file. Whether something was wrong."""
    path, log = f"{folder}/two", f"{folder}/log"
    with open(path, "wb") as file:
        file.write(scripts.lai())
    shim.Run(program, path, shim.environment(made, log=log)).end()
    first_write = [call[0] for call in shim.calls(log)[0]].index("pwrite") + 1
    with open(path, "wb") as file:
        file.write(scripts.lai())
    one = shim.Run(program, path, shim.environment(made, "disk", first_write, shim.STOPPED))
    try:
        ways = os.WSTOPPED | os.WEXITED | os.WNOWAIT | os.WNOHANG
        until(lambda: os.waitid(os.P_PID, one.process.pid, ways), "the stop of a server")
        before = shim.Run(program, path, None).end()
        is_untouched = content_of(path) == scripts.lai()
        one.process.send_signal(signal.SIGCONT)
        answered = [one.ask(it) for it in writes("a")]
        behind = shim.Run(program, path, None).end()
        ended = one.end()
    finally:
        one.process.kill()
    names = names_in(path)
    later = shim.Run(program, path, None).end()
    print(f"two servers on one file: the first {ended}, another before its first write {before}, behind it {behind},")
    print(
        f"after its close {later}; the file was {'' if is_untouched else 'not '}left as it was, and holds {names}",
        flush=True,
    )
    refused = (3, "not opened: 91 DiskFault")
    found = [before, behind, is_untouched, answered, ended, names, later]
    return found != [refused, refused, True, [ok(b"plain", b"ok\n")] * 2, (0, ""), ["lai", "a"], (0, "")]


def names_in(path):
    """The coverages that a file holds, or the number of its refusal."""
    held = shown_by(content_of(path))
    return held if isinstance(held, int) else [it[0] for it in held]


def writes(name):
    return [scripts.insert(name, "x(0:9999)", "v:i64"), scripts.update(name, "v", "x(0:9999)", fill=len(name))]


def main(program, connections="200"):
    program = os.path.abspath(program)
    with tempfile.TemporaryDirectory() as folder:
        wrong = stopped(program, folder, int(connections))
        with shim.library(program) as made:
            wrong |= two(program, made, folder)
    return 1 if wrong else 0


if __name__ == "__main__":
    if len(sys.argv) < 2:
        sys.exit(__doc__)
    sys.exit(main(*sys.argv[1:]))
