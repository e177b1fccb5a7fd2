#!/usr/bin/env python3
"""The built program over loopback: what clients see, and how a run ends.

usage: bench/sockets.py PROGRAM [--silent]

Each case starts the program on a port of its own and a file in a fresh folder, makes its connections, and compares the
bytes that came back and the status with what they have to be: a client that has shut its writing side before it is
accepted, 200 connections with three messages each, clients that go away in the middle of a reply or reset, 1,001
messages on one connection, a message that comes byte by byte, a second run on the same file, a port in use,
deploy/serve that is stopped, and a second one on its file. With --silent also a client that says nothing, which is let
go after 60 seconds: a time is looked at there, so that the gate leaves it out. Every wait has an end. Prints a line for
each case, and ends with status 1 where one went wrong.
"""
import contextlib
import os
import signal
import socket
import struct
import subprocess
import sys
import tempfile
import time

sys.dont_write_bytecode = True
TOP = os.path.dirname(os.path.dirname(os.path.abspath(__file__)))
sys.path.append(f"{TOP}/scripts")

from served import LONGEST, connected, free_port, until

PROGRAM = os.path.abspath(sys.argv[1]) if sys.argv[1:] else sys.exit(__doc__)
LIST = b"GET /ows?request=ListCoverages HTTP/1.1\r\nHost: h\r\n\r\n"
INSERT = b"GET /ows?request=InsertCoverage&coverage=%s&domain=x(0:99)&fields=v:i16 HTTP/1.1\r\n\r\n"
FILL = b"GET /ows?request=UpdateCoverage&coverage=%s&field=v&box=x(0:99)&fill=%d HTTP/1.1\r\n\r\n"
QUERY = b"for c in (%s) return max(c)"
LARGE = b"for c in (lai) return encode(coverage m over $i x(0:1023), $j y(0:1023) values 1, csv)"


def post(query):
    body = b"request=ProcessCoverages&query=" + query.replace(b"+", b"%2B")
    return b"POST /ows HTTP/1.1\r\nContent-Length: %d\r\n\r\n%s" % (len(body), body)


def reply(body, kind=b"plain", status=b"200 OK", last=False):
    close = b"Connection: close\r\n" if last else b""
    head = b"HTTP/1.1 %s\r\nContent-Type: text/%s\r\nContent-Length: %d\r\n%s\r\n"
    return head % (status, kind, len(body), close) + body


OK = reply(b"ok\n")


class Server:
    """The program on a file, for so many connections."""

    started = []

    def __init__(self, path, count, port=None):
        self.port = port or free_port()
        words = [PROGRAM, path, "listen", str(self.port), str(count)]
        self.process = subprocess.Popen(
            words, stdin=subprocess.DEVNULL, stdout=subprocess.DEVNULL, stderr=subprocess.PIPE
        )
        self.started.append(self.process)

    @classmethod
    def end_all(cls):
        """Kills those that still run."""
        for process in cls.started:
            with process:
                process.kill()
        cls.started.clear()

    def connect(self):
        return connected(self.port, self.process)

    def talk(self, *messages):
        """What comes back where the messages are sent and the writing side is shut."""
        with self.connect() as client:
            client.sendall(b"".join(messages))
            client.shutdown(socket.SHUT_WR)
            return rest(client)

    def status(self):
        try:
            _, errors = self.process.communicate(timeout=LONGEST)
        except subprocess.TimeoutExpired:
            self.process.kill()
            return "did not end", b""
        return self.process.returncode, errors


def rest(client):
    found = b""
    while True:
        part = client.recv(1 << 16)
        if not part:
            return found
        found += part


def same(found, wanted):
    if found != wanted:
        raise AssertionError(f"{found[:300]!r} is not {wanted[:300]!r}")


def early_end(path):
    """While one client holds the server, others connect, send, and shut their writing side."""
    server = Server(path, 3)
    first = server.connect()
    others = [server.connect() for _ in range(2)]
    for other in others:
        other.sendall(LIST)
        other.shutdown(socket.SHUT_WR)
    time.sleep(0.2)
    first.sendall(LIST)
    first.shutdown(socket.SHUT_WR)
    for client in [first, *others]:
        same(rest(client), reply(b""))
        client.close()
    same(server.status(), (0, b""))


def many(path):
    """200 connections, each with an insertion, an update and a query."""
    server = Server(path, 200)
    for number in range(200):
        name = b"c%d" % number
        same(
            server.talk(INSERT % name, FILL % (name, number), post(QUERY % name)),
            OK + OK + reply(b"%d\n" % number, b"csv"),
        )
    same(server.status(), (0, b""))
    server = Server(path, 1)
    names = b"".join(b"c%d\n" % number for number in range(200))
    found = server.talk(LIST, post(QUERY % b"c199"))
    same(found, reply(names) + reply(b"199\n", b"csv"))
    same(server.status(), (0, b""))


def goes_away(path):
    """A client that goes in the middle of a reply, one that resets, and one that goes in the middle of a message."""
    server = Server(path, 5)
    same(server.talk(INSERT % b"lai", FILL % (b"lai", 7)), OK + OK)
    with server.connect() as client:
        client.sendall(post(LARGE) * 20)
        client.recv(1000)
    with server.connect() as client:
        client.sendall(post(LARGE) * 20)
        client.recv(1000)
        client.setsockopt(socket.SOL_SOCKET, socket.SO_LINGER, struct.pack("ii", 1, 0))
    with server.connect() as client:
        client.sendall(LIST[:20])
        client.setsockopt(socket.SOL_SOCKET, socket.SO_LINGER, struct.pack("ii", 1, 0))
    same(server.talk(post(QUERY % b"lai")), reply(b"7\n", b"csv"))
    same(server.status(), (0, b""))


def thousand(path):
    """1,001 messages: the last reply of 1,000 ends the connection."""
    server = Server(path, 2)
    same(server.talk(LIST * 1001), reply(b"") * 999 + reply(b"", last=True))
    same(server.talk(LIST), reply(b""))
    same(server.status(), (0, b""))


def pieces(path):
    """A message that comes byte by byte, and a stream that ends inside the second head."""
    server = Server(path, 1)
    with server.connect() as client:
        client.setsockopt(socket.IPPROTO_TCP, socket.TCP_NODELAY, 1)
        for place in range(len(LIST)):
            client.sendall(LIST[place : place + 1])
            time.sleep(0.001)
        client.sendall(LIST[:30])
        client.shutdown(socket.SHUT_WR)
        same(rest(client), reply(b"") + reply(b"refused 1 BadHead\n", status=b"400 Bad Request", last=True))
    same(server.status(), (0, b""))


def second_run(path):
    """The next run on the file finds what was written, and a port in use is told before the store is opened."""
    server = Server(path, 2)
    same(server.talk(INSERT % b"lai", FILL % (b"lai", 7)), OK + OK)
    other = Server(f"{path}.other", 1, server.port)
    same(other.status(), (5, b"no socket\n"))
    if os.path.exists(f"{path}.other"):
        raise AssertionError("a file was made though no socket was bound")
    same(server.talk(LIST), reply(b"lai\n"))
    same(server.status(), (0, b""))
    server = Server(path, 1)
    same(server.talk(LIST, post(QUERY % b"lai")), reply(b"lai\n") + reply(b"7\n", b"csv"))
    same(server.status(), (0, b""))


def not_opened(path):
    """A file that was not closed is refused, and other words are told."""
    with open(path, "wb") as file:
        file.write(b"WCPSTORE" + bytes([1, 0, 0, 0, 1, 0, 0, 0]) + bytes(4080))
    same(Server(path, 1).status(), (3, b"not opened: 95 NotClosed\n"))
    same(Server(path, 1000001).status(), (2, b"usage: rasterd FILE run or rasterd FILE listen PORT COUNT\n"))


def insert(running, port, name):
    """Inserts a coverage; a connection that was reset waited where a run ended, was not served, and is tried again."""

    def tried():
        with connected(port, running) as client, contextlib.suppress(OSError):
            client.sendall(INSERT % name)
            client.shutdown(socket.SHUT_WR)
            return rest(client)

    return until(tried, f"an answer at port {port}")


@contextlib.contextmanager
def script(path, port, count):
    """deploy/serve; what is left of it is ended afterwards."""
    words = [f"{TOP}/deploy/serve", path, str(port), str(count)]
    environment = dict(os.environ, SERVER=PROGRAM, KEEP="0")
    with subprocess.Popen(words, env=environment, stderr=subprocess.PIPE, start_new_session=True) as running:
        try:
            yield running
        finally:
            with contextlib.suppress(ProcessLookupError):
                os.killpg(running.pid, signal.SIGKILL)


def stopped(path):
    """deploy/serve is stopped, over the ends of runs and whatever is left of one, and the file is closed."""
    port = free_port()
    for count, first, last in [(40, 0, 90), (1000000, 90, 95)]:
        with script(path, port, count) as running:
            for number in range(first, last):
                same(insert(running, port, b"c%d" % number), OK)
            running.send_signal(signal.SIGTERM)
            same(running.wait(LONGEST), 0)
    server = Server(path, 1)
    same(server.talk(LIST), reply(b"".join(b"c%d\n" % number for number in range(95))))
    same(server.status(), (0, b""))


def taken(path):
    """A second deploy/serve on a file is told so, and the first one goes on."""
    port = free_port()
    with script(path, port, 1000) as first:
        same(insert(first, port, b"lai"), OK)
        with script(path, free_port(), 1000) as second:
            same(second.communicate(timeout=LONGEST)[1], b"serve: another serves %s\n" % path.encode())
        same(insert(first, port, b"hill"), OK)
        first.send_signal(signal.SIGTERM)
        same(first.wait(LONGEST), 0)


def silent(path):
    """A client that says nothing is let go after 60 seconds, and the next one is served."""
    server = Server(path, 2)
    with server.connect() as client:
        client.settimeout(80)
        begin = time.monotonic()
        same(rest(client), b"")
        waited = time.monotonic() - begin
        if not 55 < waited < 75:
            raise AssertionError(f"let go after {waited:.0f} s")
    same(server.talk(LIST), reply(b""))
    same(server.status(), (0, b""))


def main():
    if not os.access(PROGRAM, os.X_OK):
        sys.exit(f"there is no program {PROGRAM}")
    cases = [early_end, many, goes_away, thousand, pieces, second_run, not_opened, stopped, taken]
    if "--silent" in sys.argv[2:]:
        cases.append(silent)
    wrong = 0
    for case in cases:
        with tempfile.TemporaryDirectory() as folder:
            begin = time.monotonic()
            try:
                case(f"{folder}/store")
                told = "ok"
            except (AssertionError, OSError, subprocess.TimeoutExpired) as error:
                wrong += 1
                told = f"WRONG: {error}"
            finally:
                # also after Ctrl-C, and a fault of the script itself
                Server.end_all()
        print(f"{case.__name__:12} {time.monotonic() - begin:6.1f} s  {told}", flush=True)
    return 1 if wrong else 0


if __name__ == "__main__":
    sys.exit(main())
