#!/usr/bin/env python3
"""Messages a second over loopback, beside a server in C that reads, looks for the blank line and writes.

usage: bench/messages.py [CONNECTIONS, else 2000]

The server is the built program over an empty store in memory (`rt run` in crates/rasterd builds it). A connection has
500 messages, each a list of coverages asked by GET or by POST; another connection follows at once. The server in C,
echo.c, accepts the same connections, reads 16,384 bytes at a time, looks for the blank line behind each head, passes
over the body and writes the same bytes as the program, in one write a message. A client in this process sends all
messages of a connection, then reads to its end.

The figures are by the clock, of what the client waits for, and by the processor time of each server, each the least of
seven runs that take turns.
"""
import os
import socket
import subprocess
import sys
import time

sys.dont_write_bytecode = True
TOP = os.path.dirname(os.path.dirname(os.path.abspath(__file__)))
sys.path.append(f"{TOP}/scripts")

from compiled import compiled
from served import connected, free_port

PROGRAM = f"{TOP}/crates/rasterd/out/rasterd"
CONNECTIONS = int(sys.argv[1]) if len(sys.argv) > 1 else 2000
MESSAGES = 500
BODY = b"request=ListCoverages"
REPLY = b"HTTP/1.1 200 OK\r\nContent-Type: text/plain\r\nContent-Length: 0\r\n\r\n"
# each kind of message, its bytes, and how many of them are its body
KINDS = [
    ("GET", b"GET /ows?request=ListCoverages HTTP/1.1\r\n\r\n", 0),
    ("POST", b"POST /ows HTTP/1.1\r\nContent-Length: 21\r\n\r\n" + BODY, len(BODY)),
]


def asked(port, stream):
    """What a server writes, once it listens, for a connection that sends a stream and then nothing."""
    with connected(port) as client:
        client.sendall(stream)
        client.shutdown(socket.SHUT_WR)
        return b"".join(iter(lambda: client.recv(1 << 16), b""))


def served(words, message):
    """The seconds by the clock, and of the server's processor time, that connections of so many messages take."""
    port = free_port()
    server = subprocess.Popen([str(port) if it is None else it for it in words], stdin=subprocess.DEVNULL)
    try:
        said = asked(port, message * 3)
        if said != REPLY * 3:
            sys.exit(f"another reply than that of the loop: {said!r}")
        begun, length = time.perf_counter(), len(REPLY) * MESSAGES
        for _ in range(CONNECTIONS):
            if len(asked(port, message * MESSAGES)) != length:
                sys.exit("a reply is missing")
        taken = time.perf_counter() - begun
        _, _, used = os.wait4(server.pid, 0)
        return taken, used.ru_utime + used.ru_stime
    finally:
        server.kill()


def main():
    print(f"{'':14}{'messages a second':>20}{'of the server in C':>20}{'its time':>10}")
    with open(f"{TOP}/bench/echo.c") as file:
        source = file.read()
    with compiled(source) as loop:
        count, total = str(CONNECTIONS + 1), MESSAGES * CONNECTIONS
        for kind, message, body in KINDS:
            runs = [
                (
                    served([PROGRAM, "-", "listen", None, count], message),
                    served([loop, REPLY, str(body), None, count], message),
                )
                for _ in range(7)
            ]
            for at, by in enumerate(("clock", "processor")):
                ours, plain = (min(run[at] for run in column) for column in zip(*runs))
                print(f"{kind:5}{by:9}{total / ours:20,.0f}{total / plain:20,.0f}{ours / plain:10.2f}")


if __name__ == "__main__":
    main()
