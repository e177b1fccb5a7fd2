#!/usr/bin/env python3
"""What words after the program's name ask, the statuses of the program, and its lines on standard error.

    scripts/statuses.py PROGRAM

Ends with status 1 where something was otherwise.
"""

import contextlib
import os
import socket
import subprocess
import sys
import tempfile

sys.dont_write_bytecode = True

from served import LONGEST, connected, free_port

LINES = "GET /ows?request=%s HTTP/1.1\r\n\r\n"
# inserts a coverage and fills it with 7; asks for its greatest cell
WRITES = LINES % "InsertCoverage&coverage=lai&domain=x(0:99)&fields=v:i16"
WRITES += LINES % "UpdateCoverage&coverage=lai&field=v&box=x(0:99)&fill=7"
ASKS = LINES % "ProcessCoverages&query=for+c+in+(lai)+return+max(c)"
HEAD = "HTTP/1.1 200 OK\r\nContent-Type: text/%s\r\nContent-Length: %d\r\n\r\n"
OK, SEVEN = HEAD % ("plain", 3) + "ok\n", HEAD % ("csv", 2) + "7\n"
USAGE = "usage: rasterd FILE run or rasterd FILE listen PORT COUNT\n"

# words that ask nothing
NOTHING = [
    [],
    [""],
    ["-"],
    ["-", "Run"],
    ["-", "runs"],
    ["-", "listen"],
    ["-", "run", "more"],
    ["-", "run", "1", "1"],
    ["-", "listens", "1", "1"],
    ["-", "listen", "1", "1", "1"],
    ["-", "listen", "", "1"],
    ["-", "listen", "1", ""],
    ["-", "listen", "0", "1"],
    ["-", "listen", "1", "0"],
    ["-", "listen", "65536", "1"],
    ["-", "listen", "1", "1000001"],
    ["-", "listen", "+1", "1"],
    ["-", "listen", "1", "-1"],
    ["-", "listen", "1", "1x"],
    ["-", "listen", "1", "99999999999"],
    # a word that is not UTF-8
    [b"\xff", "run"],
    ["-", b"run\xff"],
    ["-", "listen", "1", b"\xff"],
]


class Trials:
    """The program in an empty folder, and how often it did otherwise."""

    def __init__(self, program, folder):
        self.program, self.folder, self.tried, self.wrong = program, folder, 0, 0

    def same(self, what, found, wanted):
        self.tried += 1
        if found != wanted:
            self.wrong += 1
            print(f"WRONG: {what}: {found} and not {wanted}", flush=True)

    def ran(self, words, sent=""):
        """The status of a run, what it wrote, and what it said of errors."""
        words, given = [self.program, *words], sent.encode()
        done = subprocess.run(words, input=given, capture_output=True, cwd=self.folder, timeout=LONGEST, check=False)
        return done.returncode, done.stdout.decode(), done.stderr.decode()

    def file(self, name, content):
        with open(f"{self.folder}/{name}", "wb") as file:
            file.write(content)

    def content(self, name):
        with open(f"{self.folder}/{name}", "rb") as file:
            return file.read()

    def sessions(self):
        """A store is found again in its file, and one in memory is gone."""
        for sent, wanted in [(WRITES, OK + OK), (ASKS, SEVEN), (ASKS, SEVEN)]:
            self.same("a session over a file", self.ran(["a.store", "run"], sent), (0, wanted, ""))
        self.same("a session over a store in memory", self.ran(["-", "run"], WRITES + ASKS), (0, OK + OK + SEVEN, ""))
        self.same("a list of nothing", self.ran(["-", "run"], LINES % "ListCoverages"), (0, HEAD % ("plain", 0), ""))
        self.same("the files that were made", os.listdir(self.folder), ["a.store"])

    def not_opened(self):
        """What a file that is not opened is told by; it is left as it is."""
        self.same("an empty store", self.ran(["empty", "run"]), (0, "", ""))
        empty = self.content("empty")
        self.same("its blocks", len(empty), 8192)
        files = [
            ("of zeros", bytes(4096), "94 NotAStore"),
            ("left open", empty[:12] + b"\1" + empty[13:], "95 NotClosed"),
            ("in another state", empty[:12] + b"\3" + empty[13:], "93 Damaged"),
        ]
        for what, content, fault in files:
            self.file("other", content)
            for words in (["other", "run"], ["other", "listen", str(free_port()), "1"]):
                self.same(f"a file {what}", self.ran(words, ASKS), (3, "", f"not opened: {fault}\n"))
                self.same(f"the content of a file {what}", self.content("other"), content)
        missing = (3, "", "not opened: 91 DiskFault\n")
        self.same("a folder that is not there", self.ran(["missing/file", "run"], ASKS), missing)
        self.same("a folder as the file", self.ran([".", "run"], ASKS), missing)

    def words(self):
        """Words that ask nothing, and the numbers of a port and of connections."""
        for words in NOTHING:
            self.same(f"the words {words}", self.ran(words, ASKS), (2, "", USAGE))
        self.same("the files of these", os.listdir(self.folder), [])
        port = free_port()
        self.same("seven connections", self.served(["-", "listen", f"00{port}", "007"], port, 8), (7, 0, ""))
        with socket.socket() as taken:
            taken.bind(("127.0.0.1", 0))
            port = str(taken.getsockname()[1])
            self.same("a port in use", self.ran(["made", "listen", port, "1000000"]), (5, "", "no socket\n"))
        self.same("the file of this", os.listdir(self.folder), [])
        for port in (1, 65535):
            with socket.socket() as taken:
                # whoever has it, it is not free for the program
                with contextlib.suppress(OSError):
                    taken.bind(("127.0.0.1", port))
                self.same(f"the port {port}", self.ran(["made", "listen", str(port), "1"]), (5, "", "no socket\n"))

    def served(self, words, port, most):
        """How many connections of so many are served, with the status and what is said of errors at the end."""
        with subprocess.Popen(
            [self.program, *words], stdin=subprocess.DEVNULL, stderr=subprocess.PIPE, cwd=self.folder
        ) as server:
            done = 0
            try:
                while done < most and server.poll() is None:
                    with contextlib.suppress(ConnectionError), connected(port, server) as client:
                        client.sendall((LINES % "ListCoverages").encode())
                        done += client.recv(1 << 16) == (HEAD % ("plain", 0)).encode()
                return done, server.wait(LONGEST), server.stderr.read().decode()
            finally:
                server.kill()


def main(program):
    tried, wrong = 0, 0
    for part in ("sessions", "not_opened", "words"):
        with tempfile.TemporaryDirectory() as folder:
            trials = Trials(os.path.abspath(program), folder)
            getattr(trials, part)()
            tried, wrong = tried + trials.tried, wrong + trials.wrong
    print(f"words, statuses and lines: {tried} tried, {wrong} wrong")
    return 1 if wrong else 0


if __name__ == "__main__":
    if len(sys.argv) < 2:
        sys.exit(__doc__)
    sys.exit(main(*sys.argv[1:]))
