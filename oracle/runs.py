"""Runs of the program, each with its processor time and its memory.

What a process took before it became the program counts as the program's, so a small process of its own starts each run.
It takes a line with the program, its file and the length of a stream, and then the stream; it gives a line with the
status, the seconds, the KiB and the lengths of what was written and told, and then these.
"""

import json
import os
import resource
import signal
import subprocess
import sys
import tempfile
from typing import NamedTuple

# the most that a run may take: processor seconds, and bytes of memory, the program itself included; and the most by the
# clock
MOST_SECONDS, MOST_MEMORY, MOST_WAITING = 10, 128 << 20, 600


class Run(NamedTuple):
    """A run: its status, what it wrote and what it told, its processor seconds, and its memory in KiB."""

    status: int
    out: bytes
    errors: bytes
    seconds: float
    kib: int


class Runs:
    """The small process."""

    def __init__(self):
        words = [sys.executable, "-S", "-B", os.path.abspath(__file__)]
        self.process = subprocess.Popen(words, stdin=subprocess.PIPE, stdout=subprocess.PIPE)

    def ran(self, program, file, stream):
        self.process.stdin.write(json.dumps([program, file, len(stream)]).encode() + b"\n" + stream)
        self.process.stdin.flush()
        status, seconds, kib, written, told = json.loads(self.process.stdout.readline())
        return Run(status, self.process.stdout.read(written), self.process.stdout.read(told), seconds, kib)


def limited():
    resource.setrlimit(resource.RLIMIT_AS, (MOST_MEMORY, MOST_MEMORY))
    resource.setrlimit(resource.RLIMIT_CPU, (MOST_SECONDS, MOST_SECONDS))


def run(program, file, stream):
    """One run: its status, its use of the machine, what it wrote and what it told."""
    with tempfile.TemporaryFile() as given, tempfile.TemporaryFile() as out, tempfile.TemporaryFile() as errors:
        given.write(stream)
        given.seek(0)
        process = subprocess.Popen([program, file, "run"], stdin=given, stdout=out, stderr=errors, preexec_fn=limited)
        signal.signal(signal.SIGALRM, lambda *_: process.kill())
        signal.alarm(MOST_WAITING)
        _, status, usage = os.wait4(process.pid, 0)
        signal.alarm(0)
        process.returncode = os.waitstatus_to_exitcode(status)
        out.seek(0)
        errors.seek(0)
        return process.returncode, usage, out.read(), errors.read()


def main():
    for line in iter(sys.stdin.buffer.readline, b""):
        program, file, length = json.loads(line)
        status, usage, out, errors = run(program, file, sys.stdin.buffer.read(length))
        told = [status, usage.ru_utime + usage.ru_stime, usage.ru_maxrss, len(out), len(errors)]
        sys.stdout.buffer.write(json.dumps(told).encode() + b"\n" + out + errors)
        sys.stdout.buffer.flush()


if __name__ == "__main__":
    main()
