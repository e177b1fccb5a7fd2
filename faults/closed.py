#!/usr/bin/env python3
"""The built program started with standard streams closed.

    faults/closed.py PROGRAM

The system gives a file that is opened the least number that is free. Where standard input, output or error is closed at
the start, that is the number of this stream: a store's file that got it would be written over by replies, or by the
line that says why it was refused, and requests would be read from it. Each stream is closed in turn, and all of them,
over a closed file and over one that a session left open, by `run` and by `listen`. Afterwards the file has to hold what
it held, the open one has to be as it was, and the status has to be that of a run with its streams open. Ends with
status 1 where one was otherwise.
"""

import contextlib
import os
import socket
import subprocess
import sys
import tempfile

sys.dont_write_bytecode = True

import scripts
from failing import content_of, shown_by
from served import LONGEST, connected, free_port

CLOSED = [(0,), (1,), (2,), (0, 1, 2)]
NAMES = ["input", "output", "error"]
LARGE = scripts.query("for c in (lai) return encode(coverage m over $i x(0:2999) values 7, csv)")


def close(streams):
    for stream in streams:
        os.close(stream)


@contextlib.contextmanager
def begun(words, streams):
    """The program, with a pipe to or from each standard stream that is not closed; it is ended afterwards."""
    given, out, errors = (None if it in streams else subprocess.PIPE for it in range(3))
    with subprocess.Popen(words, stdin=given, stdout=out, stderr=errors, preexec_fn=lambda: close(streams)) as process:
        try:
            yield process
        finally:
            process.kill()


def run(program, path, streams):
    """The status of a session over standard input and output, where these are open."""
    with begun([program, path, "run"], streams) as process:
        process.communicate(None if 0 in streams else LARGE, timeout=LONGEST)
    return process.returncode


def listen(program, path, streams):
    """The status of a session of one connection at a socket."""
    port = free_port()
    with begun([program, path, "listen", str(port), "1"], streams) as process:
        with contextlib.suppress(OSError), connected(port, process) as client:
            client.sendall(LARGE)
            client.shutdown(socket.SHUT_WR)
            while client.recv(1 << 16):
                pass
        process.communicate(timeout=LONGEST)
    return process.returncode


def faults(program, path, closed):
    """What came out otherwise, in words."""
    left_open = closed[:12] + b"\1" + closed[13:]
    for streams in CLOSED:
        for how in (run, listen):
            for what, content, wanted in [("a closed file", closed, 0), ("a file that was left open", left_open, 3)]:
                with open(path, "wb") as file:
                    file.write(content)
                status = how(program, path, streams)
                left = content_of(path)
                is_same = shown_by(left) == shown_by(closed) if content is closed else left == content
                if not is_same or status != wanted:
                    names = ", ".join(NAMES[it] for it in streams)
                    yield f"{how.__name__}, standard {names} closed, {what}: status {status}, {'as it was' if is_same else 'lost'}"


def main(program):
    with tempfile.TemporaryDirectory() as folder:
        found = list(faults(os.path.abspath(program), f"{folder}/store", scripts.lai()))
    print(*found or [f"standard streams closed in {len(CLOSED)} ways: nothing was lost"], sep="\n", flush=True)
    return 1 if found else 0


if __name__ == "__main__":
    if len(sys.argv) < 2:
        sys.exit(__doc__)
    sys.exit(main(*sys.argv[1:]))
