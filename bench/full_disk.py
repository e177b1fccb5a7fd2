#!/usr/bin/env python3
"""Sessions of the built program on a file that cannot grow past a limit, and what the next run finds.

usage: bench/full_disk.py PROGRAM

Each session inserts five coverages of 2,000 cells of i64 and writes all their cells, so that the file would take 22
blocks. It runs with a limit on the size of its files, at 56 places from 8 KiB to 64 KiB at and around the bounds of
blocks; the signal of that limit is ignored, so that the system cuts a write short and then refuses it, as a full disk
does. Where the session ends with status 0, the next run, without a limit, has to find each coverage whose insertion was
answered with ok, and in it the cells of each update that was; any other session has all replies, and ends as one that
was not closed for a disk fault. Prints how the sessions ended, and ends with status 1 where something was lost.
"""
import os
import resource
import signal
import subprocess
import sys
import tempfile

BLOCK = 4096
CELLS = 2000
NAMES = [f"c{number}" for number in range(5)]
LIMITS = [BLOCK * blocks + more for blocks in range(2, 16) for more in (0, 1, 2048, 4095)]


def cells(number):
    return ",".join(str(place % 7 + number) for place in range(CELLS))


def message(pairs):
    return f"GET /ows?request={pairs} HTTP/1.1\r\n\r\n"


def bodies(replies):
    """The status and the body of each reply of a stream."""
    found = []
    while replies:
        head, _, rest = replies.partition("\r\n\r\n")
        fields = dict(line.split(": ", 1) for line in head.split("\r\n")[1:])
        length = int(fields["Content-Length"])
        found.append((int(head.split(" ")[1]), rest[:length]))
        replies = rest[length:]
    return found


def run(program, path, requests, limit=None):
    """The status of a run, its replies, and what it told of errors."""

    def limited():
        signal.signal(signal.SIGXFSZ, signal.SIG_IGN)
        resource.setrlimit(resource.RLIMIT_FSIZE, (limit, limit))

    ended = subprocess.run(
        [program, path, "run"],
        input="".join(message(pairs) for pairs in requests).encode(),
        capture_output=True,
        restore_signals=False,
        preexec_fn=limited if limit is not None else None,
        check=False,
    )
    return ended.returncode, bodies(ended.stdout.decode()), ended.stderr.decode().strip()


def lost(program, path, limit):
    """How a session with a limit ended, and what of it the next run does not find."""
    writes = []
    for number, name in enumerate(NAMES):
        writes.append(f"InsertCoverage&coverage={name}&domain=x(0:{CELLS - 1})&fields=v:i64")
        writes.append(f"UpdateCoverage&coverage={name}&field=v&box=x(0:{CELLS - 1})&values={cells(number)}")
    status, replies, told = run(program, path, writes, limit)
    if status != 0:
        is_told = (status, told) == (4, "not closed: 91 DiskFault") and len(replies) == len(writes)
        return (status, told), [] if is_told else ["another end"]
    if len(replies) != len(writes):
        return (status, "closed"), ["replies"]
    inserted = [replies[2 * number][0] == 200 for number in range(len(NAMES))]
    written = [replies[2 * number + 1][0] == 200 for number in range(len(NAMES))]
    asks = [f"ProcessCoverages&query=for+c+in+({name})+return+encode(c,+csv)" for name in NAMES]
    again, answers, error = run(program, path, asks)
    if again != 0 or len(answers) != len(asks):
        return (status, "closed"), [f"the store: {again} {error}"]
    missing = []
    for number, name in enumerate(NAMES):
        expected = (404, "refused 20 NoSuchCoverage\n")
        if inserted[number]:
            expected = (200, (cells(number) if written[number] else ",".join(["0"] * CELLS)) + "\n")
        if answers[number] != expected:
            missing.append(name)
    return (status, f"closed, {sum(written)} updates done"), missing


def main(program):
    ends = {}
    losses = 0
    with tempfile.TemporaryDirectory() as folder:
        for limit in LIMITS:
            end, missing = lost(os.path.abspath(program), f"{folder}/{limit}.store", limit)
            ends[end] = ends.get(end, 0) + 1
            if missing:
                losses += 1
                print(f"limit {limit}: lost {', '.join(missing)}")
    for (status, text), count in sorted(ends.items()):
        print(f"{count:3} sessions: status {status}, {text}")
    print(f"{losses} of {len(LIMITS)} sessions lost something")
    sys.exit(1 if losses else 0)


if __name__ == "__main__":
    if len(sys.argv) != 2:
        sys.exit(__doc__)
    main(sys.argv[1])
