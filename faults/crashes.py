#!/usr/bin/env python3
"""What a file is where the machine stops in the middle of a session: an experiment, since nothing is claimed of
crashes.

    faults/crashes.py PROGRAM [IMAGES] [SEED]

Sessions run on a new file and on one that was closed, and shim.c notes their writes. An image is the file as it was at
the last sync before some place of a session, with any part of what was written from then up to that place: each write
whole, not at all, or in some of its sectors of 512 bytes, the length of the file grown or not. IMAGES of them are made
for each place, 12 where the number is left out. Each has to be refused as 95, or to be the store before the session or
after it; and the program has to say of it what oracle/store.py says. A new file whose header was not written whole is
94; that is counted apart. Prints counts, and ends with status 1 where an image is something else.
"""

import collections
import os
import random
import sys
import tempfile

sys.dont_write_bytecode = True

import scripts
import shim
from failing import content_of, shown_by

SECTOR = 512


def written(content, at, data):
    content.extend(bytes(max(0, at + len(data) - len(content))))
    content[at : at + len(data)] = data


def torn(chance, content, at, data):
    """A write of which some sectors may be wanting, in what they hold or in the length too."""
    kind = chance.randrange(4)
    if kind == 0:
        return
    if kind == 1:
        return written(content, at, data)
    if kind == 2:
        written(content, at, bytes(content[at : at + len(data)]).ljust(len(data), b"\0"))
    for k in range(0, len(data), SECTOR):
        if chance.randrange(2):
            written(content, at + k, data[k : k + SECTOR])


def images(chance, before, calls, times):
    """The images of a session on a file, each with its place."""
    synced, pending = bytearray(before), []
    for place, (what, at, _, data) in enumerate(calls):
        if what == "fsync":
            for it in pending:
                written(synced, *it)
            pending = []
        elif what == "pwrite":
            pending.append((at, data))
        for _ in range(times if pending else 1):
            content = bytearray(synced)
            for it in pending:
                torn(chance, content, *it)
            yield place, bytes(content)


def session(program, made, path, log, messages):
    """The file after a session, and the calls on it."""
    if os.path.exists(log):
        os.remove(log)
    run = shim.Run(program, path, shim.environment(made, log=log))
    for it in messages:
        run.ask(it)
    if run.end() != (0, ""):
        sys.exit("a session did not end well")
    return content_of(path), shim.calls(log)[0]


def said(program, path, image):
    """What the program says of an image: 0 where it opens, or the number of its refusal."""
    with open(path, "wb") as file:
        file.write(image)
    status, told = shim.Run(program, path, None).end()
    return int(told.split()[2]) if status == 3 else status


def main(program, times="12", seed="1"):
    program, chance = os.path.abspath(program), random.Random(seed)
    counts, wrong = collections.Counter(), 0
    with shim.library(program) as made, tempfile.TemporaryDirectory() as folder:
        path = f"{folder}/store"
        for before, messages in [
            (b"", scripts.SHORT),
            (scripts.lai(), scripts.SHORT),
            (scripts.lai(), scripts.LONG),
            (None, scripts.SHORT + [scripts.insert("f", "x(0:9)", "v:i64")]),
        ]:
            before = content_of(path) if before is None else before
            with open(path, "wb") as file:
                file.write(before)
            after, calls = session(program, made, path, f"{folder}/log", messages)
            stores = {"before": shown_by(before), "after": shown_by(after)}
            for place, image in images(chance, before, calls, int(times)):
                found = shown_by(image)
                name = next((it for it, store in stores.items() if store == found), found)
                is_new = name == 94 and not before and (len(image) < 4096 or not any(image[:SECTOR]))
                counts["94, a new file without a whole header" if is_new else name] += 1
                told = said(program, f"{folder}/image", image)
                if (name not in (95, "before", "after") and not is_new) or told != (
                    found if isinstance(found, int) else 0
                ):
                    wrong += 1
                    print(
                        f"WRONG: at call {place + 1} of {len(calls)}: {name}, and the program says {told}", flush=True
                    )
    told = ", ".join(f"{what}: {times}" for what, times in sorted(counts.items(), key=str))
    print(f"{sum(counts.values())} images; {told}; wrong: {wrong}")
    return 1 if wrong else 0


if __name__ == "__main__":
    if len(sys.argv) < 2:
        sys.exit(__doc__)
    sys.exit(main(*sys.argv[1:]))
