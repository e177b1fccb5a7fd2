#!/usr/bin/env python3
"""What each crate takes in `rt ci` without its edits: the table of docs/GATE.md.

    scripts/crate_times.py [COMMIT ..]

Proves each crate of a commit from nothing and with one job, as many at a time as there are processors; a program is
also built by both compilers. Without a commit it takes this tree as it is. Prints each crate as it ends, with its
processor seconds and its functions, and at the end their sum. Commits are taken one after the other, so that they can
be compared. Ends with status 1 where a crate is not proved.
"""

import functools
import io
import os
import re
import subprocess
import sys
import tarfile
import tempfile

sys.dont_write_bytecode = True
from gate import copied
from must_fail_groups import ONE_JOB, rt


def proved(name):
    """Proves a crate of the tree that this runs in, over those below it, and builds what `rt ci` builds. Returns the
    status."""
    rt.Crate.cuts_libraries, rt.Crate.allowed, rt.rtlib.Crate = True, rt.handles_of(os.getcwd()), rt.Crate
    rt.rtlib.guarded()
    crate = next(it for it in rt.rtlib.crates_below(os.getcwd()) if it.name == name)
    os.makedirs(f"{crate.folder}/out", exist_ok=True)
    return crate.ci(ONE_JOB, False)


def timed(crate, given, _):
    """The processor seconds that a crate took and whether it was proved, by a process of its own."""
    if not all(given[it.name][1] for it in crate.below()):
        print(f"{crate.name} is not proved, as one below it is not", flush=True)
        return 0, False
    with tempfile.TemporaryFile("w+", errors="replace") as said:
        words = [sys.executable, os.path.abspath(__file__), "--one", crate.name]
        began = subprocess.Popen(words, stdin=subprocess.DEVNULL, stdout=said, stderr=subprocess.STDOUT)
        _, status, usage = os.wait4(began.pid, 0)
        said.seek(0)
        told = re.findall(r"^logic=proved functions=(\d+)", said.read(), re.M)
    seconds = usage.ru_utime + usage.ru_stime
    print(
        f"{crate.name} {seconds:.0f} ({told[-1]})" if told and not status else f"{crate.name} is not proved", flush=True
    )
    return seconds, bool(told) and not status


def run():
    """Times the crates of the tree that this runs in. Returns whether all were proved."""
    crates = sorted(rt.rtlib.crates_below(os.getcwd()), key=lambda it: len(it.below()))
    os.environ["RT_JOBS"] = str(rt.processors())
    given = rt.in_lanes(
        {
            it.name: ([dep.name for dep in it.below()], it.count(rb"\n"), rt.need(it), functools.partial(timed, it))
            for it in crates
        }
    )
    print(f"in all {sum(seconds for seconds, _ in given.values()):.0f}", flush=True)
    return all(is_proved for _, is_proved in given.values())


def run_at(commit):
    """Times the crates of a commit. Returns whether all were proved."""
    print(f"commit {commit}:", flush=True)
    packed = subprocess.run(["git", "archive", commit], capture_output=True, check=True).stdout
    home = os.getcwd()
    with tempfile.TemporaryDirectory(prefix="times-") as room:
        with tarfile.open(fileobj=io.BytesIO(packed)) as tree:
            tree.extractall(room)
        os.chdir(room)
        try:
            return run()
        finally:
            os.chdir(home)


def main(*words):
    if words[:1] == ("--one",):
        return proved(words[1])
    if words:
        return 0 if all([run_at(it) for it in words]) else 1
    with copied():
        return 0 if run() else 1


if __name__ == "__main__":
    sys.exit(main(*sys.argv[1:]))
