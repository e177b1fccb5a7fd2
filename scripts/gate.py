#!/usr/bin/env python3
"""The gate, on a copy of this tree: the layout of the crates, `rt ci` without the must-fail edits, then, over the
program that it built, what `trials` lists, and over its libraries the edits.

In CI's clone those edits alone are tried that are not recorded as refused on the text that stands here by the toolchain
that is, and where all are recorded, those of one crate, which the commit decides.
"""

import contextlib
import os
import re
import shutil
import signal
import subprocess
import sys
import tempfile

sys.dont_write_bytecode = True
from must_fail import closed, recorded, release, rests, said_by, sum_of, sums, texts_below, tried
from surface import dependencies

# The most seconds of a trial.
LONGEST = 1800


def minutes():
    """The processor minutes of all that has run so far."""
    spent = os.times()
    return f"{(spent.children_user + spent.children_system) / 60:.0f} processor minutes"


@contextlib.contextmanager
def copied():
    """Goes into a copy of this tree, of what git keeps or would keep, with an empty folder beside it."""
    home, files = os.getcwd(), said_by("git", "ls-files", "-z", "--cached", "--others", "--exclude-standard").split(
        "\0"
    )
    with tempfile.TemporaryDirectory(prefix="gate-") as room:
        os.makedirs(f"{room}/aside")
        # a program runs as nobody, who has to find it
        os.chmod(room, 0o755)
        for it in files:
            if os.path.isfile(it):
                os.makedirs(os.path.dirname(f"{room}/tree/{it}"), exist_ok=True)
                shutil.copy(it, f"{room}/tree/{it}")
        os.chdir(f"{room}/tree")
        try:
            yield
        finally:
            os.chdir(home)


def not_laid_out():
    """The crates that `rt fmt` changes, in a tree where it may: `rt ci` proves none of them, and tells so in its
    turn."""
    for it in dependencies("."):
        was = texts_below(f"crates/{it}")
        subprocess.run(["rt", "fmt"], cwd=f"crates/{it}", stdin=subprocess.DEVNULL, capture_output=True, check=True)
        if texts_below(f"crates/{it}") != was:
            yield it


def without_edits(names):
    """Runs `rt ci` with the edits of these crates set aside. Returns its status and its last line."""
    for name in names:
        shutil.move(f"crates/{name}/must-fail", f"../aside/{name}")
    last = ""
    with subprocess.Popen(
        ["rt", "ci"], stdin=subprocess.DEVNULL, stdout=subprocess.PIPE, text=True, errors="replace"
    ) as ran:
        for last in ran.stdout:
            print(last, end="", flush=True)
    for name in names:
        shutil.move(f"../aside/{name}", f"crates/{name}/must-fail")
    return ran.returncode, last


def to_try(now, then, commit):
    """The crates whose edits are not recorded, and where there is none, one that the commit decides."""
    return [it for it in now if then.get(it) != now[it]] or [min(now, key=lambda it: sum_of(commit, it))]


def lacking(*commands):
    """Which of some commands are not here, or None."""
    return ", ".join(it for it in commands if not shutil.which(it)) or None


def trials(seed):
    """What is run over the built program: what it is, its command, and what it lacks here, if anything."""
    program = "crates/rasterd/out/rasterd"
    yield "the documents beside the crates", ["scripts/check.py"], None
    yield "second homes of facts", ["scripts/homes_test.py"], None
    yield "the examples of the documents", ["scripts/check.py", program], lacking("curl")
    yield "files of version 1", ["oracle/version_1.py", program], None
    yield "words, statuses and lines of the program", ["scripts/statuses.py", program], None
    yield "sessions beside the independent reading", ["oracle/sessions.py", program, "200", seed], None
    yield "sessions over damaged tiles", ["oracle/damaged.py", program, "100", seed], None
    yield "folds by zone", ["oracle/zones.py", program, "200", seed], None
    yield "windows and scattered cells", ["oracle/windows.py", program, "200", seed], None
    yield "clients that shut, reset, stall and go away", ["bench/sockets.py", program], lacking(
        "curl", "flock", "prlimit"
    )
    yield "a device without room", ["bench/full_disk.py", program], None
    yield "the clients and deploy/serve", ["clients/python/test.py", program], lacking("curl", "flock", "prlimit")
    yield "inputs that are changed without end", ["oracle/fuzz.py", program, "20", seed], None
    yield "calls of the system that fail or lie", ["faults/failing.py", program, "disk", "lies", "stream"], None
    yield "standard streams that are closed", ["faults/closed.py", program], None
    yield "a server that is stopped, and two on one file", ["faults/interrupts.py", program, "40"], None
    every = ["memory", "25", str(int(seed) % 25 + 1)]
    yield "growths that are refused, every 25th", ["faults/failing.py", program, *every], None
    rows = ["crates/server_tests/out/server_tests", "crates/server_tests/stdin"]
    yield "growths that are refused, each under the rows of scripts", ["faults/growths.py", *rows], None
    yield "the layout of Python", ["black", "--check", "--quiet", "."], lacking("black")


def ended_well(words):
    """Runs a trial in a session of its own and prints what it wrote. Returns whether it ended well; where it does not
    end in time, it is killed, with all of its group."""
    with subprocess.Popen(
        words, stdin=subprocess.DEVNULL, stdout=subprocess.PIPE, stderr=subprocess.PIPE, start_new_session=True
    ) as trial:
        late = ""
        try:
            wrote = trial.communicate(timeout=LONGEST)
        except subprocess.TimeoutExpired as so_far:
            wrote, late = (so_far.stdout, so_far.stderr), f"it has not ended in {LONGEST} seconds\n"
        finally:
            if trial.returncode is None:
                os.killpg(trial.pid, signal.SIGKILL)
                trial.wait()
    print(*((it or b"").decode(errors="replace") for it in wrote), late, sep="", end="")
    return trial.returncode == 0 and not late


def run_trials(seed):
    """Runs the trials one after the other, and returns those that failed and those that were not run. What `rt ci` has
    left to be written to the disk is written before, so that no trial waits for it."""
    os.sync()
    failed, left = [], []
    for what, command, lacks in trials(seed):
        if lacks:
            print(f"{what}: not run, there is no {lacks}", flush=True)
            left.append(what)
            continue
        words = [shutil.which(command[0]) or os.path.abspath(command[0]), *command[1:]]
        print(f"{what}:", flush=True)
        if ended_well(words):
            print(f"{what}: ok", flush=True)
        else:
            print(f"{what}: failed", flush=True)
            failed.append(what)
    return failed, left


def gate():
    kit, commit = release(), said_by("git", "rev-parse", "HEAD").strip()
    now, then = sums(kit, rests()), recorded(kit)
    names = to_try(now, then, commit) if os.environ.get("CI") == "true" else list(now)
    with copied():
        import must_fail_groups_test

        if unlike := list(not_laid_out()):
            print(f"run rt fmt in the folders of {', '.join(unlike)}", flush=True)
            return 1
        status, last = without_edits(now)
        proved = re.fullmatch(r"(\d+) passed, 0 failed\n", last)
        print(f"without edits: {minutes()}", flush=True)
        if status or not proved:
            return status or 1
        wrong = [f"the trier of edits: {it}" for it in must_fail_groups_test.faults()]
        print(*wrong or ["the trier of edits and its control: ok"], sep="\n", flush=True)
        faults, left = run_trials(str(int(sum_of(commit)[:8], 16)))
        _, passed, failed = tried(names, builds=False)
        print(f"with these edits: {minutes()}", flush=True)
        return closed(int(proved[1]) + passed, wrong + faults + failed, left)


if __name__ == "__main__":
    sys.exit(gate())
