#!/usr/bin/env python3
"""What README promises of the first minutes: copies its lines from a fresh checkout and prints how long each takes.

    scripts/first_minutes.py [--proved]

It clones this repository, runs the first `rt try` to the first `7`, starts the second one in the background, and asks what
*Ask it things* asks, up to the focal sum; with --proved it does the proved build too, and asks that by `deploy/serve`. The
port is a free one. Every answer has to be as README prints it.
"""

import contextlib
import os
import re
import signal
import subprocess
import sys
import tempfile
import time

sys.dont_write_bytecode = True
TOP = os.path.dirname(os.path.dirname(os.path.abspath(__file__)))

from check import SAYS, examples
from served import LONGEST, connected, free_port


class Timer:
    """Seconds from the beginning on."""

    def __init__(self):
        self.begin = time.monotonic()

    def tell(self, what):
        print(f"{time.monotonic() - self.begin:7.1f} s  {what}", flush=True)


def commands(text):
    """The indented lines of README that are commands of their own, and stay in front."""
    return re.findall(r"^    ((?:cd|rt|bash|deploy/serve) [^&\n]*)$", text, re.M)


def one(listed, begin):
    """The only command that begins so."""
    found = [it for it in listed if it.startswith(begin)]
    if len(found) != 1:
        sys.exit(f"README has {len(found)} lines that begin with `{begin}`")
    return found[0]


def last_line(command, folder):
    ran = subprocess.run(command, shell=True, cwd=folder, stdout=subprocess.PIPE, text=True, check=False)
    replies = [line for line in ran.stdout.splitlines() if line and ":" not in line]
    return replies[-1] if replies else ""


def ask(text, port, timer, running):
    """Asks what README asks, up to the focal sum, once the server listens."""
    shell = ["bash", "--norc", "--noprofile", "-c"]
    connected(port, running).close()
    timer.tell("the server listens")
    function, *asked = [(it, wanted) for _, it, wanted in examples(text)]
    for command, wanted in asked:
        words = f"{function[0]}; {command}".replace(SAYS, f"127.0.0.1:{port}")
        came = subprocess.run([*shell, words], stdout=subprocess.PIPE, text=True, check=False).stdout.splitlines()
        if came != wanted:
            sys.exit(f"{command}: {came} is not {wanted}")
        if "FocalSum" in command:
            timer.tell("the focal sum")
            return
    sys.exit("README asks no focal sum")


def main():
    timer = Timer()
    with tempfile.TemporaryDirectory() as room:
        checkout = f"{room}/rasterd"
        subprocess.run(["git", "clone", "--quiet", TOP, checkout], check=True)
        with open(f"{checkout}/README.md", encoding="utf-8") as file:
            text = file.read()
        listed = commands(text)
        folder = f"{checkout}/{one(listed, 'cd ')[3:]}"
        command = one(listed, "rt try -- -")
        if last_line(command, folder) != "7":
            sys.exit(f"the last reply of `{command}` is not 7")
        timer.tell("the first 7")
        port = free_port()
        with subprocess.Popen(
            one(listed, "rt try --seconds").replace("8080", str(port)), shell=True, cwd=folder, start_new_session=True
        ) as running:
            try:
                ask(text, port, timer, running)
            finally:
                # rt ends what it has started, where it has not ended before
                with contextlib.suppress(ProcessLookupError):
                    os.killpg(running.pid, signal.SIGINT)
                running.wait(LONGEST)
        if "--proved" in sys.argv[1:]:
            proved(text, listed, folder, checkout, timer)


def proved(text, listed, folder, checkout, timer):
    """The proved build, and the same asked of it."""
    if last_line(one(listed, "rt run"), folder) != "7":
        sys.exit("the last reply of the proved program is not 7")
    timer.tell("the first 7 of the proved program")
    port = free_port()
    words = one(listed, "deploy/serve").replace("8080", str(port)).split()
    with subprocess.Popen(words, cwd=checkout) as running:
        try:
            ask(text, port, timer, running)
        finally:
            running.terminate()


if __name__ == "__main__":
    main()
