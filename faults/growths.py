#!/usr/bin/env python3
"""The rows of scripts, where growths of memory are refused.

    faults/growths.py PROGRAM ROWS

PROGRAM is the built program of server_tests, ROWS the file of its rows. It is given those from the line `# ---- Growths
refused` up to the next section, under the library of shim.c: the program then arms the library for one growth after the
other, and says on standard error of each row `growths` how often a script was played and what was refused. Without the
library no growth is, and a script is played once.

Prints what the program says, and ends with status 1 where a row differs, where of a row no growth was refused, or where
the library cannot be loaded.
"""

import os
import re
import subprocess
import sys
import tempfile

sys.dont_write_bytecode = True

import shim

FIRST = "# ---- Growths refused\n"
# a folder in memory, where there is one: each turn over a file waits for it
IN_MEMORY = "/dev/shm"


def section(rows):
    """The rows of scripts."""
    with open(rows, encoding="utf-8") as file:
        _, _, behind = file.read().partition(FIRST)
    return behind.split("\n# ---- ")[0] + "\n"


def main(program, rows):
    program, text = os.path.abspath(program), section(rows)
    asked = re.findall(r"^growths (.*)$", text, re.MULTILINE)
    if not asked:
        print(f"{rows} has no rows of scripts")
        return 1
    where = IN_MEMORY if os.path.isdir(IN_MEMORY) else None
    with shim.library(program) as made, tempfile.TemporaryDirectory(dir=where) as folder:
        ran = subprocess.run(
            [program], input=text, capture_output=True, text=True, check=False, cwd=folder, env=shim.environment(made)
        )
    print(ran.stderr, ran.stdout, sep="", end="", flush=True)
    told = re.findall(r"^growths (.*): [1-9]\d* turns, ", ran.stderr, re.MULTILINE)
    if told != asked:
        print(f"of {len(asked)} rows growths were refused in {len(told)}")
    return 0 if ran.returncode == 0 and told == asked else 1


if __name__ == "__main__":
    if len(sys.argv) < 3:
        sys.exit(__doc__)
    sys.exit(main(*sys.argv[1:]))
