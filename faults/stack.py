#!/usr/bin/env python3
"""The stack that the deepest queries take of the built program.

    faults/stack.py PROGRAM

Each text is at a limit of the grammar, or far beyond one: brackets, words `condense` and `coverage`, operators of all
ranks between them, the height of the tree, chains of operators and fields over all 65,536 bytes of a query. It is asked
under limits of the stack until the least is found under which it is answered. Prints it in KiB with the reply, and ends
with status 1 where a text is not answered under 6 MiB; the system gives 8 MiB where nothing is said.
"""

import os
import re
import resource
import subprocess
import sys

sys.dont_write_bytecode = True

import scripts

MOST, STEP = 6 << 20, 64 << 10
RANKS = "1 or 1 and 1 = 1 + 1 * - "


def fold(k, rest):
    return f"condense + over $f{k} x(0:0) using {rest}"


TEXTS = {
    "512 brackets": "(" * 512 + "1" + ")" * 512,
    "512 brackets, all ranks between": f"({RANKS}" * 512 + "1" + ")" * 512,
    "512 calls, all ranks between": f"abs({RANKS}" * 512 + "1" + ")" * 512,
    "512 records, all ranks between": f"{{v: {RANKS}" * 512 + "1" + "}" * 512,
    "256 slices, all ranks between": f"c[x({RANKS}" * 256 + "1" + ")]" * 256,
    "256 folds, all ranks between": "".join(fold(k, RANKS) for k in range(256)) + "1",
    "256 folds of domains of domains": "".join(f"condense + over $f{k} x(imageCrsDomain({RANKS}" for k in range(256)),
    "512 brackets and 256 folds, all ranks between": "".join(
        (fold(k, RANKS) if k % 2 else "") + f"({RANKS}" for k in range(512)
    )
    + "1"
    + ")" * 512,
    "a tree of height 64: signs": "-" * 63 + "1",
    "a tree of height 64: folds": "".join(fold(k, "") for k in range(63)) + "1",
    "a tree of height 64: sums of the coverage": "add(" * 62 + "c" + ")" * 62,
    "a tree of height 61: slices in slices": "c[x(" * 60 + "0" + ")]" * 60,
    "a tree of height 63: brackets in operands": "1+(" * 62 + "1" + ")" * 62,
    "65,000 signs": "-" * 65000 + "1",
    "16,000 times not": "not " * 16000 + "true",
    "a sum of 32,000 numbers": "1+" * 32000 + "1",
    "32,000 fields of fields": "c" + ".v" * 32000,
    "10,000 slices of slices": "c" + "[x(0)]" * 10000,
}


def answered(program, stream, stack):
    """The last reply under a limit of the stack, where there is one."""
    limit = lambda: resource.setrlimit(resource.RLIMIT_STACK, (stack, stack))
    ended = subprocess.run([program, "-", "run"], input=stream, capture_output=True, preexec_fn=limit, check=False)
    return ended.stdout if ended.returncode == 0 else None


def least(program, stream):
    """The least limit of the stack under which a stream is answered, and what is answered then; or nothing."""
    low, high = 0, MOST
    reply = answered(program, stream, high)
    while reply and high - low > STEP:
        middle = (low + high) // 2
        if answered(program, stream, middle):
            high = middle
        else:
            low = middle
    return high, reply


def main(program):
    wrong = 0
    for what, text in TEXTS.items():
        query = f"for c in (a) return {text}"[:65536]
        stack, reply = least(os.path.abspath(program), scripts.insert("a", "x(0:9)", "v:u8") + scripts.query(query))
        wrong += not reply
        told = (
            re.search(rb"\r\n\r\n([^\r]*)\n$", reply)[1].decode() if reply else f"not answered under {MOST >> 20} MiB"
        )
        print(f"{what:46} {stack >> 10:5} KiB  {told}", flush=True)
    return 1 if wrong else 0


if __name__ == "__main__":
    if len(sys.argv) < 2:
        sys.exit(__doc__)
    sys.exit(main(*sys.argv[1:]))
