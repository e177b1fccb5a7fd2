#!/usr/bin/env python3
"""Lists the functions whose steps are long to check.

    scripts/steps.py [MB]

For each function the prover writes a file of the state at each step of each path. Its size predicts the time of the
check: some 2 to 4 seconds a megabyte. Most of a long one is drops: each `?`, return and end of scope drops each owned
local, field by field and variant by variant, down to the first box, vector or text. So a large value that lives across
`?` stands in a box, or is borrowed by the function that has the `?`.

Reads what `rt check` left in out/incremental of the crates here, prints the functions past MB (3 where it is left out),
largest first, and ends with status 1 where more than ten are past 5.
"""

import os
import re
import sys

CRATES = os.path.join(os.path.dirname(os.path.dirname(os.path.abspath(__file__))), "crates")
# as Rattle-wcps_text-proofs.lexer.lex.Lts.oantt, or, in a cycle of calls,
# ..proofs.tree.+tree-fmt.Lts-ExprDebug-fmt.oantt the records that the prover keeps of declarations, which end with
# .decls.oantt, are not counted
STEPS = re.compile(r"Rattle-(\w+)-proofs\.(.+)\.Lts(?:-([^.]+))?\.oantt")
MEGABYTE = 1_000_000
LONG, MOST_LONG = 5 * MEGABYTE, 10


def steps_of(crate):
    """The sizes of the steps of each function of a crate, by its name, as the newest check left them."""
    found = {}
    for at, _, files in os.walk(f"{CRATES}/{crate}/out/incremental"):
        for name in files:
            if named := STEPS.fullmatch(name):
                function = f"{named[1]}::{named[2].replace('.', '::')}" + (f" ({named[3]})" if named[3] else "")
                state = os.stat(f"{at}/{name}")
                found.setdefault(function, []).append((state.st_mtime, state.st_size))
    return {function: max(sizes)[1] for function, sizes in found.items()}


def main(least="3"):
    sizes = {}
    for crate in sorted(os.listdir(CRATES)):
        sizes |= steps_of(crate)
    for function, size in sorted(sizes.items(), key=lambda it: -it[1]):
        if size > float(least) * MEGABYTE:
            print(f"{size / MEGABYTE:6.1f} MB  {function}")
    long = sum(size > LONG for size in sizes.values())
    print(f"{len(sizes)} functions, {sum(sizes.values()) / MEGABYTE:.0f} MB of steps, {long} functions above 5 MB")
    return 1 if long > MOST_LONG else 0


if __name__ == "__main__":
    sys.exit(main(*sys.argv[1:]))
