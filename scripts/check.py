#!/usr/bin/env python3
"""Compares the documents with the crates, and runs their examples against the built program. It fails where one of them
differs.

    scripts/check.py [PROGRAM [DOCUMENT..]]

Without a program it compares alone: the tables of crates (`crate_table.py`), the public calls (`surface.py`), the
limits (`limits.py`), the refusals (`refusals.py`), what is said of keywords, types and limits elsewhere (`words.py`),
and the names that the documents quote (`names.py`). It tells too which facts stand a second time (`homes.py`) and which
contracts are too wide or too long (`contracts.py`).

An example is a line of an indented block that begins with `$ `: a command for bash. The indented lines below it, up to
the next such line or the next paragraph, are what it prints. All of a document's commands run in one shell, in a folder
of their own, beside a server on an empty store in memory that is theirs alone; it listens where the document says
`localhost:8080`. Blocks without such a line are not run.
"""

import os
import subprocess
import sys
import tempfile

sys.dont_write_bytecode = True
TOP = os.path.dirname(os.path.dirname(os.path.abspath(__file__)))
DOCS = f"{TOP}/docs"

import contracts
import crate_table
import homes
import limits
import names
import refusals
import surface
import words
from served import served

SAYS = "localhost:8080"


def examples(text):
    """The commands of a document, each with its line and what it is to print. A blank line inside a block is one of
    it."""
    found, is_open, blank = [], False, 0
    for number, line in enumerate(text.splitlines(), 1):
        if not line.strip():
            blank += 1
        elif line.startswith("    $ "):
            found.append((number, line[6:], []))
            is_open, blank = True, 0
        elif is_open and line.startswith("    "):
            found[-1][2].extend([""] * blank + [line[4:]])
            blank = 0
        else:
            is_open = False
    return found


def printed(command, shell, mark):
    """What a command prints in a running shell, as lines."""
    shell.stdin.write(f"{command}\nprintf '\\n%s\\n' {mark}\n")
    shell.stdin.flush()
    lines = []
    while (line := shell.stdout.readline()) and line.rstrip("\n") != mark:
        lines.append(line.rstrip("\n"))
    # the line end before the mark is ours where what came ended its own line
    return lines[:-1] if lines and lines[-1] == "" else lines


def differences(program, document):
    """How many examples a document has, and of each that is not so, the line, what it is to print and what it does."""
    with open(document, encoding="utf-8") as file:
        found = examples(file.read())
    told = []
    with tempfile.TemporaryDirectory() as folder, served(program, folder) as port:
        bash = ["bash", "--norc", "--noprofile"]
        plain = {name: value for name, value in os.environ.items() if not name.lower().endswith("_proxy")}
        with subprocess.Popen(
            bash,
            cwd=folder,
            env=plain,
            stdin=subprocess.PIPE,
            stdout=subprocess.PIPE,
            stderr=subprocess.STDOUT,
            text=True,
        ) as shell:
            for number, command, expected in found:
                came = printed(command.replace(SAYS, f"127.0.0.1:{port}"), shell, f"example-{number}-ended")
                if came != expected:
                    told.append((number, command, expected, came))
            shell.stdin.close()
    return len(found), told


def compared():
    """Prints where the documents and the crates differ, and tells how many places that are."""
    found = [
        it for part in (crate_table, surface, limits, refusals, words, names, homes, contracts) for it in part.faults()
    ]
    print(*found, sep="\n", end="\n" if found else "")
    print(f"documents beside crates: {len(found)} differ")
    return len(found)


def run_examples(program, documents):
    """Runs the examples of documents, prints those that differ, and tells how many there are and how many differ."""
    count, differ = 0, 0
    for document in documents:
        examples_in, told = differences(program, document)
        count += examples_in
        differ += len(told)
        for number, command, expected, came in told:
            print(
                f"{os.path.basename(document)}:{number}: {command}",
                *(f"  wanted: {it}" for it in expected),
                *(f"  came:   {it}" for it in came),
                sep="\n",
            )
    print(f"{count} examples, {differ} differ")
    return count, differ


def main(program=None, *documents):
    wrong = compared()
    if program is None:
        return 1 if wrong else 0
    pages = [f"{DOCS}/{it}" for it in sorted(os.listdir(DOCS)) if it.endswith(".md")] + [f"{TOP}/README.md"]
    count, differ = run_examples(os.path.abspath(program), documents or pages)
    return 1 if wrong or differ or not count else 0


if __name__ == "__main__":
    sys.exit(main(*sys.argv[1:]))
