#!/usr/bin/env python3
"""Which crates' must-fail edits are to be tried, and the trying.

  scripts/must_fail.py               names the crates whose edits are not recorded as refused on the text that stands here
  scripts/must_fail.py try [NAME..]  tries those, or the named ones, and records each crate whose edits were all refused

What an edit comes to follows from the toolchain, the crate's text and what a check reads of the crates below it, but
not from comments. The record, scripts/must_fail.txt, has a line for each crate and each release of the toolchain that
refused all of its edits: the crate, what `rt version` says, and the sum of all these. Any other change changes the sum,
and the edits are tried again. What one release refused stays noted while another one is at work.
"""

import hashlib
import os
import re
import subprocess
import sys

sys.dont_write_bytecode = True
from interfaces import read_above
from surface import dependencies

RECORD = "scripts/must_fail.txt"
LINE = re.compile(r"(\w+) (\S+ logic [0-9a-f]+) ([0-9a-f]{64})\n")
# a text or a character, which is kept, or a comment
COMMENTS = {
    ".rt": re.compile(r'("(?:\\.|[^"\\])*"|\'(?:\\[^\n]+?|[^\'\\\n])\')|//[^\n]*', re.S),
    ".antt": re.compile(r"^()[ ]*--[^\n]*", re.M),
}


def said_by(*words):
    return subprocess.run(words, stdin=subprocess.DEVNULL, capture_output=True, text=True, check=True).stdout


def sum_of(*parts):
    return hashlib.sha256(repr(parts).encode()).hexdigest()


def without_comments(name, text):
    """The text of a file without its comments and empty lines, on which no proof rests."""
    comment = COMMENTS.get(os.path.splitext(name)[1])
    if comment is None:
        return text
    lines = comment.sub(lambda it: it[1] or "", text).splitlines()
    return "\n".join(it.rstrip() for it in lines if it.strip())


def texts_below(folder):
    found = []
    for at, folders, files in os.walk(folder):
        folders.sort()
        for name in sorted(files):
            with open(f"{at}/{name}", "rb") as file:
                found.append((f"{at}/{name}", file.read()))
    return found


def release():
    """What the toolchain says of itself."""
    return said_by("rt", "version").strip()


def rests():
    """What the edits of each crate rest on besides the toolchain."""
    lines = dependencies(".")
    with open("HANDLES", encoding="utf-8") as file:
        handles = file.read()

    def below(name):
        return {it for dep in lines[name] if dep in lines for it in [dep, *below(dep)]}

    def texts(name):
        found = [it for part in ("src", "specs", "proofs") for it in texts_below(f"crates/{name}/{part}")]
        return [(it, without_comments(it, data.decode())) for it, data in found]

    own = {name: texts(name) for name in lines}
    above = {name: sum_of(name, lines[name], read_above(own[name])) for name in lines}
    with_edits = [name for name in lines if os.path.isdir(f"crates/{name}/must-fail")]
    return {
        it: (handles, own[it], sorted(above[dep] for dep in below(it)), texts_below(f"crates/{it}/must-fail"))
        for it in with_edits
    }


def sums(kit, parts):
    """The sum of each crate for a release, by what its edits rest on besides."""
    return {it: sum_of(kit, *each) for it, each in parts.items()}


def noted():
    """The lines of the record: a crate, a release, a sum."""
    if not os.path.isfile(RECORD):
        return []
    with open(RECORD, encoding="utf-8") as file:
        return [it.groups() for it in map(LINE.fullmatch, file) if it]


def recorded(kit):
    """The sum that the record has of each crate for a release."""
    return {name: was for name, by, was in noted() if by == kit}


def record(kit, parts, refused, tried):
    """Notes the crates whose edits this release refused all, and of those that were tried no others. A line of another
    release stays while its sum stands."""
    stand = {(name, by) for name, by, was in noted() if name in parts and was == sum_of(by, *parts[name])}
    stand = stand - {(name, kit) for name in tried} | {(name, kit) for name in refused}
    with open(RECORD, "w", encoding="utf-8") as file:
        file.writelines(f"{name} {by} {sum_of(by, *parts[name])}\n" for name, by in sorted(stand))


def tried(names, builds):
    """Tries the edits of these crates and says what came of each. Returns the crates whose edits were all refused, how
    many edits were, and what is told of the others."""
    import must_fail_groups as groups

    crates = [it for it in groups.rt.rtlib.crates_below(os.getcwd()) if it.name in names]
    if builds:
        groups.rt.rtlib.guarded()
        for it in {dep.name: dep for crate in crates for dep in crate.below()}.values():
            if it.build_rlib(groups.ONE_JOB, anew=False):
                sys.exit(f"{it.name} is not proved, and crates above it have edits to try")
    print(f"must-fail edits: those of {', '.join(names) or 'no crate'}", flush=True)
    told = groups.side_by_side(crates, lambda each: print("".join(f"{text}\n" for _, text in each), end="", flush=True))
    outcomes = [it for each in told.values() for it in each]
    refused = [name for name, each in told.items() if all(is_refused for is_refused, _ in each)]
    return (
        refused,
        sum(is_refused for is_refused, _ in outcomes),
        [text for is_refused, text in outcomes if not is_refused],
    )


def closed(passed, faults, left=()):
    """Prints what failed and what was not run once more, and the closing line. Returns the status."""
    print("".join(f"{it}\n" for it in [*faults, *(f"not run: {it}" for it in left)]), end="")
    print(f"{passed} passed, {len(faults)} failed", flush=True)
    return 1 if faults else 0


def main(verb="", *named):
    if verb not in ("", "try"):
        sys.exit(__doc__.strip())
    kit, parts = release(), rests()
    now, then = sums(kit, parts), recorded(kit)
    if unknown := [it for it in named if it not in now]:
        sys.exit(f"no edits of {', '.join(unknown)}")
    left = [*named] or [it for it in now if then.get(it) != now[it]]
    if verb == "try":
        refused, passed, failed = tried(left, builds=True)
        record(kit, parts, refused, left)
        return closed(passed, failed)
    print(*left, sep="\n")
    return 0


if __name__ == "__main__":
    sys.exit(main(*sys.argv[1:]))
