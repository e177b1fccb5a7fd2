"""What a check reads of the crates below its own.

The toolchain shows it their definitions and lemmas, and of their code the types, the constants and the contracts. It
shows it no body of a function, no tactic and no private function, and no crate names the proof of a function of another
one.
"""

import re

FUNCTION = re.compile(r"( *)(pub )?(?:pub\([a-z]+\) )?fn ")
TACTIC = re.compile(r" *#\[tactic\(.*\)\]")
PROOF_OF_FUNCTION = re.compile(r"crates/\w+/proofs/.+/(?:Answers|Invariants)\.antt")


def without_bodies(lines):
    """The lines of a file of code, as `rt fmt` lays it out, without tactics, bodies and functions that are private to
    the file or the crate; None where a body is laid out in another way."""
    kept, function, in_body = [], None, False
    for line in lines:
        if in_body:
            if line == f"{function[1]}}}":
                function, in_body = None, False
            elif not line.startswith(f"{function[1]} "):
                return None
            continue
        head = FUNCTION.match(line)
        function = head or function
        if not TACTIC.fullmatch(line) and not (function and function[1] == "" and not function[2]):
            kept.append(line)
        # a body begins behind the head in its line, or in a line that is level with it, behind the parameters or the
        # clauses
        begins = function and (head or line.startswith((f"{function[1]}{{", f"{function[1]})")))
        if begins and line.endswith("{"):
            in_body = True
        elif function and line.endswith((";", "{}")):
            function = None
    return None if in_body else kept


def read_above(files):
    """What is read of the files of a crate, of each its name and its text without comments and empty lines."""
    found = []
    for name, text in files:
        if not PROOF_OF_FUNCTION.fullmatch(name):
            kept = without_bodies(text.splitlines()) if name.endswith(".rt") else None
            found.append((name, text if kept is None else "\n".join(kept)))
    return found
