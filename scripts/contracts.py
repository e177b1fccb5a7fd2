"""The contracts of the crates that hold code, beside the rule for them: no clause is wider than 120 columns, no
contract has more than ten clauses, and no function has more than six parameters.

A clause is its whole text, from `requires` or `ensures` to its closing brace, with line breaks and runs of blanks as
one blank. A receiver counts as a parameter.
"""

import re

from surface import crates, modules, source

MAX_WIDTH = 120
MAX_CLAUSES = 10
MAX_PARAMETERS = 6
FUNCTION = re.compile(r"^ *(?:pub(?:\([a-z]+\))? )?(?:const )?fn (\w+)", re.M)
CLAUSE = re.compile(r"\s*\b(?:requires|ensures)\b[^{;]*\{")
OPENING, CLOSING = "([{", ")]}"


def closed(text, at):
    """The place behind the bracket that closes the one at a place."""
    depth = 0
    for end in range(at, len(text)):
        depth += (text[end] in OPENING) - (text[end] in CLOSING)
        if depth == 0:
            return end + 1
    return len(text)


def parameters(text):
    """How many parameters a list between parentheses has."""
    depth, count, part = 0, 0, ""
    for before, letter in zip(" " + text, text):
        depth += (letter in OPENING + "<") - (letter in CLOSING or (letter == ">" and before != "-"))
        if letter == "," and depth == 0:
            count, part = count + 1, ""
        else:
            part += letter
    return count + bool(part.strip())


def clauses(text, at):
    """The clauses behind a function's parameters, each on one line."""
    found = []
    first = re.compile(r"[^{;]*?(?=\s(?:requires|ensures)\b)").match(text, at)
    at = first.end() if first else at
    while first and (opened := CLAUSE.match(text, at)):
        end = closed(text, opened.end() - 1)
        found.append(re.sub(r"\s+", " ", text[at:end]).strip())
        at = end
    return found


def contracts(text):
    """Of each function its name, the line where it begins, how many parameters it has, and its clauses."""
    for found in FUNCTION.finditer(text):
        opened = text.index("(", found.end())
        end = closed(text, opened)
        line = text.count("\n", 0, found.start(1)) + 1
        yield found[1], line, parameters(text[opened + 1 : end - 1]), clauses(text, end)


def broken(count, clauses_of):
    """In which ways a contract breaks the rule."""
    wide = [it for it in clauses_of if len(it) > MAX_WIDTH]
    told = [f"a clause of {len(it)} columns: {it[:60]}.." for it in wide]
    if len(clauses_of) > MAX_CLAUSES:
        told.append(f"{len(clauses_of)} clauses")
    if count > MAX_PARAMETERS:
        told.append(f"{count} parameters")
    return told


def faults():
    """Where a contract breaks the rule."""
    return [
        f"{crate}/{module}.rt:{line}: {name} has {what}"
        for crate in crates()
        for module in modules(crate)
        for name, line, count, clauses_of in contracts(source(crate, module))
        for what in broken(count, clauses_of)
    ]
