"""The refusals of `arr_core::Refusal`, by number, name and status, beside docs/REFUSALS.md and the independent reading
in oracle/.

The independent reading has no device, and so it may lack the refusals of one.
"""

import functools
import os
import re
import sys

from surface import TOP, read, source

sys.path.insert(0, f"{TOP}/oracle")

PAGE = "docs/REFUSALS.md"
HOME = ("arr_core", "refusal")
OF_DEVICE = {90, 91, 92, 93, 94, 95}
NUMBER = re.compile(r"^ +Refusal::(\w+) => (\d+),", re.M)
STATUS = re.compile(r"((?:Refusal::\w+[\s|]*)+|_ )=> (?:Some\((\w+)\)|None),")
NAMED_STATUS = re.compile(r"^const (\w+): u16 = (\d+);", re.M)
ROW = re.compile(r"^\| (\d+) (\w+) \| (\d*) ?\|", re.M)
MENTION = re.compile(r"(?<![\w.,-])(\d{1,2}) ([A-Z]\w+)")
FOLDERS = ("docs", "oracle", "clients", "web", "faults", "examples", "deploy", "bench")
ENDS = (".md", ".py", ".js", ".html", ".1")


@functools.cache
def names():
    """Each refusal's name by its number."""
    return {int(number): name for name, number in NUMBER.findall(source(*HOME))}


@functools.cache
def statuses():
    """The status of each refusal that has one."""
    arms = STATUS.findall(source(*HOME).partition("pub fn status")[2])
    named = dict(NAMED_STATUS.findall(source(*HOME)))
    given = {name: status for heads, status in arms for name in re.findall(r"Refusal::(\w+)", heads)}
    (rest,) = [status for heads, status in arms if heads == "_ "]
    found = {number: given.get(name, rest) for number, name in names().items()}
    return {number: int(named.get(status, status)) for number, status in found.items() if status}


def differing(where, what, told, there):
    """What two tables by numbers differ in, as lines."""
    return [
        *(f"{where} lacks the {what} {is_so} of {it}" for it, is_so in there.items() if it not in told),
        *(f"{where} has the {what} {so} of {it}, which has none" for it, so in told.items() if it not in there),
        *(
            f"{where}: the {what} of {it} is {there[it]}, and not {told[it]}"
            for it in told
            if there.get(it, told[it]) != told[it]
        ),
    ]


def page_faults():
    """Of the page: a refusal may have several rows, which say the same of it."""
    rows = [(int(number), name, int(status or 0)) for number, name, status in ROW.findall(read(PAGE))]
    told_names, told_statuses = {it: name for it, name, _ in rows}, {it: status for it, _, status in rows if status}
    unlike = [f"{PAGE} has unlike rows of {it}" for it in told_names if len({row for row in rows if row[0] == it}) > 1]
    return unlike + differing(PAGE, "name", told_names, names()) + differing(PAGE, "status", told_statuses, statuses())


def reading_faults():
    """Of the independent reading: the machine's tables, and those of a file's refusals."""
    # pylint: disable=import-outside-toplevel
    import machine
    import store

    is_asked = lambda it: it not in OF_DEVICE or it in machine.REFUSALS
    asked = {it: name for it, name in names().items() if is_asked(it)}
    replied = {it: machine.STATUSES.get(it, 400) for it in machine.REFUSALS}
    given = {it: status for it, status in statuses().items() if is_asked(it)}
    stray = [
        f"oracle/machine.py has a status of {it}, which it has no name of"
        for it in machine.STATUSES
        if it not in machine.REFUSALS
    ]
    opening = {it: name for it, name in names().items() if it in store.FILE_REFUSALS}
    return [
        *stray,
        *differing("oracle/machine.py", "name", machine.REFUSALS, asked),
        *differing("oracle/machine.py", "status", replied, given),
        *differing("oracle/store.py", "name", store.FILE_REFUSALS, opening),
    ]


def texts():
    """The texts that may speak of refusals: documents, and what stands beside the crates."""
    yield "README.md"
    for folder in FOLDERS:
        for at, _, files in os.walk(f"{TOP}/{folder}"):
            yield from (os.path.relpath(f"{at}/{it}", TOP) for it in files if it.endswith(ENDS))


def mentions():
    """What texts say of a number and a refusal's name, as `20 NoSuchCoverage`, where that has another number."""
    there, found = names(), []
    for path in sorted(texts()):
        for number, name in MENTION.findall(read(path)):
            if name in there.values() and there.get(int(number)) != name:
                found.append(f"{path} says {number} {name}")
    return found


def faults():
    return [*page_faults(), *reading_faults(), *mentions()]
