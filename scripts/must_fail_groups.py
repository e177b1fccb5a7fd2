"""Tries the must-fail edits of a crate, those of different functions in one check.

A contract stands for its function in the proofs of all others, so a wrong body leaves goals open in its own proof
alone. In a group an edit counts as refused only where a goal of its own function is told as open, or its own proof has
an error that is more than a missing name. Every other edit is tried alone, just as `rt ci` tries it.

Each group has a control: a function that no edit of the group reaches gets a statement that changes nothing, and has to
be proved in that check. Where it is not, nothing is taken from the group, and the run fails.
"""

import functools
import importlib.machinery
import importlib.util
import itertools
import os
import re
import shutil
import sys
import tempfile
from dataclasses import dataclass


def toolchain():
    """The command rt as a module: how it reads an edit, copies a crate and judges a check is how that is done here."""
    loader = importlib.machinery.SourceFileLoader("rt", os.path.realpath(shutil.which("rt")))
    module = importlib.util.module_from_spec(importlib.util.spec_from_loader("rt", loader))
    sys.dont_write_bytecode = True
    loader.exec_module(module)
    return module


rt = toolchain()
ONE_JOB = ["--jobs", "1"]
# what rt tells of an edit that it counts as refused: one of these words, or, where it has none, that it is true
WELL = [getattr(rt, it, True) for it in ("REFUSED", "AT_LIMIT")]
# what a check of a program's wrong bodies takes at most, in bytes
MOST_MEMORY = 14 * 10**9
HARMLESS = "let _control = {}_usize + 1;"
# What a proof file says where it names what an edit took away: that shows little of the meaning.
MISSING_NAME = re.compile(r"has no field|is not in scope|has no `|was not admitted")
TYPE = re.compile(r"^(?:pub(?:\([\w: ]+\))? )?(?:struct|enum|trait) (\w+)", re.M)
IMPL = re.compile(r"(?:unsafe )?(?:impl|(?:pub )?trait)\b(?:<.*?>)? (?:(\w+)(?:<(\w+).*>)? for )?&?(\w+)")
FUNCTION = re.compile(r"( *)(?:pub(?:\([\w: ]+\))? )?(?:unsafe )?fn (\w+)")


@dataclass(frozen=True)
class Function:
    """A function with a body: its file, its lines from 1 on, and how a check names it."""

    path: str
    name: str
    place: str
    first: int
    opening: int
    last: int
    cycle: str
    calls: frozenset
    promises: bool

    def is_round(self, path, rows):
        return path == self.path and self.opening < rows[0] and rows[-1] < self.last

    def proofs(self):
        """The folders that its proof may stand in: a cycle of calls has one, and so has a function that calls
        itself."""
        parents = self.place.split("::")[:-1]
        names = [self.cycle] if self.cycle else [self.name, f"+{self.name}"]
        return tuple("/".join(["proofs", *parents, it, ""]) for it in names)

    def is_told(self, head, what, said):
        """Whether a check tells something of a place in this function."""
        lines = re.findall(rf"^{head}(?:\./)?{re.escape(self.path)}:(\d+):\d+: {what}", said, re.M)
        return any(self.first <= int(it) <= self.last for it in lines)

    def is_unread(self, said):
        return self.is_told("", "error", said)

    def is_open(self, said):
        """Whether a check tells a goal of this function as open, or an error in its own proof."""
        if self.is_told("note: ", "it is not proved", said):
            return True
        for file, error in re.findall(r"^(?:\./)?(proofs/\S+?):\d+:\d+: error: (.*)", said, re.M):
            # the answers of a cycle stand in one file, each named after its function
            is_its_own = not self.cycle or error.startswith(f"`{self.name}-")
            if file.startswith(self.proofs()) and is_its_own and not MISSING_NAME.search(error):
                return True
        return False


def module_of(path):
    return [it for it in path.removeprefix("src/").removesuffix(".rt").split("/") if it not in ("lib", "main", "mod")]


def functions_in(path, text, homes):
    """The functions of a file in rt fmt's layout: a body opens and closes at the depth of its `fn`. A type's own method
    is named after the module of its type."""
    rows, owner, found = text.split("\n"), [], []
    for at, row in enumerate(rows):
        if impl := IMPL.match(row):
            # what is written for a trait stands where it is written, and a type of numbers has a great letter there
            home = module_of(path) if impl[1] else homes.get(impl[3], module_of(path))
            owner = [*home, impl[3][0].upper() + impl[3][1:] + (impl[1] or "") + (impl[2] or "")]
        head = FUNCTION.match(row)
        if not head:
            continue
        depth, name = head[1], head[2]
        is_end = (
            lambda it: it == depth + "{" or it.endswith(";") or it.endswith(" {") and re.match(rf"{depth}[^ }}]", it)
        )
        opening = next((i for i in range(at, len(rows)) if is_end(rows[i])), len(rows))
        last = next((i for i in range(opening, len(rows)) if rows[i] == depth + "}"), None)
        if last is None or rows[opening].endswith(";"):
            continue
        attributes = re.search(r"((?:^ *(?:#\[|///).*\n)*)\Z", "\n".join([*rows[:at], ""]), re.M)[1]
        cycle = re.search(r"#\[cycle\((\w+)\)\]", attributes)
        place = "::".join([*(owner if depth else module_of(path)), name])
        calls = frozenset(re.findall(r"(\w+)\(", "\n".join(rows[opening + 1 : last])))
        promises = any(it.strip().startswith("ensures") for it in rows[at:opening])
        found.append(
            Function(path, name, place, at + 1, opening + 1, last + 1, f"+{cycle[1]}" if cycle else "", calls, promises)
        )
    return found


def functions_of(crate):
    texts = {}
    for at, folders, files in os.walk(f"{crate.folder}/src"):
        folders.sort()
        for file in sorted(files):
            texts[os.path.relpath(f"{at}/{file}", crate.folder)] = rt.rtlib.text_of(f"{at}/{file}")
    homes = {name: module_of(path) for path, text in texts.items() for name in TYPE.findall(text)}
    return [it for path, text in texts.items() for it in functions_in(path, text, homes)]


class Group:
    """Edits of different functions, all made in one copy of a crate."""

    def __init__(self, crate, functions, room):
        self.crate, self.functions, self.room = crate, functions, room
        # by each edit's file the functions that it changes, and by each changed file its text
        self.edits, self.texts, self.said = {}, {}, ""
        for part in rt.rtlib.PARTS:
            if os.path.isdir(f"{crate.folder}/{part}"):
                shutil.copytree(f"{crate.folder}/{part}", f"{room}/{part}")

    def take(self, edit):
        """Makes an edit too, if it fits and changes bodies alone, of functions that no other edit changes, and a
        control is left."""
        texts, why = rt.read_edit(edit, self.room)
        if why:
            return
        changed = [self.function_round(path, text) for path, text in texts.items()]
        if None in changed or {*changed} & self.functions_changed():
            return
        self.edits[edit] = changed
        if not self.control():
            del self.edits[edit]
            return
        for path, text in texts.items():
            self.write(path, text)

    def functions_changed(self):
        return {it for where in self.edits.values() for it in where}

    def function_round(self, path, text):
        """The function whose body holds every line in which a file's text differs from the one here, or None."""
        old, new = self.text(path).split("\n"), text.split("\n")
        rows = [i + 1 for i, (a, b) in enumerate(zip(old, new)) if a != b]
        return next((it for it in self.functions if rows and it.is_round(path, rows)), None)

    def text(self, path):
        return rt.rtlib.text_of(f"{self.room}/{path}")

    def write(self, path, text):
        self.texts[path] = text
        with open(f"{self.room}/{path}", "w", encoding="utf-8") as file:
            file.write(text)

    def control(self):
        """The shortest function that calls none that is changed, by whatever steps, and has no proof by hand; with a
        contract, if there is one."""
        reached, before = {it.name for it in self.functions_changed()}, None
        while reached != before:
            before, reached = reached, reached | {it.name for it in self.functions if it.calls & reached}
        free = [
            it
            for it in self.functions
            if it.name not in reached and not any(os.path.isdir(f"{self.room}/{at}") for at in it.proofs())
        ]
        return min(free, key=lambda it: (not it.promises, it.last - it.opening, it.place), default=None)

    def check(self, kept, number):
        """Checks the functions that are changed and the control. Returns whether that control is proved; None where the
        check did not reach the prover."""
        control = self.control()
        rows = self.text(control.path).split("\n")
        rows[control.opening - 1] += f" {HARMLESS.format(number)}"
        self.write(control.path, "\n".join(rows))
        asked = sorted(it.place for it in {control, *self.functions_changed()})
        ran = rt.checked(self.crate, self.texts, [*ONE_JOB, *[word for it in asked for word in ("--only", it)]], kept)
        self.said = ran.stdout
        is_judged = ran.returncode in (0, 1) and re.search(r"^only=.*\n\Z", self.said, re.M)
        if (
            not is_judged
            or rt.rtlib.STALE.search(self.said)
            or any(rt.unread(it, self.texts) for it in self.said.split("\n"))
        ):
            return None
        return bool(re.search(rf"^fn {self.crate.name}::{re.escape(control.place)}: proved$", self.said, re.M))

    def edits_in(self, is_told):
        """The edits of whose functions the check has told something."""
        return [edit for edit, where in self.edits.items() if any(is_told(it, self.said) for it in where)]


def tried_alone(crate, edit, kept):
    """Whether an edit is refused in a check of its own, and what to say. What is not refused over kept work is tried
    again from nothing, as rt ci does."""
    kind, text = rt.must_fail(crate, edit, ONE_JOB, kept)
    if kind not in WELL:
        kind, text = rt.must_fail(crate, edit, ONE_JOB)
    return kind in WELL, text


def rounds_of(crate, functions, edits):
    """The edits of a crate in rounds: those of one can be made together, but for the last round, of edits that each
    need a check of their own."""
    rounds, left = [], edits
    while left:
        with tempfile.TemporaryDirectory(prefix="edits-") as room:
            group = Group(crate, functions, room)
            for it in left:
                group.take(it)
        rounds.append([*group.edits] or left)
        left = [it for it in left if it not in rounds[-1]]
    return rounds


def try_round(crate, functions, edits, kept, numbers):
    """Tries edits of a crate over the libraries built below it and over what earlier checks of it kept: pairs of
    whether one is refused, and what to say."""
    named = lambda it: f"must-fail {crate.name}/{os.path.basename(it)}"
    told, alone, most = [], [], len(edits)
    while edits:
        with tempfile.TemporaryDirectory(prefix="edits-") as room:
            group = Group(crate, functions, room)
            for it in edits:
                if len(group.edits) < most:
                    group.take(it)
            is_proved = group.check(kept, next(numbers)) if group.edits else None
        if is_proved is False:
            return [
                *told,
                (False, f"must-fail {crate.name}: THE CONTROL IS NOT PROVED, so nothing is known of its edits"),
            ]
        refused = group.edits_in(Function.is_open) if is_proved else []
        told += [(True, f"{named(it)}: refused, as it must be, in a group of {len(group.edits)}") for it in refused]
        if not refused:
            # what alone can settle: an edit that cannot be read, one that no group takes, and one that a group of its
            # own does not refuse
            settled = group.edits_in(Function.is_unread) if is_proved is None and group.edits else []
            settled = settled or ([*group.edits] or edits if len(group.edits) < 2 else [])
            alone += settled
            edits = [it for it in edits if it not in settled]
            most = most if settled else 1
        edits = [it for it in edits if it not in refused]
    return told + [tried_alone(crate, it, kept) for it in alone]


def try_edits(crate, tell):
    """What came of the edits of a crate, told as each round ends. Its rounds run one after the other, each over what
    those before it have proved, the first over what the crate's own checks have kept."""
    edits, strays = rt.edits_of(crate)
    told = [
        (
            False,
            f"must-fail {crate.name}/{os.path.basename(it)}: BAD EDIT: an edit stands right in must-fail/ and ends in .edit",
        )
        for it in strays
    ]
    tell(told)
    functions, numbers = functions_of(crate), itertools.count(1)
    with tempfile.TemporaryDirectory(prefix="edits-kept-") as kept:
        own = f"{crate.folder}/{rt.rtlib.KEPT[1]}"
        if os.path.isdir(own):
            shutil.copytree(own, kept, dirs_exist_ok=True)
        for edits_of_round in rounds_of(crate, functions, edits):
            of_round = try_round(crate, functions, edits_of_round, kept, numbers)
            tell(of_round)
            told += of_round
    return told


def side_by_side(crates, tell=lambda told: None):
    """What came of the edits of each crate, by its name. As many crates at a time as there are processors and
    memory."""
    rt.rtlib.guarded()
    call = lambda crate, given, jobs: try_edits(crate, tell)
    # a program's begin before the others, since what is searched for a wrong body there takes long, and much memory
    lines = lambda it: it.count(rb"\n") + (10**6 if it.is_program else 0)
    need = lambda it: max(rt.need(it), MOST_MEMORY) if it.is_program else rt.need(it)
    tasks = {(it.name, "edits"): ([], lines(it), need(it), functools.partial(call, it)) for it in crates}
    given = rt.in_lanes(tasks) if tasks else {}
    return {name: told for (name, _), told in given.items()}
