#!/usr/bin/env python3
"""Answers the goals of a crate that a check closes by itself, but slowly.

    scripts/answer_goals.py CRATE [SECONDS]

At a goal that has no answer a check tries `search rules`, and where that fails much else, until `grind (arith,
common_steps)` or a lemma that the function names closes it. As an answer the same words often take a tenth of the time.

This checks the crate from nothing with one job, over libraries that are built (`rt lib` in the folders below), and
takes the functions whose goals took SECONDS (1) or more. It has a check list their goals, tries `search rules` at each,
and at those that are left what `Goals.terms` says. Then it checks these functions anew: where their goals take a sixth
less, and half a second, it writes the answers into the function's Answers.antt. It prints the seconds of each function
before and after. `rt check` then proves the crate.
"""

import collections
import itertools
import os
import re
import shutil
import subprocess
import sys

sys.dont_write_bytecode = True
from must_fail_groups import ONE_JOB, rt

RULES, STEPS = "search rules", "grind (arith, common_steps)"
COMMON, GRIND = "Rattle.std.proofs.Common", "Rattle.std.proofs.lemmas.Grind"
# where a check keeps its work, below the crate's folder
KEPT = "out/incremental"
# what a check offers: a goal and the parameters of its answer
OFFERED = re.compile(r"^ +pub (\S+) : goal\.\S+\n +\S+((?: [^\s=]+)*) = \?$", re.M)
OFFER = re.compile(r"(?:write|add these lines to) \./proofs/(\S+)/Answers\.antt")
REFUSED = re.compile(r"^(?:\./)?proofs/(\S+)/Answers\.antt:\d+:\d+: error: `([^`]+)`", re.M)
# an attribute of a function, and then its name
FUNCTION = r"(?:\s*(?:#\[[^\n]*\]|///[^\n]*)\n)*\s*(?:pub(?:\([\w: ]+\))? )?(?:unsafe )?fn (\w+)"
CYCLE = re.compile(r"#\[cycle\((\w+)\)\]" + FUNCTION)
TACTIC = re.compile(r"tactic\(auto((?:, (?:using|unfolding)\([^)]*\))*)\)\]")
NAMING = re.compile(r"#\[" + TACTIC.pattern + FUNCTION)


def write(path, text):
    """Makes a file have this text; without text there is no file."""
    if text:
        os.makedirs(os.path.dirname(path), exist_ok=True)
        with open(path, "w", encoding="utf-8") as file:
            file.write(text)
    elif os.path.isfile(path):
        os.remove(path)


def with_imports(text, wanted):
    """A file of answers that imports names of some modules: std's first, the goals last."""
    lines = text.split("\n") if text else []
    first = next((i for i, it in enumerate(lines) if not it.startswith("--")), len(lines))
    last = next((i for i in range(first, len(lines)) if not lines[i].startswith("use ")), len(lines))
    uses = lines[first:last]
    rank = lambda it: (
        it.endswith(" as goal"),
        not it.startswith("use Rattle.std."),
        not it.startswith(f"use {COMMON}."),
    )
    for module, names in wanted.items():
        at = next((i for i, it in enumerate(uses) if it.startswith(f"use {module}.{{") and " as " not in it), None)
        had = re.search(r"\{(.*)\}", uses[at])[1].split(", ") if at is not None else []
        line = f"use {module}.{{{', '.join(dict.fromkeys([*had, *names]))}}}"
        if at is None:
            at = next((i for i, it in enumerate(uses) if rank(it) > rank(line)), len(uses))
            uses.insert(at, "")
        uses[at] = line
    return "\n".join([*lines[:first], *uses, *lines[last:]])


class Goals:
    """The goals of a function that have no answer, and its file of answers."""

    def __init__(self, crate, function, offered, named):
        self.function, self.offered, self.named = function, offered, named
        self.crate, self.path = crate, f"proofs/{function.replace('.', '/')}/Answers.antt"
        self.was = rt.rtlib.text_of(self.path) or ""

    def imported(self, path):
        """The module and the name of `crate::proofs::Runs::lemma`."""
        *above, name = path.split("::")
        return ".".join(["Rattle", self.crate if above[0] == "crate" else above[0], *above[1:]]), name

    def terms(self):
        """What may close a goal: a tactic, the names that it needs, and those of the definitions that it opens."""
        lemmas, opened = (
            [
                self.imported(it.strip())
                for listed in re.findall(rf"{kind}\(([^)]*)\)", self.named)
                for it in listed.split(",")
            ]
            for kind in ("using", "unfolding")
        )
        own = f"grind (arith, {', '.join(name for _, name in lemmas)})"
        yield STEPS, [], []
        if lemmas:
            yield own, lemmas, []
        if opened:
            yield RULES, [], opened
            yield STEPS, [], opened
        if lemmas and opened:
            yield own, lemmas, opened

    def write(self, answers):
        """Writes the file with an answer to each of some goals, besides those that it had."""
        wanted = collections.defaultdict(list)
        for words, lemmas, opened in answers.values():
            wanted[COMMON].append("rules" if words == RULES else "arith")
            for module, name in [*lemmas, *opened, *[(GRIND, "common_steps")] * (words == STEPS)]:
                wanted[module].append(name)
        text = with_imports(self.was, wanted) if answers else self.was
        use = f"use Rattle.{self.crate}.proofs.{self.function}.Goals as goal"
        if answers and use not in text:
            text = f"{text}\n{use}\n"
        for goal, (words, _, opened) in answers.items():
            opens = f"unfolding {' '.join(name for _, name in opened)}\n" * bool(opened)
            text += f"\npub {goal} : goal.{goal}\n{opens}{goal}{self.offered[goal]} = {words}\n"
        write(self.path, text)


class Crate:
    """A crate, in whose folder this runs, and checks of it over what the ones before have kept."""

    def __init__(self, crate):
        self.crate, self.name, self.sources = crate, crate.name, {}
        for at, _, names in os.walk("src"):
            self.sources.update((f"{at}/{it}", rt.rtlib.text_of(f"{at}/{it}")) for it in names if it.endswith(".rt"))
        text = "\n".join(self.sources.values())
        # a cycle of calls is named by any of its functions
        self.members, self.functions = dict(CYCLE.findall(text)), {*re.findall(r"\bfn (\w+)", text)}
        self.named = {function: words for words, function in NAMING.findall(text)}

    def path(self, function):
        """How a check is asked for a function, by the folder of its proof."""
        *above, last = function.split(".")
        return "::".join([*above, self.members.get(last[1:], last[1:]) if last[0] == "+" else last])

    def check(self, *functions):
        """Checks some functions, or all. Returns what is said, and the seconds that the goals of each function took, by
        when the files that the check keeps were written, one after the other."""
        since = self.written()
        words = [rt.rtlib.RATTLE, "check", *self.crate.words(ONE_JOB), "--incremental", KEPT]
        words += [word for it in functions for word in ("--only", self.path(it))]
        ran = subprocess.run(
            words, stdin=subprocess.DEVNULL, capture_output=True, text=True, errors="replace", check=False
        )
        spent = collections.Counter()
        new = sorted((at, name) for name, at in self.written().items() if since.get(name) != at)
        for (before, _), (after, name) in itertools.pairwise(new):
            if found := self.of_goals(name):
                spent[found[1]] += after - before
        return ran.stdout + ran.stderr, spent

    def checked_anew(self, *functions):
        """The seconds that the goals of some functions take, of which nothing is kept."""
        for at, folders, names in os.walk(KEPT):
            for it in names:
                if (found := self.of_goals(it)) and found[1] in functions:
                    os.remove(f"{at}/{it}")
            if "records" in folders:
                shutil.rmtree(f"{at}/records")
        return self.check(*functions)[1]

    def of_goals(self, name):
        """Whether a file that is kept is of the goals of a function, which the match names."""
        return re.fullmatch(rf"Rattle-{self.name}-proofs\.(.+?)\.(?:Goals|Given|Lts\.View|Answers|Proof)\.oantt", name)

    def written(self):
        """When each file that checks keep was written."""
        kept = (f"{at}/{name}" for at, _, names in os.walk(KEPT) if not at.endswith("/records") for name in names)
        return {os.path.basename(it): os.stat(it).st_mtime for it in kept}

    def goals(self, functions):
        """The goals of some functions that have no answer, as a check lists them that may try no tactic."""
        for path, text in self.sources.items():
            write(path, TACTIC.sub("tactic(none)]", text))
        try:
            said, _ = self.check(*functions)
        finally:
            for path, text in self.sources.items():
                write(path, text)
        for block in re.split(r"^help: ", said, flags=re.M):
            offer = OFFER.match(block)
            function = offer and offer[1].replace("/", ".")
            if function in functions:
                named = self.named.get(self.path(function).split("::")[-1], "")
                yield Goals(self.name, function, dict(OFFERED.findall(block)), named)

    def refused(self, goals, answers):
        """Those of some answers to the goals of functions that a check refuses."""
        for it in goals:
            it.write(answers[it.function])
        said, _ = self.check(*(it.function for it in goals))
        return {(folder.replace("/", "."), goal) for folder, goal in REFUSED.findall(said)}

    def answers(self, goals):
        """What closes those of some goals that `search rules` leaves, where something does, by function."""
        found = collections.defaultdict(dict)
        left = self.refused(goals, {it.function: dict.fromkeys(it.offered, (RULES, [], [])) for it in goals})
        for turn in itertools.count():
            terms = {it.function: next(itertools.islice(it.terms(), turn, None), None) for it in goals}
            more = collections.defaultdict(dict)
            for function, goal in left:
                if terms[function]:
                    more[function][goal] = terms[function]
            if not more:
                return found
            left = self.refused(goals, {it.function: found[it.function] | more[it.function] for it in goals})
            for function, answers in more.items():
                found[function].update((it, term) for it, term in answers.items() if (function, it) not in left)


def main(name, least="1"):
    crate = next(it for it in rt.rtlib.crates_below(os.getcwd()) if it.name == name)
    os.chdir(crate.folder)
    shutil.rmtree(KEPT, ignore_errors=True)
    crate = Crate(crate)
    said, before = crate.check()
    if "\nlogic=proved " not in said:
        sys.exit(f"{name} is not proved")
    # what is derived, or let go, is no function of the source
    own = [it for it in before if crate.path(it).split("::")[-1] in crate.functions]
    goals = list(crate.goals([it for it in own if before[it] >= float(least)]))
    found = crate.answers(goals)
    for it in goals:
        it.write(found[it.function])
    goals = [it for it in goals if found[it.function]]
    after = crate.checked_anew(*(it.function for it in goals))
    for it in goals:
        then, now, many = before[it.function], after[it.function], len(found[it.function])
        is_faster = now < then * 5 / 6 and now < then - 0.5
        it.write(found[it.function] if is_faster else {})
        print(f"{it.function} {then:.1f} {f'{now:.1f}, {many} answers' if is_faster else 'as before'}")


if __name__ == "__main__":
    if len(sys.argv) < 2:
        sys.exit(__doc__)
    main(*sys.argv[1:])
