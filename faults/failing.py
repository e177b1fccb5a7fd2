#!/usr/bin/env python3
"""The built program on a file where one call of the system fails, or one growth of memory, each in turn.

    faults/failing.py PROGRAM [WORD..]

Over a small file the program is asked a script of messages: without a fault, and then once for each call and each fault
of it, by the library of shim.c, which is loaded before the program. Words choose what is tried: `disk`, the calls on
the file (EIO, ENOSPC, EINTR, half of the bytes moved, none, half and then EIO; from one call on half or EIO); `lies`,
reads that give other bytes; `memory`, growths, one and forty in a row; `stream`, reads and writes of the connection;
without one of these all are tried. `long` takes a script of 64 messages in place of one of ten, `plain` that of ten
without its write between the steps of a job, `empty` an empty store in memory in place of the file (for `memory`
alone). Numbers N and M take every Nth growth from the Mth on, all where they are left out.

Each reply has to be that of oracle/machine.py, or 91 (90 for growths) and that one where the message is sent again.
Where the opening is refused, the file opens again afterwards, unless the header was being written; where the close is,
that is told; where it is not, the file holds the store. A failed read or write of the connection ends it, and the store
holds what was answered. An interrupted read or write is made again, so that all replies come; where each call from one
on is interrupted, the connection ends as by any fault. One growth alone that is refused at the close loses nothing,
since the close is made once more, without the jobs and what is kept. Prints counts and what was wrong, and ends with
status 1 where something was, or where the library cannot be loaded.
"""

import collections
import os
import re
import sys
import tempfile

sys.dont_write_bytecode = True
sys.path.append(os.path.join(os.path.dirname(os.path.dirname(os.path.abspath(__file__))), "oracle"))

import scripts
import shim
import store
from files import content_of
from language import Refused
from machine import Machine, served
from meaning import Coverage
from sessions import units_in
from shim import ALL, EINTR, EIO, ENOSPC, HALF, HALF_THEN_EIO, INVERTED, NOTHING, ONE

# what becomes of calls on the file, and of how many
KINDS = {
    "EIO": (EIO, 1),
    "ENOSPC": (ENOSPC, 1),
    "EINTR": (EINTR, 1),
    "half moved": (HALF, 1),
    "nothing moved": (NOTHING, 1),
    "half, then EIO": (HALF_THEN_EIO, 2),
    "half moved from then on": (HALF, ALL),
    "EIO from then on": (EIO, ALL),
}
NAMES = {90: b"NoMemory", 91: b"DiskFault"}
SCRIPTS = {"long": scripts.LONG, "plain": scripts.PLAIN}


def number_in(reply):
    """The number of a device's refusal, or nothing."""
    found = re.search(rb"\r\n\r\nrefused (9[0-3]) \w+\n$", reply)
    return int(found[1]) if found else None


def shown(found):
    """Names, signatures and cells of a machine's store."""
    return [(name, it.axes, it.fields, [list(cells) for cells in it.cells]) for name, it in found.items()]


def held(file):
    """The coverages that a file holds."""
    return {
        name: Coverage(it.axes, it.fields, [store.all_cells(it, k) for k in range(len(it.fields))])
        for name, it in store.read(file).items()
    }


def shown_by(file):
    """What a file holds, or the number of its refusal."""
    try:
        return shown(held(file))
    except Refused as refusal:
        return refusal.number


class Trials:
    """A script over a file, what it gives without a fault, and what came with one."""

    def __init__(self, program, made, folder, words):
        self.program, self.made, self.in_memory = program, made, "empty" in words
        self.messages = next((it for word, it in SCRIPTS.items() if word in words), scripts.SHORT)
        self.each, self.least = ([int(it) for it in words if it.isdigit()] + [1, 1])[:2]
        self.path, self.log = ("-" if self.in_memory else f"{folder}/store"), f"{folder}/log"
        self.counts, self.wrong = collections.Counter(), 0
        self.first = b"" if self.in_memory else scripts.lai()
        self.start()
        run = shim.Run(program, self.path, shim.environment(made, log=self.log))
        self.replies = [run.ask(it) for it in self.messages]
        if run.end() != (0, "") or not all(self.replies):
            sys.exit("the script does not run without a fault")
        self.calls, self.numbers = shim.calls(self.log)
        self.before, self.after = shown_by(self.first), shown_by(self.content())

    def start(self):
        if not self.in_memory:
            with open(self.path, "wb") as file:
                file.write(self.first)
        if os.path.exists(self.log):
            os.remove(self.log)

    def content(self):
        return b"" if self.in_memory else content_of(self.path)

    def fails(self, what, told):
        self.wrong += 1
        print(f"WRONG: {what}: {told}", flush=True)

    def machine(self):
        machine = Machine(units_in(b"".join(self.replies)))
        machine.store = held(self.first)
        return machine

    def replies_under(self, what, run, allowed, faults, again):
        """Asks the script, and a message again as often where a device's refusal came; one that stays refused has
        changed nothing. There are no more of them than faults. What the store is to hold then, or nothing where the run
        did not begin."""
        machine, came = self.machine(), 0
        for k, message in enumerate(self.messages):
            replies = [run.ask(message)]
            while number_in(replies[-1]) in allowed and len(replies) <= again:
                replies.append(run.ask(message))
            if k == 0 and not replies[-1]:
                return None
            refused = [number_in(it) for it in replies if number_in(it) in allowed]
            self.counts.update(f"replies {it}" for it in refused)
            came += len(refused)
            if not again and refused:
                continue
            wanted = served(machine, message)
            if replies[-1] != wanted:
                self.fails(what, f"message {k + 1}, {replies[-1][-60:]} and not {wanted[-60:]}")
        if came > faults:
            self.fails(what, f"{came} replies for {faults} faults")
        return shown(machine.store)

    def tried(self, what, on, first, how, count=1, allowed=(91,), again=1):
        """One run with a fault."""
        self.start()
        run = shim.Run(self.program, self.path, shim.environment(self.made, on, first, how, count))
        after = self.replies_under(what, run, allowed, count, again)
        status, told = run.end()
        self.counts["runs"] += 1
        if after is None:
            return self.not_opened(what, status, told, allowed)
        if status == 0 and not told:
            if not self.in_memory and shown_by(self.content()) != after:
                self.fails(what, "the file that was closed holds another store")
            return
        if status != 4 or told not in [f"not closed: {it} {NAMES[it].decode()}" for it in allowed]:
            return self.fails(what, f"status {status}, {told}")
        self.counts[told] += 1
        if on == "memory" and count == 1 and told == "not closed: 90 NoMemory":
            self.fails(what, "one growth that was refused lost the session")
        if not self.in_memory:
            self.left_by(what, shown_by(self.content()), after)

    def left_by(self, what, left, after):
        """A file whose header was not written, or not told to be: it is refused, or holds the store."""
        self.counts[f"after it {left if isinstance(left, int) else 'the store is there'}"] += 1
        if not isinstance(left, int) and left not in (self.before, after):
            self.fails(what, "the file holds another store")

    def not_opened(self, what, status, told, allowed):
        if status != 3 or told not in [f"not opened: {it} {NAMES[it].decode()}" for it in allowed]:
            return self.fails(what, f"status {status}, {told}")
        self.counts[told] += 1
        content = self.content()
        if content == self.first:
            self.opens_again(what)
        elif content[4096:] != self.first[4096:] or 91 not in allowed:
            self.fails(what, "more than the header has changed")
        else:
            self.left_by(what, shown_by(content), self.before)

    def opens_again(self, what):
        run = shim.Run(self.program, self.path, None)
        replies = [run.ask(it) for it in self.messages]
        self.counts["opened again"] += 1
        if run.end() != (0, "") or replies != self.replies or shown_by(self.content()) != self.after:
            self.fails(what, "the file does not open again as it was")

    def disk(self):
        for name, (how, count) in KINDS.items():
            for k in range(1, self.numbers["disk"] + 1):
                what = f"{name} at call {k}, {self.calls[k - 1][0]}"
                self.tried(what, "disk", k, how, count, again=0 if (how, count) == (EIO, ALL) else 1)
        for told in ("not opened: 91 DiskFault", "not closed: 91 DiskFault"):
            if not self.counts[told]:
                self.fails("all of these", f"never told: {told}")

    def lies(self):
        """Reads that give other bytes: the first is that of the header, and behind every other the whole script
        returns."""
        reads = [k for k, call in enumerate(self.calls, 1) if call[0] == "pread"]
        for k in reads:
            self.start()
            run = shim.Run(self.program, self.path, shim.environment(self.made, "disk", k, INVERTED))
            replies = [run.ask(it) for it in self.messages]
            status, told = run.end()
            self.counts["runs"] += 1
            self.counts[told or "closed"] += 1
            refused = (3, "not opened: 94 NotAStore" if k == reads[0] else "not opened: 93 Damaged")
            if (status, told) != refused and (k == reads[0] or status not in (0, 4) or not all(replies)):
                self.fails(f"read {k} inverted", f"status {status}, {told}, {replies}")

    def memory(self):
        allowed = (90, 91) if self.in_memory else (90,)
        for count in (1, 40):
            for n in range(self.least, self.numbers["memory"] + 1, self.each):
                self.tried(f"growths {n} to {n + count - 1} refused", "memory", n, EIO, count, allowed, again=count + 1)
        if not any(self.counts[f"replies {number}"] for number in allowed):
            self.fails("all of these", "no growth was refused")

    def stream(self):
        """A connection that moves its bytes by halves or one by one is served as ever; one whose call fails ends, after
        what was answered."""
        self.tried("halves of the connection's bytes", "stream", 1, HALF, ALL)
        self.tried("single bytes of the connection", "stream", 1, ONE, ALL)
        machine = self.machine()
        states = [shown(machine.store)]
        for message in self.messages:
            served(machine, message)
            states.append(shown(machine.store))
        kinds = [
            ("EIO", EIO, 1),
            ("EINTR", EINTR, 1),
            ("EINTR from then on", EINTR, ALL),
            ("nothing moved", NOTHING, 1),
        ]
        for name, how, count in kinds:
            for k in range(1, self.numbers["stream"] + 1):
                self.start()
                run = shim.Run(self.program, self.path, shim.environment(self.made, "stream", k, how, count))
                out, wanted = b"".join(run.ask(it) for it in self.messages), b"".join(self.replies)
                self.counts["runs"] += 1
                what = f"{name} at call {k} of the connection"
                if run.end() != (0, "") or not wanted.startswith(out):
                    self.fails(what, "other replies, or not closed")
                # the request whose reply was being written has been done
                done = next(n for n in range(len(states)) if len(out) <= len(b"".join(self.replies[:n])))
                if shown_by(self.content()) not in states[done : done + 2]:
                    self.fails(what, "the store does not hold what was answered")
                if (how, count) == (EINTR, 1) and out != wanted:
                    self.fails(what, "an interrupted call ended the connection")
                if count == ALL and out == wanted:
                    self.counts["all replies before the faults"] += 1


def main(program, *words):
    program = os.path.abspath(program)
    parts, wrong = ["disk", "lies", "memory", "stream"], 0
    if unknown := [it for it in words if not it.isdigit() and it not in [*parts, "long", "plain", "empty"]]:
        sys.exit(f"nothing is called {', '.join(unknown)}\n{__doc__}")
    with shim.library(program) as made, tempfile.TemporaryDirectory() as folder:
        for name in [it for it in parts if it in words] or parts:
            trials = Trials(program, made, folder, words)
            getattr(trials, name)()
            if not trials.counts["runs"]:
                trials.fails(name, "nothing was tried")
            told = ", ".join(f"{what}: {times}" for what, times in sorted(trials.counts.items()))
            print(f"{name}: {told}; wrong: {trials.wrong}", flush=True)
            wrong += trials.wrong
    return 1 if wrong else 0


if __name__ == "__main__":
    if len(sys.argv) < 2:
        sys.exit(__doc__)
    sys.exit(main(*sys.argv[1:]))
