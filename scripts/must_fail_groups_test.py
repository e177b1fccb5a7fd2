#!/usr/bin/env python3
"""Tests the trier of must-fail edits over a crate of its own: each of the edits below comes out as it has to. And which
crates' edits CI tries: those that are not recorded, and of the others each at some commit, and few at any."""

import os
import sys
import tempfile
from unittest import mock

sys.dont_write_bytecode = True
import gate
import interfaces
import must_fail
import must_fail_groups as groups

CODE = """\
//! A light with levels.
#![tactic(auto)]

ghost use Rattle.std.specs.Prelude.{◌≡◌, ◌≤◌, ◌+◌, ℕ, IfSome};

const STEP: u8 = 1;

/// The brighter of two levels.
pub fn brighter(a: u8, b: u8) -> u8
    ensures first { a ≤ result }
    ensures second { b ≤ result }
{
    if a < b {
        return b;
    }
    a
}

/// One level more, or none above 100.
pub fn raised(level: u8) -> Option<u8>
    ensures { IfSome result (λ next. next ≡ level + 1) }
{
    if level < 100 {
        return Some(level + STEP);
    }
    None
}

/// A level as it is.
pub fn same(level: u8) -> u8
    ensures { result ≡ level }
{
    level
}

/// What has a level.
pub trait Lit {
    ghost lit: { Self → ℕ };

    /// The level.
    fn level(&self) -> u8
        ensures { result ≡ lit self.now };
}

impl Lit for u8 {
    ghost lit = { λ n. n };

    fn level(&self) -> u8 {
        *self
    }
}
"""
REFUSED = ("return b;", "return a;")
HARMLESS = ("if level < 100 {", "if 100 > level {")
OF_NUMBERS = ("*self", "1")
UNREAD = ("return b;", "return b b;")
STALE = ("return c;", "return a;")
OUTSIDE = ("const STEP: u8 = 1;", "const STEP: u8 = 2;")


def outcome(*edits):
    """What is told of edits of the crate, in their order."""
    with tempfile.TemporaryDirectory(prefix="edits-test-") as room:
        for folder in ("src", "must-fail"):
            os.makedirs(f"{room}/crates/light/{folder}")
        with open(f"{room}/crates.txt", "w", encoding="utf-8") as file:
            file.write("light:\n")
        with open(f"{room}/crates/light/src/lib.rt", "w", encoding="utf-8") as file:
            file.write(CODE)
        for at, (old, new) in enumerate(edits):
            with open(f"{room}/crates/light/must-fail/{at}.edit", "w", encoding="utf-8") as file:
                file.write(f"file: src/lib.rt\nold: {old}\nnew: {new}\n")
        [told] = groups.side_by_side(groups.rt.rtlib.crates_below(room)).values()
    return [(is_well, text) for is_well, text in sorted(told, key=lambda it: it[1])]


def draws():
    """What is wrong with the choice of crates in the tree that this runs in."""
    now = must_fail.sums(must_fail.release(), must_fail.rests())
    if len(chosen := gate.to_try(now, now, "")) != 1:
        yield f"where all edits are recorded, those of {', '.join(chosen)} are tried"
    for it in now.keys() - {name for commit in range(400) for name in gate.to_try(now, now, str(commit))}:
        yield f"{it} is tried at no commit of 400"
    for stale in (list(now)[:1], list(now)[1:]):
        if (chosen := gate.to_try(now, now | dict.fromkeys(stale, ""), "")) != stale:
            yield f"{', '.join(chosen)} are tried, where the edits of {', '.join(stale)} are not recorded"


def records():
    """What is wrong with the record, where two releases refused edits and a text changed between."""
    one, two, before, after = (
        "kit-1 logic 0a",
        "kit-2 logic 0a",
        {"lamp": ("a",), "light": ("b",)},
        {"lamp": ("a",), "light": ("c",)},
    )
    with tempfile.TemporaryDirectory(prefix="record-test-") as room:
        with mock.patch.object(must_fail, "RECORD", f"{room}/record.txt"):
            must_fail.record(one, before, ["lamp", "light"], ["lamp", "light"])
            must_fail.record(two, after, ["light"], ["lamp", "light"])
            for kit, wanted in [(one, ["lamp"]), (two, ["light"])]:
                if must_fail.recorded(kit) != {it: must_fail.sum_of(kit, *after[it]) for it in wanted}:
                    yield f"the record has {must_fail.recorded(kit)} of {kit}"


def comments():
    """What is wrong with what is taken for a comment."""
    for name, text, wanted in [
        ("a.rt", '//! Of a.\nfn f() { // of f\n\n    g("//", \'"\'); // "\n}\n', 'fn f() {\n    g("//", \'"\');\n}'),
        ("A.antt", "-- of a\na-b : A\n  -- of b\na-b = a --b\n", "a-b : A\na-b = a --b"),
        ("a.edit", "new: // a\n", "new: // a\n"),
    ]:
        if (left := must_fail.without_comments(name, text)) != wanted:
            yield f"{text!r} is {left!r} without comments"


def reads():
    """What is wrong with what is taken to be read by the checks above a crate."""

    def read(code, *others):
        return interfaces.read_above([("crates/light/src/lib.rt", must_fail.without_comments("lib.rt", code)), *others])

    private = "fn half(level: u8) -> u8 {\n    level / 2\n}\n\npub fn same"
    for is_read, old, new in [
        (False, *REFUSED),
        (False, *HARMLESS),
        (False, "pub fn same", private),
        (False, "pub fn same", "#[tactic(auto, using(crate::proofs::Levels::same))]\npub fn same"),
        (True, *OUTSIDE),
        (True, "{ result ≡ level }", "{ result ≤ level }"),
        (True, "pub fn same(level: u8)", "pub fn same(other: u8)"),
        (True, "pub fn same", f"pub {private}"),
        (True, "    None\n}", "None\n}"),
        (True, "pub fn raised", "pub struct Light {\n    level: u8,\n}\n\npub fn raised"),
    ]:
        if (read(CODE) != read(CODE.replace(old, new))) != is_read:
            yield f"{old!r} made {new!r} is read above a crate, or {'ought to be' if is_read else 'ought not'}"
    for is_read, name in [(False, "light/raised/Answers"), (True, "Levels"), (True, "light/Levels")]:
        if (read(CODE) != read(CODE, (f"crates/light/proofs/{name}.antt", "pub a : A"))) != is_read:
            yield f"proofs/{name}.antt is read above a crate, or {'ought to be' if is_read else 'ought not'}"


def faults():
    """What is wrong with the trier, with the choice and with the sums: nothing, if all is well."""
    found = [*draws(), *records(), *comments(), *reads()]

    def expect(what, told, *wanted):
        if len(told) != len(wanted) or any(a != b or words not in text for (a, text), (b, words) in zip(told, wanted)):
            found.append(f"{what}: {told}")

    both = outcome(REFUSED, HARMLESS)
    expect("a harmless edit beside one that is refused", both, (True, "in a group of 2"), (False, "NOT REFUSED"))
    expect("an edit of a method of numbers", outcome(OF_NUMBERS), (True, "in a group of 1"))
    expect("an edit that cannot be read", outcome(UNREAD), (False, "BAD EDIT"))
    expect("an edit whose text is gone", outcome(STALE), (False, "BAD EDIT"))
    expect("an edit outside of functions", outcome(OUTSIDE), (True, "refused, as it must be: "))
    with mock.patch.object(groups, "HARMLESS", "return {};"):
        expect("a control that is refused", outcome(REFUSED), (False, "THE CONTROL IS NOT PROVED"))
    return found


if __name__ == "__main__":
    told = faults()
    print(*told or ["ok"], sep="\n")
    sys.exit(1 if told else 0)
