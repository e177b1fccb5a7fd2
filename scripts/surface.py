#!/usr/bin/env python3
"""The public calls of the crates that hold code, beside docs/SURFACE.md.

    scripts/surface.py [draft]

Without a word it prints where the page and the crates differ, as `scripts/check.py` does. With `draft` it writes the
tables of the page anew: a call that is there keeps its words, also where its signature has changed; a new one gets the
first sentence of its doc comment; one that is gone goes. All else on the page stays. A call whose contract has a
condition has to name it, behind the word `Condition:`, which a draft leaves to be written.

What a crate shows is what its lib.rt names as `pub`: its own items, and those of `pub use` and of `pub mod`; of a
program, each `pub` item of its modules. Besides functions, methods, traits, types and constants it has which types have
the traits of these crates. The text of a crate is read by the layout that `rt fmt` gives it: an item begins in the
first column, and a member of one four columns further in.
"""

import functools
import os
import re
import sys
from dataclasses import dataclass

sys.dont_write_bytecode = True
TOP = os.path.dirname(os.path.dirname(os.path.abspath(__file__)))
PAGE = "docs/SURFACE.md"
TABLE = "| call | what it promises |\n|---|---|\n"
CONDITION = "Condition: "
ROW = re.compile(r"\| `(.+?)` \| (.*) \|")
PUBLIC = re.compile(r"^pub (const|fn|struct|enum|trait) (\w+)", re.M)
IMPL = re.compile(r"^impl(?:<(.*?)>)? (?:(\w+)(?:<[^{]*?>)? for )?(\w+)(?:<[^{]*?>)?(?:\s+where[^{]*)? \{", re.M)
USE = re.compile(r"^pub use ([\w:]+?)(?:::\{([^}]*)\})?;", re.M)


@dataclass
class Call:
    """A row of the page: the path of what is called, its signature, the first sentence of its doc comment, and whether
    its contract has a condition."""

    path: str
    text: str
    words: str
    is_bound: bool = False


def read(path):
    """The text of a file, by its path below TOP."""
    with open(f"{TOP}/{path}", encoding="utf-8") as file:
        return file.read()


@functools.cache
def source(crate, module):
    """The text of a module of a crate, by its path below src; empty where there is none."""
    path = f"crates/{crate}/src/{module}.rt"
    return read(path) if os.path.isfile(f"{TOP}/{path}") else ""


@functools.cache
def modules(crate):
    """The paths of all modules of a crate below src."""
    top = f"{TOP}/crates/{crate}/src"
    return sorted(
        os.path.relpath(f"{at}/{it}", top)[:-3] for at, _, files in os.walk(top) for it in files if it.endswith(".rt")
    )


def dependencies(top=TOP):
    """What each crate of a tree stands on, by its line in crates.txt."""
    with open(f"{top}/crates.txt", encoding="utf-8") as file:
        lines = [line.partition("#")[0].partition(":") for line in file]
    return {head.split()[0]: deps.split() for head, colon, deps in lines if colon}


def crates():
    """The crates of crates.txt that hold code: those that have definitions."""
    return [name for name in dependencies() if os.path.isdir(f"{TOP}/crates/{name}/specs")]


def doc_of(text, at):
    """The first sentence of the doc comment above a place, or nothing."""
    found = []
    for line in reversed(text[:at].splitlines()):
        bare = line.strip()
        if bare.startswith("///"):
            found.insert(0, bare[3:].strip())
        elif not re.match(r"(#\[|\)\]|#!\[)", bare):
            break
    first = " ".join(found).split("  ")[0]
    return re.split(r"(?<=\.) (?=[A-Z`(])", first)[0]


def up_to(text, at, ends):
    """From a place to the first of some ends that stands outside of brackets."""
    depth = 0
    for end in range(at, len(text)):
        if depth == 0 and re.match(ends, text[end:]):
            return text[at:end]
        depth += (text[end] in "([{") - (text[end] in ")]}")
    return text[at:]


def tidy(text):
    """A piece of code on one line, without comments, attributes and a last comma."""
    text = re.sub(r"^\s*(//.*|#\[.*\])$", "", text, flags=re.M)
    text = re.sub(r"\s+", " ", text).strip()
    return re.sub(r",? ?([)\]])", r"\1", re.sub(r"([(\[]) ", r"\1", re.sub(r", \}", " }", text)))


def signature(text, at):
    """A function, or what a trait's or an impl's head says, without the names' own `mut`."""
    return re.sub(r"(\(|, )mut ", r"\1", tidy(up_to(text, at, r"\s+(requires|ensures|where)\b|\s*\{|;")))


def is_bound(text, at):
    """Whether the clauses of a function, between its signature and its body, have a condition."""
    rest = text[at + len(up_to(text, at, r"\s+(requires|ensures|where)\b|\s*\{|;")) :]
    clauses = re.split(r"^\s*\{$|;$", rest, maxsplit=1, flags=re.M)[0]
    return not re.match(r"\s*[{;]", rest) and bool(re.search(r"^\s+requires\b", clauses, re.M))


def function(text, at, path, words):
    return Call(path, signature(text, at), words, is_bound(text, at))


def split(fields):
    """The fields of a struct, apart."""
    fields, found, depth = re.sub(r"^\s*(//.*|#\[.*\])$", "", fields, flags=re.M), [""], 0
    for it in fields:
        depth += (it in "([{<") - (it in ")]}>")
        if it == "," and depth == 0:
            found.append("")
        else:
            found[-1] += it
    return [tidy(it) for it in found if tidy(it)]


def shape(text, at):
    """A type as others see it: its variants, or its public fields."""
    head = up_to(text, at, r"\s*[;{]|\(")
    body = text[at + len(head) :].lstrip()
    if not body.startswith("{"):
        return tidy(up_to(text, at, r";"))
    fields = up_to(body[1:], 0, r"\}")
    if head.startswith("enum"):
        return f"{tidy(head)} {{ {tidy(fields).removesuffix(',')} }}"
    listed = [it for it in split(fields) if not re.match(r"(pub )?ghost ", it)]
    seen = [it.removeprefix("pub ") for it in listed if it.startswith("pub ")]
    hidden = [".."] * (len(seen) < len(listed))
    return f"{tidy(head)} {{ {', '.join(seen + hidden)} }}"


def members(text, start, begin):
    """The functions of a block from its begin on: name, place."""
    end = text.index("\n}", start)
    for it in re.finditer(rf"^    {begin}(?:const )?fn (\w+)", text[start:end], re.M):
        yield it[1], start + it.start() + 4


def item_calls(text, it, path):
    """What an item shows by itself: a trait with its functions, a type, a function or a constant."""
    kind, at = it[1], it.start() + 4
    words = doc_of(text, it.start())
    if kind == "fn":
        yield function(text, at, path, words)
    elif kind == "const":
        yield Call(path, tidy(up_to(text, at, ";")), words)
    elif kind == "trait":
        yield Call(path, signature(text, at), words)
        for name, place in members(text, it.start(), ""):
            yield function(text, place, f"{path}::{name}", doc_of(text, place - 4))
    else:
        yield Call(path, shape(text, at), words)


def method_calls(crate, owner, path, traits):
    """The public methods of a type, in whichever file they stand, and its traits of these crates."""
    for module in modules(crate):
        text = source(crate, module)
        for it in IMPL.finditer(text):
            if it[3] != owner:
                continue
            if it[2] in traits:
                header = tidy(it[0].rstrip(" {"))
                yield Call(f"{path} as {it[2]}", header, doc_of(text, it.start()) or f"As `{it[2]}` says.")
            elif not it[2]:
                for name, place in members(text, it.start(), "pub "):
                    yield function(text, place + 4, f"{path}::{name}", doc_of(text, place - 4))


def shown(crate, module, path, names, traits):
    """What a module shows of some names, or of all."""
    text = source(crate, module)
    for it in PUBLIC.finditer(text):
        if names is None or it[2] in names:
            yield from item_calls(text, it, path + it[2])
            if it[1] in ("struct", "enum"):
                yield from method_calls(crate, it[2], path + it[2], traits)
    for inner, listed_names in used(text):
        asked = set(listed_names) if names is None else set(listed_names) & set(names)
        if module != "lib" and asked:
            yield from shown(crate, f"{module}/{inner}", path, asked, traits)


def used(text):
    """Of each `pub use` its module and its names."""
    for it in USE.finditer(text):
        if it[2] is None:
            module, _, name = it[1].rpartition("::")
            yield module, [name]
        else:
            yield it[1], [name.strip() for name in it[2].split(",") if name.strip()]


@functools.cache
def own_traits():
    """The traits that the crates show."""
    found = set()
    for crate in crates():
        root = source(crate, "lib")
        found |= set(re.findall(r"^pub trait (\w+)", root, re.M))
        for module, names in used(root):
            found |= set(re.findall(r"^pub trait (\w+)", source(crate, module), re.M)) & set(names)
    return frozenset(found)


def surface(crate):
    """All that a crate shows, in the order of its files."""
    traits, root = own_traits(), source(crate, "lib")
    if not root:
        for module in re.findall(r"^mod (\w+);", source(crate, "main"), re.M):
            if module != "tests":
                yield from shown(crate, module, "", None, traits)
        return
    yield from shown(crate, "lib", "", None, traits)
    for it in re.finditer(r"^impl<(\w+): (\w+)> (\w+) for \1 \{", root, re.M):
        if it[3] in traits:
            yield Call(f"{it[3]} for {it[2]}", tidy(it[0].rstrip(" {")), f"As `{it[3]}` says.")
    rooted = set()
    for module, names in used(root):
        rooted |= set(names)
        there = list(shown(crate, module, "", names, traits))
        yield from there
        # of another crate, or written in a way that is not known here
        rest = set(names) - {it.path for it in there}
        yield from (Call(name, f"use {module}::{name}", f"As in `{module}`.") for name in sorted(rest))
    for module in re.findall(r"^pub mod (\w+);", root, re.M):
        rest = {it[2] for it in PUBLIC.finditer(source(crate, module))} - rooted
        yield from shown(crate, module, f"{module}::", rest, traits)


def cell(call):
    """A call as the page has it: a function by its path, all else by its text."""
    text = call.text
    if re.match(r"(const )?fn ", text):
        text = call.path + re.sub(r"^(const )?fn \w+", "", text)
    elif "::" in call.path:
        text = re.sub(r"^(\w+) \w+", rf"\1 {call.path}", text)
    return text.replace("|", "\\|")


def listed(page):
    """The rows of each crate's section of the page: what is called, and its words."""
    found = {}
    for part in re.split(r"^## ", page, flags=re.M)[1:]:
        name = part.split("\n")[0].strip("` ")
        found[name] = [(it[1], it[2]) for it in map(ROW.fullmatch, part.splitlines()) if it]
    return found


def known(text):
    """What a row is about, without its signature: by this a call is found again whose signature has changed."""
    if text.startswith("impl"):
        return re.sub(r"<.*?>", "", text)
    item = re.match(r"(?:struct|enum|trait|const|use) [\w:]+", text)
    return item[0] if item else re.split(r"[(<]", text)[0]


def crate_faults(crate, rows):
    """Where the rows of a crate's section and the crate differ."""
    there, told = {cell(it): it for it in surface(crate)}, dict(rows)
    names = [text for text, _ in rows]
    bound = {it: CONDITION in words for it, words in rows if it in there}
    return [
        *(f"docs/SURFACE.md lacks, of {crate}: {it}" for it in there if it not in told),
        *(f"docs/SURFACE.md has, of {crate}, what it does not show: {it}" for it in told if it not in there),
        *(f"docs/SURFACE.md has twice, of {crate}: {it}" for it in told if names.count(it) > 1),
        *(f"docs/SURFACE.md says nothing, of {crate}, of: {it}" for it, words in rows if not words),
        *(
            f"docs/SURFACE.md names no condition, of {crate}, of: {it}"
            for it in bound
            if there[it].is_bound > bound[it]
        ),
        *(f"docs/SURFACE.md names a condition, of {crate}, of: {it}" for it in bound if there[it].is_bound < bound[it]),
    ]


def faults():
    """Where the page and the crates differ."""
    rows = listed(read(PAGE))
    stray = [it for it in rows if it not in crates()]
    return [it for crate in crates() for it in crate_faults(crate, rows.get(crate, []))] + [
        f"docs/SURFACE.md has a section of {it}, which is no crate that holds code" for it in stray
    ]


def drafted(page):
    """The page with its tables written anew. A crate that has no section gets one at the end."""
    rows = listed(page)
    for crate in crates():
        words = {known(text): it for text, it in rows.get(crate, [])}
        table = [f"| `{cell(it)}` | {words.get(known(cell(it))) or it.words} |" for it in surface(crate)]
        if crate not in rows:
            page = f"{page.rstrip()}\n\n## `{crate}`\n\n{TABLE}"
        begin = page.index(TABLE, page.index(f"## `{crate}`\n")) + len(TABLE)
        end = re.compile(r"^(?!\|)", re.M).search(page, begin).start()
        page = page[:begin] + "".join(f"{it}\n" for it in table) + page[end:]
    return page


def main(*words):
    if words == ("draft",):
        page = drafted(read(PAGE))
        with open(f"{TOP}/{PAGE}", "w", encoding="utf-8") as file:
            file.write(page)
    elif words:
        sys.exit(__doc__)
    found = faults()
    print(*found, sep="\n", end="\n" if found else "")
    return 1 if found else 0


if __name__ == "__main__":
    sys.exit(main(*sys.argv[1:]))
