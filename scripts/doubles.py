"""The functions, the definitions and the enums of a text, each with a shape by which it is found again under other
names.

In a shape numbers stand for the names of variables, in the order in which they come, and `itself` for the name of what
is defined; the names of what is called stay. The shape of a function is the types of its parameters, its result, where
one type of numbers is as good as another, and its body; a long body is a shape alone too, with numbers also for the
names of fields and types. A definition's shape is its whole text, an enum's its variants. What is shorter than a short
sentence has no shape: it is the same in many places and says nothing.
"""

import re

from surface import IMPL, split

LEAST_BODY, LEAST_ALONE, LEAST_DEFINITION = 10, 40, 10
# A function, a definition behind whether others see it, and an enum, as `rt fmt` lays them out.
FUNCTION = re.compile(
    r"^( *)(?:pub(?:\([a-z]+\))? )?(?:const )?fn (?P<name>\w+)(?P<head>(?:(?!;\n).)*?)(?:^\1|(?<=.))\{\n(?P<body>.*?)^\1\}",
    re.M | re.S,
)
DEFINITION = re.compile(r"^(?!use |pub mod )(?:abbrev |unfoldable )?(?:pub )?(?P<text>\S.*\n(?:.+\n)*)", re.M)
ENUM = re.compile(r"^( *)(?:pub(?:\([a-z]+\))? )?enum (?P<name>\w+)[^{\n]*\{\n(?P<variants>.*?)^\1\}", re.M | re.S)
CLAUSES = re.compile(r"\n\s*(?:requires|ensures|where)\b")
RECEIVER = re.compile(r"\((&(?:'\w+ )?(?:mut )?)?(?:mut )?self(?=[,)])")
LAST_COMMA = re.compile(r",(?=\s*[)\]}])")
RESULT = re.compile(r"-> [ui](?:16|32|64|128|size)$")
TOKEN = re.compile(r"""b?"(?:[^"\\]|\\.)*"|b?'(?:[^'\\]|\\.)'|'?\w+|::|[=-]>|&&|\.\.=?|\S""")
WORD = re.compile(r"[^\W\d]\w*")
BINDERS = re.compile(r"λ ([^.:)]*)|\(((?:\w+ )+): ")
NUMBERED = {"variable"}
ALONE = {"variable", "field", "type"}
KEPT = set(
    "as bool break const continue else false fn for if impl in let loop match mod move mut pub ref return str true unsafe use"
    " where while _ u8 u16 u32 u64 u128 usize i8 i16 i32 i64 i128 isize Ok Err Some None".split()
)


def told(own, text):
    """The tokens of code, each with what it is: the name of a variable, of a field or of a type, or nothing of these. A
    field whose value is the variable of its name is written out."""
    found, braces, before = [], [], ""
    tokens = TOKEN.findall(text)
    for it, after in zip(tokens, tokens[1:] + [""]):
        if it in "([{":
            braces.append(it == "{" and before[:1].isupper())
        elif it in ")]}" and braces:
            braces.pop()
        begins = before in ("{", ",") and braces[-1:] == [True]
        if it in KEPT or not WORD.fullmatch(it):
            found.append(("", it))
        elif it == own and after == "(" and before != ".":
            found.append(("", "itself"))
        elif after in ("(", "!") or "::" in (before, after):
            found.append(("", it))
        elif it[0].isupper():
            found.append(("type", it))
        elif before == "." or begins and after == ":":
            found.append(("field", it))
        elif begins and after in (",", "}"):
            found += [("field", it), ("", ":"), ("variable", it)]
        else:
            found.append(("variable", it))
        before = it
    return found


def shape(tokens, kinds):
    """Tokens in turn, with numbers for the names of some kinds."""
    numbers = {}
    return " ".join(
        f"{kind} {numbers.setdefault((kind, it), len(numbers))}" if kind in kinds else it for kind, it in tokens
    )


def owned(text, owner):
    """Code with its receiver as any parameter, the type by its name, and no last commas."""
    text = RECEIVER.sub(lambda it: f"(self: {it[1] or ''}{owner}", LAST_COMMA.sub("", text))
    return text.replace("Self", owner)


def functions(text):
    """Of each function its name, its place and its shapes."""
    owners = [(it.start(), it[3]) for it in IMPL.finditer(text)]
    for it in FUNCTION.finditer(text):
        owner = next((name for at, name in reversed(owners) if it[1] and at < it.start()), "Self")
        head = RESULT.sub("-> Number", owned(CLAUSES.split(it["head"])[0], owner).strip())
        body = told(it["name"], owned(it["body"], owner))
        if len(body) >= LEAST_BODY:
            yield it["name"], it.start(), ("a function", shape(told(it["name"], head) + body, NUMBERED))
        if len(body) >= LEAST_ALONE:
            yield it["name"], it.start(), ("a body", shape(body, ALONE))


def variables(name, text):
    """The variables of a definition: what its equations and binders name."""
    found = {word for it in BINDERS.findall(text) for word in WORD.findall(" ".join(it))}
    for line in text.splitlines():
        head, equals, _ = f"{line} ".partition(" = ")
        if equals and head.startswith(f"{name} "):
            found |= set(WORD.findall(head))
    return {it for it in found if not it[0].isupper()}


def definitions(text):
    """Of each definition its name, its place and its shape."""
    for it in DEFINITION.finditer(text):
        words = it["text"].removeprefix("record ").removeprefix("pub ")
        if name := WORD.match(words):
            own = variables(name[0], words)
            tokens = [
                ("", "itself") if word == name[0] else ("variable" if word in own else "", word)
                for word in TOKEN.findall(words)
            ]
            if len(tokens) >= LEAST_DEFINITION:
                yield name[0], it.start(), ("a definition", shape(tokens, NUMBERED))


def enums(text):
    """Of each enum of more than one variant its name, its place and its variants."""
    for it in ENUM.finditer(text):
        found = split(it["variants"])
        if len(found) > 1:
            yield it["name"], it.start(), ("an enum", tuple(sorted(found)))
