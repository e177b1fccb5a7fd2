"""Queries by chance, over the coverages of a store."""

from mutants import Chance

AXES, NAMES = ["x", "y", "t", "k", "m", "n"], ["lai", "hill", "g", "z", "a_1"]


class Texts(Chance):
    """Makes queries, mostly such as types accept."""

    def __init__(self, chance, store):
        super().__init__(chance)
        self.store, self.fresh = store, 0

    def name(self):
        known = list(self.store)
        return self.chance.choice(known) if known and not self.one_in(30) else self.chance.choice(NAMES)

    def query(self):
        binds = []
        self.variables = {}
        for variable in self.chance.sample(["c", "d", "$e"], self.chance.choice([1, 1, 1, 2, 3])):
            names = [self.name() for _ in range(self.chance.choice([1, 1, 1, 2, 3]))]
            self.variables[variable] = self.store.get(names[0])
            binds.append(f"{variable} in ({', '.join(names)})")
        self.iterators = []
        where = f" where {self.scalar('bool', 2)}" if self.one_in(4) else ""
        axes = self.box() if self.one_in(2) else []
        if self.one_in(3) and self.variables:
            c = self.chance.choice(list(self.variables.values()))
            axes = c.axes if c else axes
        depth = self.chance.choice([1, 2, 3, 3, 4])
        item = self.value(self.kind(), axes, depth) if not self.one_in(6) else self.record(axes, depth)
        item = (
            item
            if not axes and self.one_in(2)
            else f"encode({item}, {self.chance.choice(['csv', 'CSV', chr(34) + 'text/csv' + chr(34)])})"
        )
        return self.spoilt(f"for {', '.join(binds)}{where} return {item}")

    def spoilt(self, text):
        if not self.one_in(25):
            return text
        at = self.chance.randrange(len(text))
        return self.chance.choice(
            [
                text[:at],
                text[:at] + text[at + 1 :],
                text[:at] + self.chance.choice(list('()[]{},;:.<>=+-*/$"x9 \x00#')) + text[at:],
            ]
        )

    def kind(self):
        return self.chance.choice(["int", "int", "int", "bool"])

    def box(self):
        """Of one to three axes, and now and then of up to six, along which it is shorter."""
        is_many = self.one_in(8)
        names = self.chance.sample(AXES, self.chance.choice([4, 5, 6] if is_many else [1, 1, 2, 2, 3]))
        found = []
        for name in names:
            lo = self.chance.randrange(-3, 3)
            found.append((name, lo, lo + self.chance.randrange(2 if is_many else 4)))
        return found

    def record(self, axes, depth):
        names = self.chance.sample(["p", "q", "v"], self.chance.choice([1, 2, 3]))
        parts = [
            f"{name}: {self.value(self.kind(), axes if k == 0 or not self.one_in(4) else [], depth - 1)}"
            for k, name in enumerate(names)
        ]
        return "{" + "; ".join(parts) + "}"

    def scalar(self, kind, depth):
        return self.value(kind, [], depth)

    def number(self):
        return str(self.chance.choice([0, 1, 1, 2, 3, 5, 10, 63, 64, 255, 32767, 2**31, 2**62, 2**63 - 1]))

    def leaf(self, kind, axes):
        found = []
        for variable, c in self.variables.items():
            for field, of_field in c.fields if c else []:
                if (of_field == "bool") == (kind == "bool"):
                    whole = variable if len(c.fields) == 1 and self.one_in(2) else f"{variable}.{field}"
                    if c.axes == axes:
                        found.append(whole)
                    found.append(self.cut(whole, c.axes, axes))
        if not axes:
            found += ["true", "false"] if kind == "bool" else [self.number(), self.number(), *self.iterators]
        found = [it for it in found if it]
        return self.chance.choice(found) if found else None

    def cut(self, whole, axes, wanted):
        """A bracket that leaves the wanted axes, where one can."""
        subs = []
        for name, lo, hi in axes:
            of_name = [it for it in wanted if it[0] == name]
            if of_name:
                subs.append(f"{name}({of_name[0][1]}:{of_name[0][2]})")
            else:
                at = str(self.chance.randrange(lo - 1, hi + 2) if self.one_in(8) else self.chance.randint(lo, hi))
                subs.append(
                    f"{name}({at if not self.iterators or self.one_in(2) else self.chance.choice(self.iterators)})"
                )
        if [name for name, _, _ in axes if name in [it[0] for it in wanted]] != [it[0] for it in wanted]:
            return None
        self.chance.shuffle(subs)
        return f"{whole}[{', '.join(subs)}]"

    def value(self, kind, axes, depth):
        """An expression of a kind over some axes."""
        if self.one_in(60):
            kind = self.kind()
        if depth <= 0 or self.one_in(5):
            if leaf := self.leaf(kind, axes):
                return leaf
        forms = [self.operation, self.operation, self.operation, self.trimmed]
        forms += (
            [self.reduced, self.condensed, self.unary]
            if not axes
            else [self.array, self.array, self.listed, self.unary]
        )
        return self.chance.choice(forms)(kind, axes, depth)

    def unary(self, kind, axes, depth):
        inner = self.value(kind, axes, depth - 1)
        if kind == "bool":
            return f"not ({inner})"
        return self.chance.choice(
            [f"-({inner})", f"+({inner})", f"abs({inner})", f"+({self.value('bool', axes, depth - 1)})"]
        )

    def operation(self, kind, axes, depth):
        sides = [axes, axes if self.one_in(2) else []]
        self.chance.shuffle(sides)
        if kind == "bool" and self.one_in(2):
            op, of_sides = self.chance.choice(["and", "or", "xor"]), "bool"
        else:
            op, of_sides = self.chance.choice(
                ["<", "<=", ">", ">=", "=", "!="] if kind == "bool" else ["+", "-", "*", "/"]
            ), self.chance.choice(["int", "int", "int", "bool"])
        left, right = (self.value(of_sides, side, depth - 1) for side in sides)
        if kind == "bool" and self.one_in(8):
            return (
                f"bit({left}, {right})"
                if of_sides != "bool" or op not in ("and", "or", "xor")
                else f"({left}) {op} ({right})"
            )
        plain = not self.one_in(3)
        return f"({left}) {op} ({right})" if plain else f"{left} {op} {right}"

    def trimmed(self, kind, axes, depth):
        """A larger or higher value, cut down."""
        whole = [(name, lo - self.chance.randrange(2), hi + self.chance.randrange(2)) for name, lo, hi in axes]
        free = [name for name in AXES if name not in [it[0] for it in whole]]
        if len(whole) < 3 and free and self.one_in(2):
            lo = self.chance.randrange(-2, 2)
            whole.insert(
                self.chance.randrange(len(whole) + 1), (self.chance.choice(free), lo, lo + self.chance.randrange(3))
            )
        inner = self.value(kind, whole, depth - 1)
        subs = []
        for name, lo, hi in whole:
            wanted = [it for it in axes if it[0] == name]
            if wanted:
                subs += (
                    [f"{name}({wanted[0][1]}:{wanted[0][2]})"] if wanted[0] != (name, lo, hi) or self.one_in(2) else []
                )
            else:
                subs.append(
                    f"{name}({self.scalar('int', min(1, depth - 1)) if self.one_in(4) else self.chance.randint(lo, hi)})"
                )
        self.chance.shuffle(subs)
        return f"({inner})[{', '.join(subs)}]" if subs else f"({inner})"

    def reduced(self, kind, axes, depth):
        inner = self.box()
        c = self.chance.choice(list(self.variables.values()))
        inner = c.axes if c and self.one_in(2) else inner
        if kind == "bool":
            return f"{self.chance.choice(['some', 'all'])}({self.value('bool', inner, depth - 1)})"
        if self.one_in(4):
            return f"count({self.value('bool', inner, depth - 1)})"
        return f"{self.chance.choice(['add', 'avg', 'min', 'max'])}({self.value('int', inner, depth - 1)})"

    def over(self, axes):
        """A list of iterators for some axes, and their variables."""
        found, variables = [], []
        for name, lo, hi in axes:
            self.fresh += 1
            variables.append(f"$i{self.fresh}")
            found.append(f"{variables[-1]} {name}({lo}:{hi})")
        return ", ".join(found), variables

    def under(self, variables, make):
        self.iterators += variables
        made = make()
        del self.iterators[len(self.iterators) - len(variables) :]
        return made

    def array(self, kind, axes, depth):
        text, variables = self.over(axes)
        return f"(coverage m over {text} values {self.under(variables, lambda: self.scalar(kind, depth - 1))})"

    def listed(self, kind, axes, depth):
        size = 1
        for _, lo, hi in axes:
            size *= hi - lo + 1
        text, _ = self.over(axes)
        items = [
            self.chance.choice(["true", "false"]) if kind == "bool" else str(self.chance.randrange(-9, 10))
            for _ in range(size - self.one_in(40))
        ]
        return f"(coverage m over {text} value list <{'; '.join(items or ['1'])}>)"

    def condensed(self, kind, axes, depth):
        text, variables = self.over(self.box())
        where = f" where {self.under(variables, lambda: self.scalar('bool', depth - 1))}" if self.one_in(2) else ""
        op = self.chance.choice(["and", "or"] if kind == "bool" else ["+", "*", "max", "min"])
        return f"(condense {op} over {text}{where} using {self.under(variables, lambda: self.scalar(kind, depth - 1))})"
