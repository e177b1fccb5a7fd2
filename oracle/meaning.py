"""Types, work and values, read from their description: an expression becomes its shape, its work, and a function of a
field, of the numbers of the iterators and of a point. A fault is an exception, so the first one that is met stands."""

import itertools
import math
from dataclasses import dataclass
from typing import Callable

from language import Refused, parsed

MOST_AXES, MOST_POINTS, MOST_CELLS, MOST_WORK = 6, 2**24, 2**20, 2**32
MOST_BOUND, MOST_COMBINATIONS = 2**31 - 1, 64
WHOLE = {"add": "+", "max": "max", "min": "min", "some": "or", "all": "and", "avg": "avg", "count": "count"}


class Fault(Exception):
    """A fault at a point, 60 to 64."""

    def __init__(self, number):
        super().__init__(number)
        self.number = number


@dataclass
class Typed:
    """Axes as (name, lo, hi), fields as (name or None, whether it is Boolean), the work of each field, and the
    value."""

    axes: list
    fields: list
    work: list
    at: Callable


@dataclass
class Coverage:
    """Axes and fields, each a name and a type, and for each field its cells in row-major order."""

    axes: list
    fields: list
    cells: list


def count(axes):
    return math.prod(hi - lo + 1 for _, lo, hi in axes)


def points(axes):
    return itertools.product(*(range(lo, hi + 1) for _, lo, hi in axes))


def rank(axes, point):
    found = 0
    for (_, lo, hi), at in zip(axes, point):
        found = found * (hi - lo + 1) + at - lo
    return found


def fits(number):
    return -MOST_BOUND - 1 <= number <= MOST_BOUND


def tested(number):
    if not -(2**63) <= number < 2**63:
        raise Fault(60)
    return number


def needs(holds, number):
    if not holds:
        raise Refused(number)


def one_field(e):
    needs(len(e.fields) == 1, 50)


def is_boolean(e):
    return e.fields[0][1]


def scalar(e):
    needs(not e.axes, 47)
    one_field(e)


def divided(left, right):
    if right == 0:
        raise Fault(61)
    return tested(abs(left) // abs(right) * (1 if (left < 0) == (right < 0) else -1))


def bit(number, place):
    if not 0 <= place <= 63:
        raise Fault(64)
    return (number >> place) & 1 == 1


OPERATIONS = {
    "+": lambda l, r: tested(l + r),
    "-": lambda l, r: tested(l - r),
    "*": lambda l, r: tested(l * r),
    "/": divided,
    "<": lambda l, r: l < r,
    "<=": lambda l, r: l <= r,
    ">": lambda l, r: l > r,
    ">=": lambda l, r: l >= r,
    "=": lambda l, r: l == r,
    "!=": lambda l, r: l != r,
    "and": lambda l, r: l and r,
    "or": lambda l, r: l or r,
    "xor": lambda l, r: l != r,
    "bit": bit,
}


def condensed(op, values):
    """What a condenser makes of values none of which is a fault."""
    if op in ("max", "min", "avg") and not values:
        raise Fault(63)
    if op == "+":
        return tested(sum(values))
    if op == "*":
        return tested(math.prod(values))
    if op == "avg":
        return sum(values) // len(values)
    return {"max": max, "min": min, "and": all, "or": any, "count": sum}[op](values)


class Typing:
    """The typing of expressions under some variables for coverages and some iterators."""

    def __init__(self, coverages):
        self.coverages = coverages

    def typed(self, e, scope):
        return getattr(self, e.form)(e, scope)

    def number(self, e, scope):
        return Typed([], [(None, False)], [1], lambda f, env, p: e.data)

    def boolean(self, e, scope):
        return Typed([], [(None, True)], [1], lambda f, env, p: e.data)

    def variable(self, e, scope):
        if e.data in scope:
            level = scope.index(e.data)
            return Typed([], [(None, False)], [1], lambda f, env, p: env[level])
        needs(e.data in self.coverages, 40)
        c = self.coverages[e.data]
        fields = [(name, kind == "bool") for name, kind in c.fields]
        return Typed(c.axes, fields, [1] * len(fields), lambda f, env, p: c.cells[f][rank(c.axes, p)])

    def field(self, e, scope):
        value = self.typed(e.parts[0], scope)
        names = [name for name, _ in value.fields]
        needs(e.data in names, 42)
        k = names.index(e.data)
        return Typed(value.axes, [value.fields[k]], [1 + value.work[k]], lambda f, env, p: value.at(k, env, p))

    def unary(self, e, scope):
        value = self.typed(e.parts[0], scope)
        one_field(value)
        needs(e.data != "not" or is_boolean(value), 48)
        does = {"-": lambda x: tested(-x), "+": int, "abs": lambda x: tested(abs(x)), "not": lambda x: not x}[e.data]
        return Typed(
            value.axes, [(None, e.data == "not")], [1 + value.work[0]], lambda f, env, p: does(value.at(0, env, p))
        )

    def binary(self, e, scope):
        left, right = (self.typed(part, scope) for part in e.parts)
        one_field(left)
        one_field(right)
        if e.data in ("and", "or", "xor"):
            needs(is_boolean(left), 48)
            needs(is_boolean(right), 48)
        needs(not left.axes or not right.axes or left.axes == right.axes, 45)
        does = OPERATIONS[e.data]

        def at(f, env, p):
            first = left.at(0, env, p if left.axes else ())
            return does(first, right.at(0, env, p if right.axes else ()))

        return Typed(left.axes or right.axes, [(None, e.data not in "+-*/")], [1 + left.work[0] + right.work[0]], at)

    def interval(self, interval, e, scope):
        """The bounds of an interval; its expression is typed here."""
        kind, first, second = interval
        if kind == "bounds":
            needs(first <= second and fits(first) and fits(second), 53)
            return first, second
        inner = self.typed(second, scope)
        named = [axis for axis in inner.axes if axis[0] == first]
        needs(named, 43)
        return named[0][1:]

    def bracket(self, e, scope):
        value = self.typed(e.parts[0], scope)
        axes, named, positions = list(value.axes), [], []
        for axis, kind, what in e.data:
            places = [k for k, it in enumerate(value.axes) if it[0] == axis]
            needs(places, 43)
            needs(axis not in named, 44)
            named.append(axis)
            k = places[0]
            _, low, high = value.axes[k]
            if kind == "at":
                position = self.typed(what, scope)
                scalar(position)
                needs(not is_boolean(position), 49)
                positions.append((k, low, high, position))
                axes[k] = None
            else:
                interval = ("bounds", *what) if kind == "bounds" else ("of", kind[1], what)
                lo, hi = self.interval(interval, e, scope)
                needs(low <= lo and hi <= high, 46)
                axes[k] = (axis, lo, hi)

        def at(f, env, p):
            found = {}
            for k, low, high, position in positions:
                found[k] = position.at(0, env, ())
                if not low <= found[k] <= high:
                    raise Fault(62)
            rest = iter(p)
            return value.at(f, env, tuple(found[k] if k in found else next(rest) for k in range(len(value.axes))))

        more = 1 + sum(position.work[0] for *_, position in positions)
        return Typed([axis for axis in axes if axis], value.fields, [more + work for work in value.work], at)

    def record(self, e, scope):
        names, parts, axes = [], [], []
        for name, part in zip(e.data, e.parts):
            needs(name not in names, 41)
            names.append(name)
            value = self.typed(part, scope)
            one_field(value)
            needs(not axes or not value.axes or axes == value.axes, 45)
            axes = axes or value.axes
            parts.append(value)
        fields = [(name, is_boolean(part)) for name, part in zip(names, parts)]
        return Typed(
            axes,
            fields,
            [part.work[0] for part in parts],
            lambda f, env, p: parts[f].at(0, env, p if parts[f].axes else ()),
        )

    def box(self, over, e, scope):
        """The axes of a list of iterators, and the scope with them."""
        variables, axes = [], []
        for variable, axis, interval in over:
            needs(variable not in self.coverages and variable not in scope and variable not in variables, 41)
            needs(axis not in [it[0] for it in axes], 44)
            variables.append(variable)
            axes.append((axis, *self.interval(interval, e, scope)))
        needs(len(axes) <= MOST_AXES and count(axes) <= MOST_POINTS, 53)
        return axes, scope + variables

    def array(self, e, scope):
        over, body = e.data
        axes, inner = self.box(over, e, scope)
        value = self.typed(body, inner)
        scalar(value)
        return Typed(
            axes, [(None, is_boolean(value))], [1 + value.work[0]], lambda f, env, p: value.at(0, env + tuple(p), ())
        )

    def list(self, e, scope):
        over, items = e.data
        axes, _ = self.box(over, e, scope)
        needs(len(items) == count(axes), 51)
        booleans = [isinstance(item, bool) for item in items]
        needs(len(set(booleans)) == 1, 48 if booleans[0] else 49)
        return Typed(axes, [(None, booleans[0])], [1], lambda f, env, p: items[rank(axes, p)])

    def condense(self, e, scope):
        op, over, where, body = e.data
        axes, inner = self.box(over, e, scope)
        condition = self.typed(where, inner) if where else None
        if condition:
            scalar(condition)
            needs(is_boolean(condition), 48)
        value = self.typed(body, inner)
        scalar(value)
        logical = op in ("and", "or")
        needs(is_boolean(value) == logical, 48 if logical else 49)
        work = 1 + count(axes) * ((condition.work[0] if condition else 0) + value.work[0])

        def at(f, env, p):
            found = []
            for q in points(axes):
                if condition is None or condition.at(0, env + q, ()):
                    found.append(value.at(0, env + q, ()))
            return condensed(op, found)

        return Typed([], [(None, logical)], [work], at)

    def reduce(self, e, scope):
        value = self.typed(e.parts[0], scope)
        one_field(value)
        logical = e.data in ("count", "some", "all")
        needs(is_boolean(value) == logical, 48 if logical else 49)
        op = WHOLE[e.data]
        return Typed(
            [],
            [(None, e.data in ("some", "all"))],
            [1 + count(value.axes) * value.work[0]],
            lambda f, env, p: condensed(op, [value.at(0, env, q) for q in points(value.axes)]),
        )


def combinations(query, store):
    """The typed condition and item of each choice of coverages, or the first refusal."""
    binds, where, encoded, item = query
    taken = []
    for variable, names in binds:
        needs(variable not in taken, 41)
        taken.append(variable)
        needs(all(name in store for name in names), 20)
    needs(math.prod(len(names) for _, names in binds) <= MOST_COMBINATIONS, 56)
    found = []
    for choice in itertools.product(*(names for _, names in binds)):
        typing = Typing(dict(zip(taken, (store[name] for name in choice))))
        condition = typing.typed(where, []) if where else None
        if condition:
            scalar(condition)
            needs(is_boolean(condition), 48)
        value = typing.typed(item, [])
        needs(encoded or not value.axes, 52)
        found.append((condition, value))
    needs(sum(count(value.axes) * len(value.fields) for _, value in found) <= MOST_CELLS, 55)
    needs(work_of(found) <= MOST_WORK, 54)
    return found


def work_of(found):
    """The work of a query, by its combinations."""
    return sum(
        (condition.work[0] if condition else 0) + count(value.axes) * sum(value.work) for condition, value in found
    )


def cell_text(cell):
    return ("true" if cell else "false") if isinstance(cell, bool) else str(cell)


def item_text(value):
    """An item as CSV."""
    texts = [" ".join(cell_text(value.at(f, (), p)) for f in range(len(value.fields))) for p in points(value.axes)]
    line = value.axes[-1][2] - value.axes[-1][1] + 1 if value.axes else 1
    return "".join(",".join(texts[k : k + line]) + "\n" for k in range(0, len(texts), line))


def answer_of(found):
    """The CSV of a query, by its combinations; or a fault."""
    chosen = []
    for condition, value in found:
        if condition is None or condition.at(0, (), ()):
            chosen.append(item_text(value))
    return "\n".join(chosen)


def answer(text, store):
    """The CSV of a query, some bytes, over a store of coverages by name; or a refusal, or a fault."""
    return answer_of(combinations(parsed(text), store))


def submitted(text, store):
    """Of a query that is to be a job: the names in its `for` list, and the most units that it may have; or a
    refusal."""
    query = parsed(text)
    found = combinations(query, store)
    names = {name for _, listed in query[0] for name in listed}
    return names, len(found) * (2 + work_of(found))
