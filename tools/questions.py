"""Formulas of goals, the comparisons on which their values depend, and the sums of rows that show that no state takes a path, by
docs/CERTIFICATES.md.

A linear form is a dict that gives the number of each variable its factor, none of which is 0; the constant is that of CONSTANT. A value is a
linear form, INFINITY or a bool."""
import math
import typing
from fractions import Fraction

import conditions

CONSTANT, INFINITY = -1, "infinity"
ZERO = {}
SIZE, DEPTH, NUMBER, SUM = 200_000, 1000, 2**62, 2**126
LAZY = ("ite", "[", "?", "&&", "||")


class TooLarge(Exception):
    """A goal that exceeds a limit, or a number of one that overflows."""


class Formula(typing.NamedTuple):
    """A node of a formula. `varies` says whether a number that is a variable occurs in it outside of conditions, and `is_linear` that no
    product has two such factors."""

    kind: str
    type: str
    parts: tuple
    size: int = 1
    depth: int = 1
    varies: bool = False
    is_linear: bool = True


class Question(typing.NamedTuple):
    """The next comparison, which is a Bool's number or, where that is None, whether a form is at most 0 or below 0, and what is to be read then
    where it holds and where it is denied."""

    number: typing.Optional[int]
    form: dict
    is_strict: bool
    held: Formula
    denied: Formula

    def inside(self, node, at):
        """Returns the same comparison, made by the part of a node."""
        sides = [node._replace(parts=(*node.parts[:at], side, *node.parts[at + 1 :])) for side in (self.held, self.denied)]
        return self._replace(held=sides[0], denied=sides[1])


def known(value):
    return Formula("value", "", (value,))


def join(a, b):
    """The least type to which both widen."""
    return a if a == b or b == "UInt" else b if a == "UInt" else "EUReal"


class Maker(conditions.Maker):
    """Makes formulas as docs/LANGUAGE.md writes them. `types` has the types of the variables by their numbers."""

    def __init__(self, file, procedure, is_upper, kind):
        super().__init__(file, is_upper, kind == "ranking")
        (self.types, self.numbers), self.ends = conditions.variables_of(file, procedure, kind == "main"), 0

    def node(self, kind, type_name, *parts):
        varies = kind not in ("[", "?") and any(part.varies for part in (parts[1:] if kind == "ite" else parts))
        is_linear = all(part.is_linear for part in parts) and not (kind == "*" and parts[0].varies and parts[1].varies)
        size, depth = 1 + sum(part.size for part in parts), 1 + max((part.depth for part in parts), default=0)
        return Formula(kind, type_name, parts, size, depth, varies and type_name != "Bool", is_linear)

    def number(self, fraction, type_name):
        return Formula("number", type_name, (fraction,))

    def truth(self, is_true):
        return known(is_true)._replace(type="Bool")

    def infinity(self):
        return known(INFINITY)._replace(type="EUReal")

    def widened(self, value, type_name):
        return value._replace(type=type_name)

    def variable(self, number):
        return Formula("variable", self.types[number], (number,), varies=self.types[number] != "Bool")

    def visible(self, scope):
        return {x: self.variable(self.numbers[place]) for x, _, place in scope}

    def constant(self, type_name):
        self.types.append(type_name)
        return self.variable(len(self.types) - 1)

    def clauses(self, clauses, state):
        """Several clauses as one bound; each time that the end of a body is read gives the formula a node at least."""
        self.ends += 1
        if self.ends > SIZE:
            raise TooLarge
        return super().clauses(clauses, state)

    def least(self, a, b):
        return self.node("\\cap", join(a.type, b.type), a, b)

    def greatest(self, a, b):
        return self.node("\\cup", join(a.type, b.type), a, b)

    def implied(self, a, b):
        return self.node("==>", "EUReal", a, b)

    def coimplied(self, a, b):
        return self.node("<==", "EUReal", a, b)

    def validated(self, a):
        return self.node("validate", "EUReal", a)

    def covalidated(self, a):
        return self.node("covalidate", "EUReal", a)

    def sum(self, a, b):
        return self.node("+", join(a.type, b.type), a, b)

    def difference(self, a, b):
        return self.node("-", join(a.type, b.type), a, b)

    def product(self, a, b):
        return self.node("*", join(a.type, b.type), a, b)

    def scaled(self, weight, part):
        """A weight is no separate node."""
        found = super().scaled(weight, part)
        return found._replace(size=found.size - 1)

    def bound(self, worth, count):
        """Each choice counts as a node around what it is made in."""
        return worth._replace(size=worth.size + count, depth=worth.depth + count)

    def choice(self, test, a, b):
        return self.node("ite", join(a.type, b.type), test, a, b)

    def applied(self, kind, a, b=None, c=None):
        """What an operator gives of the formulas of its parts."""
        if kind in (">", ">="):
            return self.node(kind.replace(">", "<"), "Bool", b, a)
        if kind == "!=":
            return self.node("!", "Bool", self.node("==", "Bool", a, b))
        if a.type == "Bool" and kind == "==>":
            return self.node("||", "Bool", self.node("!", "Bool", a), b)
        if kind in ("==", "<", "<=", "&&", "||") or kind == "!" and a.type == "Bool":
            return self.node(kind, "Bool", *[part for part in (a, b) if part])
        if kind in ("[", "?"):
            return self.node(kind, "UInt" if kind == "[" else "EUReal", a)
        if kind == "ite":
            return self.choice(a, b, c)
        if kind == "negative":
            return self.difference(self.zero._replace(type="Int"), a)
        if kind == "/":
            return self.scaled(1 / b.parts[0], a)
        if kind in ("!", "~"):
            return self.implied(a, self.zero) if kind == "!" else self.coimplied(a, self.infinity())
        return {"\\cap": self.least, "\\cup": self.greatest, "==>": self.implied, "<==": self.coimplied, "+": self.sum, "-": self.difference,
                "*": self.product}[kind](a, b)


def combined(*multiples):
    """The sum of forms, each times its factor."""
    found = {}
    for factor, form in multiples:
        for x, n in form.items():
            found[x] = found.get(x, 0) + factor * n
    if any(abs(n.numerator) >= NUMBER or n.denominator >= NUMBER for n in found.values()):
        raise TooLarge
    return {x: n for x, n in found.items() if n}


def is_constant(form):
    return form.keys() <= {CONSTANT}


def asked(a, b, is_strict, held, denied, bools):
    """Returns what is read of `held` if a is at most b, or below it, and otherwise of `denied`; a comparison if the finite numbers do not decide it."""
    if INFINITY in (a, b):
        return read(held if b == INFINITY else denied, bools)
    form = combined((1, a), (-1, b))
    if is_constant(form):
        constant = form.get(CONSTANT, 0)
        return read(held if constant < 0 or constant == 0 and not is_strict else denied, bools)
    return Question(None, form, is_strict, held, denied)


def read(node, bools):
    """Returns the value of a formula where these Bools are known, or its next comparison."""
    kind, parts = node.kind, list(node.parts)
    if kind == "value":
        return parts[0]
    if kind == "number":
        return combined((parts[0], {CONSTANT: 1}))
    if kind == "variable" and node.type == "Bool":
        return bools.get(parts[0], Question(parts[0], ZERO, False, node, node))
    if kind == "variable":
        return {parts[0]: 1}
    values = []
    for at in range(1 if kind in LAZY else len(parts)):
        found = read(parts[at], bools)
        if isinstance(found, Question):
            return found.inside(node._replace(parts=tuple(parts)), at)
        parts[at] = known(found)
        values.append(found)
    if kind in LAZY:
        return chosen(kind, values[0], node.parts[1:], bools)
    return compared(kind, node.type, values, bools)


def chosen(kind, test, rest, bools):
    """Returns the value of a node that reads its other parts only if its first one requires it, or its next comparison."""
    if kind in ("[", "?"):
        return ZERO if not test else {CONSTANT: 1} if kind == "[" else INFINITY
    if kind == "ite":
        return read(rest[0] if test else rest[1], bools)
    return test if test == (kind == "||") else read(rest[0], bools)


def compared(kind, type_name, values, bools):
    """Returns the value of a node whose parts have been read, or its own comparison."""
    (a, *others), no, yes = values, known(False), known(True)
    b = others[0] if others else None
    if kind == "goal":
        return a, b
    if kind == "!":
        return not a
    if kind == "==" and isinstance(a, bool):
        return a == b
    if kind == "validate":
        return INFINITY if a == INFINITY else ZERO
    if kind == "+":
        return INFINITY if INFINITY in values else combined((1, a), (1, b))
    if kind == "*" and INFINITY not in values:
        factor, form = (a, b) if is_constant(a) else (b, a)
        return combined((factor.get(CONSTANT, 0), form))
    if kind == "*" and a == b:
        return INFINITY
    if kind == "*":
        return asked(b if a == INFINITY else a, ZERO, False, known(ZERO), known(INFINITY), bools)
    if kind == "-" and type_name == "Int":
        return combined((1, a), (-1, b))
    if kind == "-":
        held = known(combined((1, a), (-1, b)))
        return asked(b, a, False, held, known(ZERO), bools)
    if kind == "==":
        again = Formula("<=", "Bool", (known(b), known(a)))
        return asked(a, b, False, again, no, bools)
    a, b, held, denied = {
        "<=": (a, b, yes, no), "<": (a, b, yes, no), "\\cap": (a, b, known(a), known(b)), "\\cup": (a, b, known(b), known(a)),
        "==>": (a, b, known(INFINITY), known(b)), "<==": (b, a, known(ZERO), known(b)),
        "covalidate": (a, ZERO, known(ZERO), known(INFINITY)),
    }[kind]
    return asked(a, b, kind == "<", held, denied, bools)


class Row(typing.NamedTuple):
    """A row: a form that is at most 0, or below 0."""

    form: dict
    is_strict: bool

    def denied(self):
        return Row(combined((-1, self.form)), not self.is_strict)

    def tightened(self, types):
        """Returns the row with integer numbers; if its variables are integers, the constant is rounded."""
        is_whole = not is_constant(self.form) and all(x == CONSTANT or types[x] in ("Int", "UInt") for x in self.form)
        scaled = [n for x, n in self.form.items() if not is_whole or x != CONSTANT]
        if not scaled:
            return self
        scale = math.lcm(*[n.denominator for n in scaled])
        divisor = math.gcd(*[int(n * scale) for n in scaled])
        form = {x: Fraction(n) * scale / divisor for x, n in self.form.items()}
        if is_whole:
            constant = form.get(CONSTANT, 0)
            form = combined((1, {**form, CONSTANT: math.floor(constant) + 1 if self.is_strict else math.ceil(constant)}))
        return Row({x: int(n) for x, n in form.items()}, self.is_strict and not is_whole)


def is_contradiction(rows, multipliers):
    """Whether the rows, by their numbers times these multipliers, add up to a number above 0, or to 0 where one of them is strict."""
    total, is_strict = {}, False
    for number, multiplier in multipliers:
        if number >= len(rows):
            return False
        for x, n in rows[number].form.items():
            total[x] = total.get(x, 0) + multiplier * n
            if abs(total[x]) >= SUM:
                return False
        is_strict = is_strict or rows[number].is_strict
    constant = total.pop(CONSTANT, 0)
    return not any(total.values()) and (constant > 0 or constant == 0 and is_strict)


def with_signs(rows, types):
    """The rows, and those that say that a UInt or a UReal that occurs in them isn't negative."""
    found = sorted({x for row in rows for x in row.form if x != CONSTANT and types[x] in ("UInt", "UReal")})
    return [*rows, *(Row({x: -1}, False) for x in found)]


def rows_at(rows, types):
    """The rows at a leaf, tightened."""
    found = [row.tightened(types) for row in with_signs(rows, types)]
    if any(abs(n) >= NUMBER for row in found for n in row.form.values()):
        raise TooLarge
    return found
