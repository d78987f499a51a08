"""Values of HeyLo as terms of SMT-LIB, and the operators of docs/LANGUAGE.md on them.

A Bool is a Bool of SMT-LIB. A number is a Real, and a Bool beside it says whether it is infinite; an Int or a UInt is a
constant of sort Int that is taken as a Real."""
import typing
from fractions import Fraction


class Value(typing.NamedTuple):
    """What an expression gives: its type, whether it is infinite, and what it is else. A part that is known is a bool or a
    fraction, and every other one is the name of a term."""

    type: str
    infinite: object
    amount: object


ZERO, ONE = (Value("UInt", False, Fraction(n)) for n in (0, 1))
INFINITY = Value("EUReal", True, Fraction(0))


def join(a, b):
    """The least type to which both widen."""
    if a == b or b == "UInt":
        return a
    return b if a == "UInt" else "EUReal"


def written(part):
    """A known part or a name in SMT-LIB."""
    if isinstance(part, bool):
        return "true" if part else "false"
    if isinstance(part, Fraction):
        size = f"{abs(part.numerator)}.0"
        size = size if part.denominator == 1 else f"(/ {size} {part.denominator}.0)"
        return f"(- {size})" if part < 0 else size
    return part


class Terms:
    """The lines that declare constants, the names of the terms, and the operators that add to both. What is known of the
    parts, or by their types, gets no term, and the same parts share one. Plain terms are not shared, and the numbers in them
    are left as they are."""

    def __init__(self, is_plain=False):
        self.is_plain, self.lines, self.names, self.opposites = is_plain, [], {}, {}

    def named(self, operator, *parts):
        """The name of an operator's term."""
        text, count = f"({operator} {' '.join(map(written, parts))})", len(self.names)
        return self.names.setdefault((text, count if self.is_plain else 0), f"t{count}")

    def are_known(self, *parts):
        """Whether an operator on these numbers is worked out here."""
        return not self.is_plain and all(isinstance(part, Fraction) for part in parts)

    def are_one(self, a, b):
        """Whether two parts are taken as one."""
        return a == b and not self.is_plain

    def constant(self, type_name):
        """Any value of a type."""
        name = f"x{len(self.lines)}"
        self.lines.append(f"(declare-const {name} {dict(Bool='Bool', UReal='Real').get(type_name, 'Int')})")
        if type_name in ("UInt", "UReal"):
            self.lines.append(f"(assert (>= {name} 0))")
        return Value(type_name, False, name if type_name in ("Bool", "UReal") else self.named("to_real", name))

    def negated(self, a):
        if isinstance(a, bool):
            return not a
        if a not in self.opposites:
            name = self.named("not", a)
            self.opposites.update({a: name, name: a})
        return self.opposites[a]

    def both(self, a, b):
        if a is False or b is False:
            return False
        if a is True or b is True or a == b:
            return b if a is True else a
        return self.named("and", a, b)

    def either(self, a, b):
        if a is True or b is True:
            return True
        if a is False or b is False or a == b:
            return b if a is False else a
        return self.named("or", a, b)

    def is_same(self, a, b):
        if isinstance(a, bool) or isinstance(b, bool):
            known, other = (a, b) if isinstance(a, bool) else (b, a)
            return other if known else self.negated(other)
        if self.are_known(a, b):
            return a == b
        return True if self.are_one(a, b) else self.named("=", a, b)

    def is_ordered(self, a, b):
        """Whether the first of two finite numbers is at most the second."""
        if self.are_known(a, b):
            return a <= b
        return True if self.are_one(a, b) else self.named("<=", a, b)

    def either_part(self, test, a, b):
        """The first part where the test holds, else the second."""
        if isinstance(test, bool) or isinstance(a, bool) and a is b or self.are_one(a, b):
            return a if test else b
        if isinstance(a, bool):
            return self.either(test, b) if a else self.both(self.negated(test), b)
        if isinstance(b, bool):
            return self.either(self.negated(test), a) if b else self.both(test, a)
        return self.named("ite", test, a, b)

    def choice(self, test, a, b):
        """The first value where the test holds, else the second."""
        infinite = self.either_part(test, a.infinite, b.infinite)
        return Value(join(a.type, b.type), infinite, self.either_part(test, a.amount, b.amount))

    def at_most(self, a, b):
        """Whether the first of two numbers is at most the second, where either may be infinite."""
        is_ordered = True if a.amount == 0 and b.type != "Int" else self.is_ordered(a.amount, b.amount)
        return self.either(b.infinite, self.both(self.negated(a.infinite), is_ordered))

    def least(self, a, b):
        return self.choice(self.at_most(a, b), a, b)

    def greatest(self, a, b):
        return self.choice(self.at_most(a, b), b, a)

    def implied(self, a, b):
        return self.choice(self.at_most(a, b), INFINITY, b)

    def coimplied(self, a, b):
        return self.choice(self.at_most(b, a), ZERO, b)

    def validated(self, a):
        return self.choice(a.infinite, INFINITY, ZERO)

    def covalidated(self, a):
        return self.choice(self.at_most(a, ZERO), ZERO, INFINITY)

    def numbers(self, operator, a, b):
        """A sum, a difference or a product of finite numbers."""
        if self.are_known(a, b):
            return {"+": a + b, "-": a - b, "*": a * b}[operator]
        if self.are_one(b, 0) and operator != "*":
            return a
        return b if self.are_one(a, 0) and operator == "+" else self.named(operator, a, b)

    def sum(self, a, b):
        return Value(join(a.type, b.type), self.either(a.infinite, b.infinite), self.numbers("+", a.amount, b.amount))

    def difference(self, a, b):
        found = Value(join(a.type, b.type), False, self.numbers("-", a.amount, b.amount))
        return found if found.type == "Int" else self.choice(self.at_most(b, a), found, Value(found.type, False, Fraction(0)))

    def product(self, a, b):
        if a.infinite is False and b.infinite is False:
            return Value(join(a.type, b.type), False, self.numbers("*", a.amount, b.amount))
        is_zero = self.either(self.at_most(a, ZERO), self.at_most(b, ZERO))
        is_finite = self.negated(self.either(a.infinite, b.infinite))
        amount = self.either_part(is_finite, self.numbers("*", a.amount, b.amount), Fraction(0))
        return Value("EUReal", self.negated(self.either(is_zero, is_finite)), amount)

    def with_names(self, part):
        """A part with the terms of the names that occur in it."""
        text = written(part)
        used, names = {text}, []
        for (term, _), name in reversed(self.names.items()):
            if name in used:
                used.update(term.strip("()").split())
                names.append(f"(let (({name} {term})) ")
        return "".join(reversed(names)) + text + ")" * len(names)
