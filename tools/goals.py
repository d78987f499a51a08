"""The goals of a HeyVL file in SMT-LIB, by the meaning and the encodings of docs/LANGUAGE.md. Each is denied, so it is
unsatisfiable where the goal holds."""
import sys
from fractions import Fraction

import conditions
import heyvl
from conditions import blocks_of, statements_of, targets_of  # for the tools that read goals
from smtlib import INFINITY, ONE, ZERO, Terms, Value, join

sys.setrecursionlimit(100_000)


class Goal(conditions.Maker, Terms):
    """The lines of one goal, over terms."""

    def __init__(self, file, is_upper, is_plain=False, is_ranking=False):
        Terms.__init__(self, is_plain)
        conditions.Maker.__init__(self, file, is_upper, is_ranking)

    def number(self, fraction, type_name):
        return Value(type_name, False, fraction)

    def truth(self, is_true):
        return Value("Bool", False, is_true)

    def infinity(self):
        return INFINITY

    def widened(self, value, type_name):
        return Value(type_name, *value[1:])

    def choice(self, test, a, b):
        return super().choice(test.amount if isinstance(test, Value) else test, a, b)

    def applied(self, kind, a, b=ZERO, c=ZERO):
        """What an operator gives of the values of its parts."""
        if kind in ("[", "?", "ite"):
            return self.choice(a, b if kind == "ite" else ONE if kind == "[" else INFINITY, c)
        if a.type == "Bool":
            return Value("Bool", False, self.condition(kind, a.amount, b.amount))
        if kind in ("==", "!=", "<", "<=", ">", ">="):
            return Value("Bool", False, self.comparison(kind, a.amount, b.amount))
        if kind == "/":
            return Value(join("UReal", a.type), *self.product(a, Value("UReal", False, 1 / b.amount))[1:])
        if kind == "negative":
            return Value("Int", False, self.numbers("-", Fraction(0), a.amount))
        if kind == "~":
            return self.coimplied(a, INFINITY)
        return {
            "!": self.implied, "==>": self.implied, "<==": self.coimplied, "\\cap": self.least, "\\cup": self.greatest,
            "+": self.sum, "-": self.difference, "*": self.product,
        }[kind](a, b)

    def condition(self, kind, a, b):
        if kind == "==>":
            return self.either(self.negated(a), b)
        if kind == "!":
            return self.negated(a)
        if kind == "!=":
            return self.negated(self.is_same(a, b))
        return {"&&": self.both, "||": self.either, "==": self.is_same}[kind](a, b)

    def comparison(self, kind, a, b):
        if kind in ("==", "!="):
            is_same = self.is_same(a, b)
            return is_same if kind == "==" else self.negated(is_same)
        if kind in ("<=", ">="):
            return self.is_ordered(a, b) if kind == "<=" else self.is_ordered(b, a)
        return self.negated(self.is_ordered(b, a) if kind == "<" else self.is_ordered(a, b))

    def visible(self, scope):
        return self.state([(x, type_name) for x, type_name, _ in scope])

    def forgotten(self, rest, after):
        """What is assumed away needs no terms."""
        return ZERO if self.is_upper else INFINITY

    def asked(self, holds):
        """The lines that ask whether this fails."""
        return ["(push 1)", *self.lines, f"(assert {self.with_names(self.negated(holds))})", "(check-sat)", "(pop 1)"]


NAMES = {"main": "bound", "pre": "pre at most 1", "post": "post at most 1", "invariant": "invariant of loop %d at most 1", "ranking": "loop %d"}


def goals(file, procedure, is_plain):
    """The goals of a procedure with a body: the name of each, as reports have it, and its lines."""
    for kind, number, made in conditions.goals(lambda is_upper, kind: Goal(file, is_upper, is_plain, kind == "ranking"), file, procedure):
        goal, is_greater, stated, found = made()
        holds = goal.at_most(found, stated) if is_greater else goal.at_most(stated, found)
        yield NAMES[kind] % number if "%" in NAMES[kind] else NAMES[kind], goal.asked(holds)


def of_file(text, is_plain=False):
    """The goals of a file, each with the name of its procedure, and the text that asks for one after another, in shared or in
    plain terms."""
    file = heyvl.read(text)
    found = [(p.name, name, lines) for p in file if p.body is not None for name, lines in goals(file, p, is_plain)]
    lines = ["(set-logic QF_LIRA)", *(line for _, _, goal in found for line in goal)]
    return [(name, goal) for name, goal, _ in found], "\n".join(lines) + "\n"
