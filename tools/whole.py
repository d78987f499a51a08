"""Random goals over integer variables, a search through integer points for the states in which they fail, and the answers of others on them."""
import collections
import functools
import itertools
import math
import re
from fractions import Fraction

import goals
import reports

FACTORS = [1, 1, 1, 2, 2, 3, 3, 4, 5, 6, 7]
MARKS = ["<=", "<=", "<"]
PARTS = ["0", "1/2", "1/3", "2/3"]
WIDTHS = {1: 400, 2: 60, 3: 15}


def side(terms, constant):
    """A sum of terms, none of which is negative, as HeyVL has it."""
    found = [name if factor == 1 else f"{factor}*{name}" for name, factor in terms]
    return " + ".join(found + [str(constant)] * (constant != 0 or not found))


class Row:
    """A sum of multiples of variables that is at most, below or the same as a number."""

    def __init__(self, factors, mark, most):
        self.factors, self.mark, self.most = factors, mark, most

    def text(self):
        parts = [[(x, sign * n) for x, n in self.factors.items() if sign * n > 0] for sign in (1, -1)]
        return f"{side(parts[0], max(-self.most, 0))} {self.mark} {side(parts[1], max(self.most, 0))}"

    def left(self, point):
        """What the number still allows, once these variables have their values."""
        return self.most - sum(n * point[x] for x, n in self.factors.items() if x in point)

    def is_met(self, left):
        return left == 0 if self.mark == "==" else left > 0 if self.mark == "<" else left >= 0


def real_between(rows, point, real):
    """Returns whether some number that isn't negative satisfies all rows in which it occurs, where the other variables have these values."""
    low, high = (Fraction(0), False), (math.inf, False)
    for row in rows:
        end, is_strict = row.left(point) / Fraction(row.factors[real]), row.mark == "<"
        if row.mark == "==" or row.factors[real] < 0:
            low = max(low, (end, is_strict))
        if row.mark == "==" or row.factors[real] > 0:
            high = min(high, (end, not is_strict))
    return low[0] < high[0] or low[0] == high[0] and not low[1] and (high[1] or high[0] == math.inf)


class Goal:
    """A procedure whose bound holds if no state satisfies all rows of one of its cases. Its variables are integers, but for a UReal in
    some; where it is bounded, each case bounds each integer variable, and the search is through all of its points."""

    def __init__(self, writer):
        self.writer, self.real = writer, "r" if writer.is_now(0.3) else None
        count = writer.choice([1, 2, 2, 2, 3])
        self.types = {x: "UInt" if self.real or writer.is_now(0.5) else "Int" for x in ["x", "y", "z"][:count]}
        self.is_bounded, width = writer.is_now(0.7), WIDTHS[count]
        firsts = {x: writer.randint(0, 3) if t == "UInt" else writer.randint(-width // 2, 2) for x, t in self.types.items()}
        width = writer.randint(2, min(width, 30)) if self.is_bounded else width
        starts = firsts if self.is_bounded else {x: 0 if t == "UInt" else -width // 2 for x, t in self.types.items()}
        self.ranges = {x: (first, first + width) for x, first in starts.items()}
        self.cases = [self.case() for _ in range(writer.choice([1, 1, 1, 2]))]

    def case(self):
        near = {x: self.writer.randint(*ends) + Fraction(self.writer.choice(PARTS)) for x, ends in self.ranges.items()}
        near[self.real] = Fraction(self.writer.randint(0, 6), 2)
        found = [row for _ in range(self.writer.choice([1, 2, 2, 3, 3])) for row in self.rows(near)]
        for x, (first, last) in self.ranges.items() if self.is_bounded else ():
            found += [Row({x: -1}, "<=", -first)] * (first > 0 or self.types[x] == "Int") + [Row({x: 1}, "<=", last)]
        return found

    def rows(self, near):
        """Returns one row, or two with a strip between them, which are satisfied at a point or close to it."""
        names = self.writer.sample(list(self.types), min(len(self.types), self.writer.choice([1, 2, 2, 3])))
        names += [self.real] * (self.real is not None and self.writer.is_now(0.7))
        factors = {x: self.writer.choice(FACTORS) * self.writer.choice([1, -1]) for x in names}
        value = sum(n * near[x] for x, n in factors.items()) + self.writer.choice([0, 0, 0, 0, -1, 1])
        is_real, wide = self.real in names, self.writer.choice([0, 0, 0, 1])
        most, least = (value if is_real else math.ceil(value)) + wide, (value if is_real else math.floor(value)) - wide
        if self.writer.is_now(0.3):
            return [Row(factors, self.writer.choice(MARKS), most)]
        if most == least:
            return [Row(factors, "==", most)]
        return [Row(factors, self.writer.choice(MARKS), most), Row({x: -n for x, n in factors.items()}, "<=", -least)]

    def text(self):
        tests = [" && ".join(row.text() for row in case) for case in self.cases]
        inputs = ", ".join(f"{x}: {t}" for x, t in [*self.types.items(), *[(self.real, "UReal")] * (self.real is not None)])
        if self.writer.is_now(0.3):
            return f"coproc goal({inputs}) -> () pre 0 post {' + '.join(f'[{test}]' for test in tests)} {{ }}\n"
        head, fails, holds = self.writer.choice([("coproc", "0", "1"), ("@wlp proc", "1", "0")])
        pre = functools.reduce(lambda rest, test: f"ite({test}, {fails if test == tests[0] else '1/2'}, {rest})", reversed(tests), holds)
        return f"{head} goal({inputs}) -> () pre {pre} post {holds} {{ }}\n"

    def fails_at(self, point):
        """Returns whether the goal fails where the integer variables have these values, and the other one this or, without it, any."""
        return any(self.meets(case, point) for case in self.cases)

    def meets(self, case, point):
        known = [row for row in case if all(x in point for x in row.factors)]
        others = [row for row in case if row not in known]
        return all(row.is_met(row.left(point)) for row in known) and (not others or real_between(others, point, self.real))

    def points(self):
        for values in itertools.product(*(range(first, last + 1) for first, last in self.ranges.values())):
            yield dict(zip(self.types, values))

    def is_shown_right(self, shown):
        """Whether the goal fails in a state that is shown."""
        state = {x: Fraction(value) for x, value in re.findall(r"(\w+) = ([-\d/]+)", shown)}
        is_typed = all(state[x].denominator == 1 and (t == "Int" or state[x] >= 0) for x, t in self.types.items())
        return is_typed and state.get(self.real, 0) >= 0 and self.fails_at(state)


class Comparison:
    """Compares one goal after another with what a program and Z3 say of it, and counts."""

    def __init__(self, program, z3, folder):
        self.program, self.z3, self.folder, self.counts = program, z3, folder, collections.Counter()

    def asked(self, text):
        """The verdict of the program, and Z3's answer to the first goal."""
        self.folder.written("file.heyvl", text)
        self.folder.written("file.smt2", goals.of_file(text)[1])
        told = reports.verdicts(self.folder.answer(self.program, "verify", "file.heyvl")[1])
        said = self.folder.answer(self.z3, "-t:2000", "file.smt2")[1].split()
        return told.get(("goal", "goal"), "unknown (bound): time"), said[0] if said else "unknown"

    def fault(self, goal):
        """What is wrong about the answers to a goal, or none."""
        verdict, said = self.asked(goal.text())
        is_found = any(map(goal.fails_at, goal.points()))
        kind, _, cause = verdict.partition(" (bound): ")
        kind = "fraction" if kind == "unknown" and cause.startswith("fraction ") else kind
        self.counts.update([kind, (kind, said), "found" if is_found else "none" if goal.is_bounded else "open"])
        claims = [{"verified": False, "not verified": True}.get(kind), {"unsat": False, "sat": True}.get(said)]
        claims += [is_found] if is_found or goal.is_bounded else []
        is_one = len({claim for claim in claims if claim is not None}) <= 1
        is_right = is_one and (kind != "not verified" or goal.is_shown_right(cause))
        return None if is_right else f"{verdict}, Z3 {said}, {'a' if is_found else 'no'} point found"
