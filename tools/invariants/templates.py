"""Templates of invariants: a decision tree over conditions, with a linear sum in each leaf. A table of a variable is a
row of conditions, as `x <= 0`, `x <= 1`."""
import typing
from fractions import Fraction

from invariants.expressions import Failed, compiled, joined, number
from invariants.model import of_number

MOST_CELLS = 400


class Feature(typing.NamedTuple):
    """A summand: its expression (None for the constant), its value in a state, and its cost."""

    expression: object
    value: object
    cost: Fraction


class Shape(typing.NamedTuple):
    """What a template is made of: tests and facts are conditions. Outside the facts nothing is claimed; a closed shape
    claims nothing in a leaf that was not sampled; a whole one is not the post where the loop is left. The variables in
    `listed` have a table, which fixes their values."""

    is_whole: bool
    tests: list
    listed: set
    features: list
    facts: list
    is_closed: bool


def multiple(factor, expression):
    """A positive multiple of an expression, where None is 1."""
    if expression is None:
        return number(factor)
    factor = Fraction(factor)
    up = expression if factor.numerator == 1 else ("*", number(factor.numerator), expression)
    return up if factor.denominator == 1 else ("/", up, number(factor.denominator))


def summed(terms):
    """The sum of pairs (factor, expression): what is added, minus what is taken away."""
    terms = sorted(((Fraction(factor), part) for factor, part in terms if factor), key=lambda term: term[1] is None)
    sizes = {abs(factor) for factor, _ in terms}
    if len(terms) > 1 and len(sizes) == 1 and sizes != {Fraction(1)}:
        size = sizes.pop()
        return multiple(size, summed([(factor / size, part) for factor, part in terms]))
    up, down = [[multiple(abs(factor), part) for factor, part in terms if sign * factor > 0] for sign in (1, -1)]
    up = joined("+", up or [number(0)])
    return ("-", up, joined("+", down)) if down else up


class Template:
    """A template of a shape for a loop; `unknown(cost, is_positive)` gives a new unknown. `cells` has the summands of
    each leaf with their unknowns, and `allowed` the leaves of a closed shape."""

    def __init__(self, loop, model, shape, unknown):
        self.loop, self.model, self.shape, self.unknown = loop, model, shape, unknown
        self.facts = [(fact, compiled(fact, loop.types)) for fact in shape.facts]
        self.tests = [compiled(test, loop.types) for test in shape.tests]
        self.nothing = ("infinity",) if model.is_upper else number(0)
        self.cells, self.has_exit = {}, loop.is_last and not shape.is_whole
        self.allowed = set(map(self.key, loop.met.values())) if shape.is_closed else None

    def key(self, state):
        """The leaf of a state."""
        return tuple(test(state) for test in self.tests)

    def holds(self, state):
        """Whether something is claimed of a state."""
        if not all(holds(state) for _, holds in self.facts):
            return False
        return self.allowed is None or self.key(state) in self.allowed

    def admit(self, state):
        """Drops the facts that a state breaks, and allows its leaf. Returns whether this changes the template."""
        before = len(self.facts), len(self.allowed or ())
        self.facts = [fact for fact in self.facts if fact[1](state)]
        if self.allowed is not None:
            self.allowed.add(self.key(state))
        return before != (len(self.facts), len(self.allowed or ()))

    def is_exit(self, state):
        """Whether the template is the post in a state, after the loop."""
        return self.has_exit and not self.loop.holds(state)

    def __call__(self, state):
        if not self.holds(state):
            return None if self.model.is_upper else {}
        if self.is_exit(state):
            return of_number(self.model.post(state))
        key = self.key(state)
        if key not in self.cells:
            self.cells[key] = self.new_cell(key)
        return {name: value for name, feature in self.cells[key] for value in [feature.value(state)] if value}

    def new_cell(self, key):
        """The summands of a leaf: pairs of an unknown and a feature."""
        if len(self.cells) >= MOST_CELLS:
            raise Failed(f"more than {MOST_CELLS} cases")
        fixed = [test[1] for test, holds in zip(self.shape.tests, key) if holds and self.is_row(test)]
        used = [feature for feature in self.shape.features if feature.expression not in fixed]
        return [(self.unknown(feature.cost, len(used) == 1), feature) for feature in used]

    def expression(self):
        """The template with the present coefficients."""
        values, post, guard = self.model.candidate, self.model.post_expression, self.loop.guard
        leaves = {key: summed([(values.get(name, 0), feature.expression) for name, feature in cell])
                  for key, cell in self.cells.items()}
        found = self.tree(list(leaves), leaves) if leaves else self.nothing
        if self.has_exit and found != post and guard != ("truth", True):
            found = ("ite", guard, found, post)
        facts = [fact for fact, _ in self.facts]
        return ("ite", joined("&&", facts), found, self.nothing) if facts else found

    def is_row(self, test):
        """Whether a condition is a row of a table."""
        return test[0] == "<=" and test[2][0] == "number" and test[1][1] in self.shape.listed

    def tree(self, keys, leaves, level=0, fixed=()):
        """The tree over the leaves with these keys, from a level on, where the tables of some variables are done."""
        if level == len(self.tests):
            return leaves[keys[0]]
        test, sides = self.shape.tests[level], [[key for key in keys if key[level] == holds] for holds in (True, False)]
        is_row = self.is_row(test)
        if is_row and test[1] in fixed or self.allowed is None and not all(sides):
            return self.tree(keys, leaves, level + 1, fixed)
        done = (*fixed, test[1]) if is_row else fixed
        yes, no = (self.tree(side, leaves, level + 1, inner) if side else self.nothing
                   for side, inner in zip(sides, (done, fixed)))
        if yes == no or is_row and no[0] == "ite" and no[1][:2] == test[:2] and no[2] == yes:
            return no
        return ("ite", test[1], no, yes) if test[0] == "!" else ("ite", test, yes, no)
