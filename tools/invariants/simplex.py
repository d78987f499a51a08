"""Exact linear programs over fractions by the dual simplex method.

Minimises a sum of nonnegative costs of unknowns under rows `terms + constant >= 0`, which are added one by one. Where
all unknowns are 0 the costs are least from the start, so there is no first phase, and each row that is added later
keeps it so."""
from fractions import Fraction


class LinearProgram:
    """Unknowns are named 0, 1, ..; one that may be negative is the difference of its column and that of `negative`. A
    basic column has a row (value, {other column: factor}). Slacks are named -1, -2, .."""

    def __init__(self):
        self.costs, self.rows, self.negative, self.count, self.slacks = {}, {}, {}, 0, 0

    def unknown(self, cost, is_positive=True):
        """The name of a new unknown, which may be negative unless `is_positive`."""
        name = self.count
        self.count += 1
        self.costs[name] = Fraction(cost)
        if not is_positive:
            self.negative[name] = self.unknown(cost)
        return name

    def value(self, name):
        """The value of an unknown at the present vertex."""
        value = self.rows[name][0] if name in self.rows else 0
        return value - self.value(self.negative[name]) if name in self.negative else value

    def add(self, terms, constant):
        """Adds the row `terms + constant >= 0`."""
        found, total = {}, Fraction(constant)
        for name, factor in [*terms.items(), *((self.negative[n], -terms[n]) for n in terms if n in self.negative)]:
            base, inner = self.rows.get(name, (0, {name: 1}))
            total += factor * base
            add_multiple(found, factor, inner)
        self.slacks -= 1
        self.rows[self.slacks] = (total, found)

    def forget(self):
        """Drops the rows that do not bind."""
        for name in [name for name, (base, _) in self.rows.items() if name < 0 and base > 0]:
            del self.rows[name]

    def solve(self, is_late=lambda: False):
        """Returns whether there is a solution, whose values are then those of `value`; None where `is_late` says so."""
        while broken := [(self.distance(row), name) for name, row in self.rows.items() if row[0] < 0]:
            if is_late():
                return None
            leaving = min(broken)[1]
            terms = self.rows[leaving][1].items()
            ratios = [(self.costs.get(name, 0) / factor, name) for name, factor in terms if factor > 0]
            if not ratios:
                return False
            self.pivot(leaving, min(ratios)[1])
        return True

    @staticmethod
    def distance(row):
        """How far a row is from being kept, in floats."""
        return float(row[0]) / (sum(abs(float(factor)) for factor in row[1].values()) + 1e-9)

    def pivot(self, leaving, entering):
        """Pivots: the column `entering` becomes basic in place of `leaving`."""
        base, terms = self.rows.pop(leaving)
        inverse = 1 / Fraction(terms.pop(entering))
        row, at = {name: -factor * inverse for name, factor in terms.items()}, -base * inverse
        row[leaving] = inverse
        for name, (base, terms) in list(self.rows.items()):
            part = terms.pop(entering, None)
            if part is not None:
                add_multiple(terms, part, row)
                self.rows[name] = (base + part * at, terms)
        cost = self.costs.pop(entering, 0)
        if cost:
            add_multiple(self.costs, cost, row)
        self.rows[entering] = (at, row)


def add_multiple(terms, factor, row):
    """Adds a multiple of a row to terms, and leaves out what becomes 0."""
    for name, value in row.items():
        total = terms.get(name, 0) + factor * value
        if total:
            terms[name] = total
        else:
            terms.pop(name, None)
