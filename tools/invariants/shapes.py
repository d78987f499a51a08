"""The shapes of templates that are tried, the cheapest first. What may be distinguished is read off the program and
the samples."""
import itertools
from fractions import Fraction

from expressions import type_of, variables_of
from invariants.expressions import COMPARISONS, compiled, number, parts_of, renamed, shown, variable
from invariants.samples import MOST_VALUES, copies_of, expressions_of
from invariants.templates import Feature, Shape

COSTS = {"whole": -9, "none": 0, "bool": 0, "finite": 1, "constants": 3}
STEPS = [("none", 0), ("bool", 0), ("finite", 0), ("bool", 1), ("finite", 1), ("constants", 0), ("bool", 2),
         ("finite", 2), ("constants", 1), ("constants", 2), ("bool", 3), ("finite", 3), ("bool", 4)]
MOST_CONDITIONS, MOST_FACTS, MOST_EXTRAS, MOST_ROWS, MOST_LEAST = 14, 8, 8, 30, 12


def plan():
    """The tables, the level of conditions, whether parts of the clauses are summands, and whether there are facts, of
    each shape, the cheapest first."""
    found = [(*step, extra, facts) for facts in (False, True) for extra in (False, True) for step in STEPS]
    return sorted([("whole", 0, True, False), *found], key=lambda p: 2 * p[1] + COSTS[p[0]] + 4 * p[2] + 3 * p[3])


def parts_in(expressions, names):
    """All parts of expressions, with other names for some variables."""
    return [part for expression in expressions for part in parts_of(renamed(expression, names))]


def tests_in(parts):
    """The comparisons among parts of expressions, and those that a difference or a minimum makes."""
    return [part if part[0] in COMPARISONS else ("<=", *part[1:]) for part in parts
            if part[0] in COMPARISONS or part[0] in ("-", "\\cap", "\\cup")]


class Shapes:
    """The shapes for the loops of a procedure."""

    def __init__(self, model, loops=()):
        self.model, self.loops = model, loops
        self.copies, self.clauses = copies_of(model.procedure), [model.pre_expression, model.post_expression]
        self.expressions = [*self.clauses, *expressions_of(model.procedure.body)]

    def __iter__(self):
        """The names of shapes, and for each loop its shape."""
        seen = set()
        for step in plan():
            shapes = [self.shape(loop, *step) for loop in self.loops]
            key = str([shape._replace(features=[feature.expression for feature in shape.features]) for shape in shapes])
            if key not in seen:
                seen.add(key)
                yield step, shapes

    def names(self, loop):
        """The variables that an invariant of a loop may mention, and a pre."""
        if not loop.number:
            return loop.changed
        return [name for name in loop.scope if all(state[name] is not None for state in list(loop.met.values())[:5])]

    def here(self, loop):
        """Other names for variables at a loop: copies for inputs, and inputs for copies in the pre."""
        if not loop.number:
            return {y: x for x, y in self.copies.items()}
        return {x: y for x, y in self.copies.items() if y in loop.scope}

    def shape(self, loop, kind, level, has_extras, has_facts):
        names, is_whole = self.names(loop), kind == "whole"
        tables = [] if kind in ("none", "whole") else self.tables(loop, names, kind, has_facts)
        listed = {name for name, _, _ in tables}
        closed = {name for name, _, is_open in tables if not is_open}
        hidden = self.here(loop) if loop.number and (not has_extras or is_whole) else {}
        features = [Feature(None, lambda state: 1, Fraction(1))]
        for name in names:
            if loop.types[name] in ("UInt", "UReal") and name not in closed and name not in hidden:
                cost, value = Fraction(1 if name in loop.changed else 2), compiled(variable(name), loop.types)
                features.append(Feature(variable(name), value, cost))
        features += self.extras(loop, names, is_whole) if has_extras else []
        conditions = [] if is_whole else self.conditions(loop, names, closed, level)
        facts = self.facts(loop, [name for name in names if name not in closed]) if has_facts and loop.number else []
        is_closed = bool(loop.number) and (kind in ("finite", "constants") or has_facts)
        tests = [test for _, tests, _ in tables for test in tests] + conditions
        return Shape(is_whole, tests, listed, features, facts, is_closed)

    def tables(self, loop, names, kind, has_facts):
        """Returns the variables that get tables, those with few rows first, each with its rows, and whether larger values
        are distinguished: a Bool has one row."""
        found, most = [], self.compared(loop) if kind == "constants" else {}
        for name in names:
            values = loop.finite.get(name, [])
            if loop.types[name] == "Bool":
                if len(values) > 1 or has_facts or kind == "bool":
                    found.append((name, [variable(name)], False))
            elif kind != "bool" and values and (len(values) > 1 or name in loop.changed):
                ends = {value - n for value in values for n in (0, 1) if value > n - 1 or loop.types[name] == "Int"}
                found.append((name, [("<=", variable(name), number(end)) for end in sorted(ends)], False))
            elif loop.types[name] == "UInt" and most.get(name, MOST_ROWS + 1) <= MOST_ROWS:
                ends = range(most[name] + 1)
                found.append((name, [("<=", variable(name), number(end)) for end in ends], True))
        return sorted(found, key=lambda table: len(table[1]))

    def compared(self, loop):
        """The largest constant with which each variable is compared."""
        found = {}
        for part in parts_in(self.expressions, self.here(loop)):
            values = [int(side[1]) for side in part[1:] if part[0] in COMPARISONS and side[0] == "number"]
            for name in variables_of(part) if values else ():
                found[name] = max(found.get(name, 0), *values)
        return found

    def conditions(self, loop, names, closed, level):
        """Returns the conditions of a level that distinguish states: 1 those of the body, 2 and 3 those of the clauses
        and bounds too, 4 comparisons of all variables."""
        numeric = [name for name in names if loop.types[name] == "UInt" and name not in closed]
        changed = [name for name in numeric if name in loop.changed]
        pairs = [(variable(x), variable(y)) for x, y in itertools.permutations(numeric, 2) if {x, y} & set(changed)]
        block = loop.block if loop.number else self.model.procedure.body
        found = [loop.guard] if loop.number and not loop.is_last else []
        if level == 4:
            found += [("<=", variable(name), number(n)) for name in numeric for n in (0, 1)]
            found += [("<=", x, bound) for x, y in pairs for bound in (y, ("+", y, number(1)))]
        elif level:
            found += tests_in(parts_in([loop.guard, *expressions_of(block)], {} if loop.number else self.here(loop)))
        if level > 1:
            found += tests_in(parts_in(self.clauses[level == 4:], self.here(loop)))
        if level in (2, 3):
            found += [("<=", variable(name), number(n)) for n in range(level - 1) for name in changed]
            found += [("<=", x, y) for x, y in pairs if level == 3 and numeric.index(x[1]) < numeric.index(y[1])]
        found = {shown(test): test for test in found}
        return [test for test in found.values() if self.is_apart(loop, names, closed, test)][:MOST_CONDITIONS]

    def is_apart(self, loop, names, closed, condition):
        """Whether a condition over these variables holds in some samples and not in others."""
        used = variables_of(condition)
        if not used <= set(names) or used <= closed:
            return False
        holds, states = compiled(condition, loop.types), list(loop.met.values())[:300] + list(loop.pool.values())[:300]
        return len(set(map(holds, states))) == 2

    def extras(self, loop, names, is_whole):
        """Parts of clauses and statements as summands."""
        found = {}
        for part in parts_in(self.expressions, self.here(loop)):
            is_variable = part[0] == "*" and all(map(variables_of, part[1:]))
            if is_variable or part[0] in ("-", "\\cap", "\\cup", "[") or part[0] == "ite" and not is_whole:
                has_infinity = any(inner[0] == "infinity" for inner in parts_of(part))
                if variables_of(part) and variables_of(part) <= set(names) and not has_infinity:
                    if type_of(part, loop.types) in ("UInt", "UReal"):
                        found.setdefault(shown(part), Feature(part, compiled(part, loop.types), Fraction(1)))
        return list(found.values())[:MOST_EXTRAS]

    def facts(self, loop, names):
        """Returns conditions that hold in all states that runs reached: equalities, ranges and orders."""
        numeric, states = [name for name in names if loop.types[name] in ("UInt", "Int")], list(loop.met.values())
        found = []
        for name in numeric if states else ():
            values = [state[name] for state in states]
            if 0 < min(values) <= MOST_LEAST:
                found.append(("<=", number(min(values)), variable(name)))
            if max(values) <= MOST_VALUES and name in loop.finite:
                found.append(("<=", variable(name), number(max(values))))
        pairs = [(x, y) for x, y in itertools.permutations(numeric, 2) if {x, y} & set(loop.changed)]
        for x, y in pairs if states else ():
            tests = related(x, y, numeric, states[0], x in loop.finite)
            found += [test for test in tests if all(map(compiled(test, loop.types), states))][:1]
        return sorted(found, key=lambda test: test[0] != "==")[:MOST_FACTS]


def related(x, y, names, state, is_finite):
    """Equalities of two variables that hold in a state, and orders, the sharpest first."""
    a, b, total, gap = variable(x), variable(y), state[x] + state[y], state[x] - state[y]
    ends = [variable(name) for name in names if name not in (x, y)] + [number(total)] * (total >= 0)
    found = [("==", ("+", a, b), end) for end in ends if names.index(x) < names.index(y)]
    found += [("==", a, ("+", b, number(gap)) if gap else b)] if gap >= 0 else []
    wider = [b] if is_finite else [b, ("*", number(2), b), ("+", b, number(1)), ("*", number(3), b)]
    return found + [("<=", a, wide) for wide in wider]
