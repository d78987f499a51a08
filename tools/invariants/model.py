"""A procedure as functions of a state. The value of a state is a linear expression in unknown coefficients: a
dictionary of factors by column, with the constant under CONSTANT, or None for infinity. Schedulers choose what is best
for them under the present coefficients."""
import itertools
from fractions import Fraction

import goals
from expressions import variables_of
from invariants.expressions import INFINITY, Failed, compiled, joined, number, variable

CONSTANT = "1"


def of_number(value):
    """A number as a linear expression."""
    return None if value == INFINITY else {CONSTANT: value}


def mixed(*weighted):
    """The sum of linear expressions with weights."""
    total = {}
    for weight, terms in weighted:
        if weight and terms is None:
            return None
        for column, factor in terms.items() if weight else ():
            total[column] = total.get(column, 0) + weight * factor
    return total


def valued(terms, values):
    """The value of a linear expression, where unknowns have these values."""
    if terms is None:
        return INFINITY
    return sum(factor * (1 if column == CONSTANT else values.get(column, 0)) for column, factor in terms.items())


def first_values(typed):
    """The values that outputs and declared variables begin with."""
    return {name: False if type_name == "Bool" else 0 for name, type_name in typed}


def is_number(value):
    return value is not None and not isinstance(value, bool)


def loops_of(block):
    return [statement for statement in goals.statements_of(block) if statement[0] == "while"]


def is_hole(procedure):
    """Whether a procedure asks for its bound."""
    return procedure.pres == [variable("_")] and "_" not in dict(procedure.inputs)


class Loop:
    """A loop, or the entry of the procedure, which is number 0. `turn` gives the value of a state after one test;
    `template` is what the value of the loop is taken to be: a function of a state, and the value of `rule` where that
    is given. States in `met` were reached by runs; those in `pool` give rows; `finite` has the values of the variables that
    have few."""

    def __init__(self, model, number, types, scope, changed, guard, rule):
        self.model, self.number, self.types, self.scope, self.changed = model, number, types, scope, changed
        self.guard, self.holds, self.rule = guard, compiled(guard, types), rule
        value = None if rule is None else compiled(rule, types)
        self.template, self.turn = value and (lambda state: of_number(value(state))), None
        self.is_plain, self.is_last, self.block, self.start = True, False, [], 0
        self.met, self.pool, self.finite = {}, {}, {}

    def key(self, state):
        return tuple(state[name] for name in self.scope)

    def note(self, state):
        """Takes a state as a sample."""
        self.pool.setdefault(self.key(state), state)

    def at(self, state):
        """Returns the value of the loop in a state in which it begins."""
        here = {name: state.get(name) for name in self.scope}
        if self.model.seen is None:
            return self.template(here)
        self.model.seen.append((self, here))
        return {}


class Model:
    """The loops of a procedure and its entry; with `ranked`, the number of a loop, only its iterations pay, and 1 each.
    `candidate` has the present coefficients, and `rough` these in floats; `sides` has the rows that calls add, and
    `extra` values for choices."""

    def __init__(self, file, procedure, ranked=None):
        self.file, self.procedure, self.ranked = file, procedure, ranked
        self.is_upper, self.has_hole = procedure.is_upper or ranked is not None, is_hole(procedure) and ranked is None
        self.candidate, self.rough, self.sides, self.extra, self.seen = {}, {}, [], {}, None
        types, statements = dict(procedure.inputs + procedure.outputs), loops_of(procedure.body)
        self.has_choice = any(s[0] in ("pick", "any", "check", "validate") for s in goals.statements_of(procedure.body))
        self.pre_expression = self.clauses([] if is_hole(procedure) else procedure.pres)
        self.post_expression = self.clauses([] if ranked else procedure.posts)
        self.pre, self.post = compiled(self.pre_expression, types), compiled(self.post_expression, types)
        self.numbers = {id(s): n for n, s in enumerate(statements, 1)}
        self.used = variables_of([self.post_expression, statements if len(statements) > 1 else []])
        self.loops, self.end = {}, lambda state: of_number(self.post(state))
        start, rule = self.through(procedure.body, types, self.end), None if self.has_hole else self.pre_expression
        self.entry = Loop(self, 0, types, list(types), [name for name, _ in procedure.inputs], ("truth", True), rule)
        self.entry.turn = start

    def is_begun(self, state):
        """Whether the pre claims something of an input."""
        return self.has_hole or self.pre(state) != (INFINITY if self.procedure.is_upper else 0)

    def clauses(self, clauses):
        """Several clauses as one."""
        mark, neutral = ("\\cup", number(0)) if self.is_upper else ("\\cap", ("infinity",))
        return joined(mark, clauses or [neutral])

    def number(self, terms):
        """The value of a linear expression under the present coefficients, in floats."""
        return valued(terms, self.rough)

    def met(self, loop, state):
        """Returns the loops that an iteration from a state reaches, each with its state there."""
        self.seen = found = []
        try:
            loop.turn(state)
        finally:
            self.seen = None
            self.sides.clear()
        return found

    def chosen(self, found, is_greatest):
        """The choice of a scheduler."""
        return (max if is_greatest else min)(found, key=self.number)

    def through(self, block, types, after):
        """The value of a block as a function of the state, where `after` is the one of what follows."""
        if not block:
            return after
        (kind, *parts), rest = block[0], block[1:]
        if loops_of(block[:1]):
            self.used = self.used | variables_of(rest)
        if kind == "declare":
            return self.through(rest, {**types, parts[0]: parts[1]}, after)
        after = self.through(rest, types, after)
        if kind == "while":
            return self.loop(block[0], types, after)
        return getattr(self, "through_" + kind)(types, after, *parts)

    def through_set(self, types, after, targets, expression):
        return self.through_draw(types, after, targets, [(1, expression)])

    def through_draw(self, types, after, targets, parts):
        (name,), parts = targets, [(weight, compiled(expression, types)) for weight, expression in parts if weight]
        if len(parts) == 1:
            return lambda state, value=parts[0][1]: after({**state, name: value(state)})
        return lambda state: mixed(*((weight, after({**state, name: value(state)})) for weight, value in parts))

    def through_toss(self, types, after, targets, expression):
        (name,), chance = targets, compiled(("\\cap", expression, number(1)), types)

        def tossed(state):
            heads = Fraction(chance(state))
            sides = ((heads, True), (1 - heads, False))
            return mixed(*((weight, after({**state, name: side})) for weight, side in sides if weight))
        return tossed

    def through_reward(self, types, after, expression):
        value = compiled(expression, types)
        return after if self.ranked else lambda state: mixed((1, after(state)), (1, of_number(value(state))))

    def through_if(self, types, after, arms, other):
        arms = [(compiled(guard, types), self.through(block, types, after)) for guard, block in arms]
        other = self.through(other, types, after)
        return lambda state: next((block for guard, block in arms if guard(state)), other)(state)

    def through_pick(self, types, after, mark, left, right):
        left, right = self.through(left, types, after), self.through(right, types, after)
        is_greatest = mark == "\\cup" or self.ranked is not None
        return lambda state: self.chosen([left(state), right(state)], is_greatest)

    def through_any(self, types, after, names):
        name, *others = names
        after, upper = self.through_any(types, after, others) if others else after, self.is_upper
        return lambda s: self.chosen([after({**s, name: v}) for v in self.values(s, name, types[name])], upper)

    def through_check(self, types, after, word, expression):
        """An `assert` or `assume`, or `co` and one: an assert is a choice between its claim and what follows."""
        value, is_upper = compiled(expression, types), word.startswith("co")

        def checked(state):
            claimed, found = value(state), after(state)
            if word.endswith("assert"):
                return self.chosen([of_number(claimed), found], is_upper)
            is_met = claimed >= self.number(found) if is_upper else claimed <= self.number(found)
            return of_number(0 if is_upper else INFINITY) if is_met else found
        return after if self.ranked else checked

    def through_validate(self, types, after, word):
        def validated(state):
            value = self.number(after(state))
            return of_number((INFINITY if value == INFINITY else 0) if word == "validate" else INFINITY if value else 0)
        return after if self.ranked else validated

    def values(self, state, name, type_name):
        """Some of the values that a choice may take."""
        if type_name == "Bool":
            return [False, True]
        found = {0, 1, 2, 3, 7} | self.extra.get(name, set()) | ({Fraction(1, 2)} if type_name == "UReal" else set())
        for value in filter(is_number, state.values()):
            found |= {value, value + 1, value - 1}
        is_real, is_int = type_name == "UReal", type_name == "Int"
        return sorted(v for v in found if (v >= 0 or is_int) and (is_real or Fraction(v).denominator == 1))

    def through_call(self, types, after, targets, name, arguments):
        """A call has the value of the callee's pre; a side row asks of each value of the outputs that the post shows
        what is wanted."""
        called = next(procedure for procedure in self.file if procedure.name == name)
        is_self = called is self.procedure
        if is_hole(called) and not is_self:
            raise Failed(f"a call of {name}, whose bound was not found")
        values, scope = [compiled(argument, types) for argument in arguments], dict(called.inputs + called.outputs)
        post, pre = (compiled(self.clauses(c), scope) for c in (called.posts, [] if is_self else called.pres))

        def value_of(state):
            inputs = {name: value(state) for (name, _), value in zip(called.inputs, values)}
            for found in itertools.product(*(self.values(state, *typed) for typed in called.outputs)):
                claimed = of_number(post({**inputs, **dict(zip(dict(called.outputs), found))}))
                wanted = after({**state, **dict(zip(targets, found))})
                greater, less = (claimed, wanted) if self.is_upper else (wanted, claimed)
                if greater is not None:
                    self.sides.append(None if less is None else mixed((1, greater), (-1, less)))
            return self.entry.at({**first_values(called.outputs), **inputs}) if is_self else of_number(pre(inputs))
        return value_of

    def loop(self, statement, types, after):
        """Returns the function from a state to the value of the loop there. Its body is read with the loop after it."""
        _, rules, guard, body = statement
        targets, number = goals.targets_of(body), self.numbers[id(statement)]
        is_ranked = number == self.ranked
        rule = None if is_ranked else rules.get("k_induction", rules.get("invariant", [None]))[-1]
        used = set(types) if rule is not None else targets | self.used | variables_of([guard, body])
        scope, changed = [name for name in types if name in used], [name for name in types if name in targets]
        loop = self.loops[number] = Loop(self, number, types, scope, changed, guard, rule)
        loop.is_last, loop.block = is_ranked or after is self.end, body
        loop.is_plain, loop.start = "k_induction" not in rules, statement.start
        inner = self.through(body, types, loop.at)

        def turn(state):
            if loop.holds(state):
                return mixed((1, inner(state)), (1, {CONSTANT: int(is_ranked)}))
            return {} if is_ranked and self.seen is None else after(state)
        loop.turn = turn
        return loop.at
