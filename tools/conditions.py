"""Makes the goals of a HeyVL file, by what statements mean and by the encodings in docs/LANGUAGE.md.

A body is read forward: what follows a statement is a function of the state, which gives each visible variable its value under its name.
Each choice becomes a new constant where it is read, so what follows a draw has separate choices for each value."""
import functools
from fractions import Fraction

import heyvl


class Maker:
    """Builds the values of expressions and the pre-expectations of statements. A subclass has the operators on values, each of which has a `type`."""

    def __init__(self, file, is_upper, is_ranking=False):
        self.file, self.is_upper, self.is_ranking = file, is_upper, is_ranking
        self.zero, self.one = (self.number(Fraction(n), "UInt") for n in (0, 1))

    def value(self, expression, state):
        kind, *parts = expression
        if kind == "number":
            return self.number(*parts)
        if kind == "truth":
            return self.truth(parts[0])
        if kind == "infinity":
            return self.infinity()
        if kind == "variable":
            return state[parts[0]]
        if kind == "bind":
            return self.bound(self.value(parts[2], {**state, parts[1]: self.constant(parts[0])}), 1)
        return self.applied(kind, *[self.value(part, state) for part in parts])

    def clauses(self, clauses, state):
        """Several clauses as one bound."""
        values = [self.value(clause, state) for clause in clauses] or [self.zero if self.is_upper else self.infinity()]
        return functools.reduce(self.greatest if self.is_upper else self.least, values)

    def worth(self, block, state, follows):
        """Returns the pre-expectation of statements in a state; `follows` is what follows them."""
        if not block:
            return follows(state)
        (kind, *parts), rest = block[0], lambda after: self.worth(block[1:], after, follows)
        return getattr(self, kind + "_worth")(state, rest, *parts)

    def inner(self, block, state, rest):
        """Returns the pre-expectation of a block, whose variables are not visible after it."""
        return self.worth(block, state, lambda after: rest({name: after[name] for name in state}))

    def put(self, state, targets, values):
        return {**state, **{x: self.widened(value, state[x].type) for x, value in zip(targets, values)}}

    def state(self, typed):
        return {name: self.constant(type_name) for name, type_name in typed}

    def declare_worth(self, state, rest, name, type_name):
        return rest({**state, name: self.widened(self.zero, type_name)})

    def set_worth(self, state, rest, targets, expression):
        return rest(self.put(state, targets, [self.value(expression, state)]))

    def draw_worth(self, state, rest, targets, parts):
        found = []
        for weight, expression in parts:
            found.append(self.scaled(weight, rest(self.put(state, targets, [self.value(expression, state)]))))
        return functools.reduce(self.sum, found)

    def toss_worth(self, state, rest, targets, expression):
        heads = heyvl.literal(expression)
        if heads is not None:
            return self.draw_worth(state, rest, targets, [(heads, ("truth", True)), (1 - heads, ("truth", False))])
        heads = self.least(self.value(expression, state), self.one)
        weights = ((True, heads), (False, self.difference(self.one, heads)))
        sides = [self.product(weight, rest(self.put(state, targets, [self.truth(side)]))) for side, weight in weights]
        return self.sum(*sides)

    def any_worth(self, state, rest, names):
        return self.bound(rest({**state, **self.state([(name, state[name].type) for name in names])}), len(names))

    def reward_worth(self, state, rest, expression):
        return rest(state) if self.is_ranking else self.sum(rest(state), self.value(expression, state))

    def check_worth(self, state, rest, word, expression):
        operators = {"assert": self.least, "assume": self.implied, "coassert": self.greatest, "coassume": self.coimplied}
        stated = self.value(expression, state)
        return operators[word](stated, rest(state))

    def validate_worth(self, state, rest, word):
        return (self.validated if word == "validate" else self.covalidated)(rest(state))

    def if_worth(self, state, rest, arms, other):
        (guard, block), *others = arms
        test, held = self.value(guard, state), self.inner(block, state, rest)
        return self.choice(test, held, self.if_worth(state, rest, others, other) if others else self.inner(other, state, rest))

    def pick_worth(self, state, rest, mark, left, right):
        first, second = self.inner(left, state, rest), self.inner(right, state, rest)
        return (self.greatest if self.is_ranking or mark == "\\cup" else self.least)(first, second)

    def scaled(self, weight, part):
        """Returns the value of a part, times its weight."""
        return self.product(self.number(weight, "UReal"), part)

    def bound(self, worth, count):
        """Returns a value in which `count` choices are made."""
        return worth

    def known(self, bound, count, claimed, wanted):
        """Returns the pre-expectation of a call or a loop: its bound, if its claim implies what is wanted for all of the `count` values that it gives."""
        if self.is_upper:
            return self.greatest(bound, self.bound(self.covalidated(self.coimplied(claimed, wanted)), count))
        return self.least(bound, self.bound(self.validated(self.implied(claimed, wanted)), count))

    def call_worth(self, state, rest, targets, name, arguments):
        called = next(procedure for procedure in self.file if procedure.name == name)
        inputs = {x: self.widened(self.value(argument, state), t) for (x, t), argument in zip(called.inputs, arguments)}
        pre, outputs = self.clauses(called.pres, inputs), self.state(called.outputs)
        post = self.clauses(called.posts, {**inputs, **outputs})
        return self.known(pre, len(outputs), post, rest(self.put(state, targets, outputs.values())))

    def while_worth(self, state, rest, rules, guard, block):
        """Returns the pre-expectation of a loop by its copies."""
        copies, invariant = rules.get("k_induction", [("number", 1, "UInt"), *rules.get("invariant", [])])

        def turned(copy, after):
            kept = self.value(invariant, after)
            if copy > 1:
                return (self.least if self.is_upper else self.greatest)(kept, met(copy - 1, after))
            return (self.greatest if self.is_upper else self.least)(kept, self.forgotten(rest, after))

        def met(copy, at):
            test, turn = self.value(guard, at), self.inner(block, at, lambda after: turned(copy, after))
            return self.choice(test, turn, rest(at))

        bound, changed = self.value(invariant, state), targets_of(block)
        new = self.state([(x, state[x].type) for x in state if x in changed])
        at = {**state, **new}
        claimed = self.value(invariant, at)
        return self.known(bound, len(new), claimed, met(int(copies[1]), at))

    def forgotten(self, rest, after):
        """Returns the pre-expectation after a last copy, which is assumed away."""
        test = self.applied("?", self.truth(self.is_upper))
        return (self.coimplied if self.is_upper else self.implied)(test, rest(after))


def blocks_of(statement):
    if statement[0] == "if":
        return [*(block for _, block in statement[1]), statement[2]]
    return {"pick": statement[2:], "while": statement[3:]}.get(statement[0], ())


def statements_of(block):
    """The statements of a block and of its blocks, in the order of the text."""
    for statement in block:
        yield statement
        for inner in blocks_of(statement):
            yield from statements_of(inner)


def targets_of(block):
    return {x for kind, *parts in statements_of(block) if kind in ("set", "draw", "toss", "call", "any") for x in parts[0]}


def quantified(expression):
    """The types of the quantifiers in the front of a clause."""
    return [expression[1], *quantified(expression[3])] if expression[0] == "bind" else []


def variables_of(file, procedure, has_calls):
    """The types of the variables of a procedure by their numbers: its inputs and outputs, those that it declares, those of its quantifiers, and
    those that its calls are encoded with; and the numbers of inputs and outputs by their names, and of declared ones by their places."""
    heads, statements = procedure.inputs + procedure.outputs, list(statements_of(procedure.body or []))
    declared = [statement for statement in statements if statement[0] == "declare"]
    numbers = {name: number for number, (name, _) in enumerate(heads)}
    numbers.update((statement.start, number) for number, statement in enumerate(declared, len(heads)))
    types = [type_name for _, type_name in heads] + [statement[2] for statement in declared]
    types += [type_name for post in procedure.posts for type_name in quantified(post)]
    for statement in statements if has_calls else []:
        for called in [p for p in file if statement[0] == "call" and p.name == statement[2]][:1]:
            types += [type_name for _, type_name in called.inputs + called.outputs]
    return types, numbers


def loops_of(block, scope):
    """The loops of a block and of its blocks, in the order of the text, each with the names, types and places that are visible there."""
    for statement in block:
        if statement[0] == "declare":
            scope = [*scope, (*statement[1:], statement.start)]
        if statement[0] == "while":
            yield statement, scope
        for inner in blocks_of(statement):
            yield from loops_of(inner, scope)


def goals(make, file, procedure):
    """The goals of a procedure with a body, in the order of docs/CERTIFICATES.md: the kind of each, the number of its loop or 0, and a
    function that gives its maker, whether its stated bound has to be the larger value, and its stated bound and its computed value.
    `make(is_upper, kind)` gives a maker, whose `visible` gives the state of a scope, a list of names, types and places."""
    heads = [(x, type_name, x) for x, type_name in procedure.inputs + procedure.outputs]
    loops = list(enumerate(loops_of(procedure.body, heads), 1))

    def main():
        goal = make(procedure.is_upper, "main")
        state = goal.visible(heads)
        stated = goal.clauses(procedure.pres, state)
        found = goal.worth(procedure.body, state, lambda after: goal.clauses(procedure.posts, after))
        return goal, procedure.is_upper, stated, found

    def at_most_1(clauses, scope):
        goal = make(False, "")
        return goal, True, goal.one, goal.clauses(clauses, goal.visible(scope))

    def ranking(rules, guard, block, scope):
        goal, (step, bound) = make(True, "ranking"), rules["ranking"]
        state = goal.visible(scope)
        held = goal.sum(goal.value(step, state), goal.inner(block, state, lambda after: goal.value(bound, after)))
        return goal, True, goal.value(bound, state), goal.choice(goal.value(guard, state), held, goal.zero)

    yield "main", 0, main
    if procedure.is_weak:
        yield "pre", 0, lambda: at_most_1(procedure.pres, heads)
        yield "post", 0, lambda: at_most_1(procedure.posts, heads)
        for number, ((_, rules, _, _), scope) in loops:
            invariant = rules.get("k_induction", rules.get("invariant"))[-1]
            yield "invariant", number, functools.partial(at_most_1, [invariant], scope)
    for number, ((_, rules, guard, block), scope) in loops:
        if "ranking" in rules:
            yield "ranking", number, functools.partial(ranking, rules, guard, block, scope)
