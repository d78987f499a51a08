"""What is known of the states in which the run of a procedure can be at a place."""
import itertools
import typing
from fractions import Fraction

import goals
import heyvl
import smtlib
from expressions import (
    ATOM, Expression, Source, Symbol, all_of, choice, compared, is_positive, of_symbol, plain, plain_number, resolved, same, symbols_of)

MOST_PIECES = 400
MOST_TRIED, MOST_NUMBERS = 200, 6


class Context(typing.NamedTuple):
    """The states at a place of a coproc (`is_upper`) or a proc. `values` gives each variable its value, over symbols; these satisfy `claims`.
    Where a formula of `limits` is infinite (in a proc: 0), nothing is claimed. If `is_exact`, some run is in each such state, and its value
    counts for the bound."""

    source: Source
    is_upper: bool
    values: dict
    claims: tuple = ()
    limits: tuple = ()
    is_exact: bool = True

    def of(self, node):
        """Returns the value of an expression of the source."""
        return self.source.expression(node, self.values)

    def chosen(self, names):
        """Gives variables any values."""
        found = {name: of_symbol(Symbol(name, self.values[name].type)) for name in names}
        return self._replace(values={**self.values, **found})

    def claimed(self, *claims):
        """Adds claims."""
        return self._replace(claims=(*self.claims, *claims))

    def limited(self, formula):
        """Adds a limit, if the formula can be one."""
        is_needed = formula.type == "EUReal" if self.is_upper else not is_positive(formula)
        return self._replace(limits=(*self.limits, formula)) if is_needed else self

    def blurred(self, is_blurred=True):
        """Makes the context inexact."""
        return self._replace(is_exact=self.is_exact and not is_blurred)

    def given(self, name, value):
        """Gives a variable a value. One of another type or a long one becomes a symbol that equals it."""
        if value.type == self.values[name].type and len(value.pieces) <= MOST_PIECES:
            return self._replace(values={**self.values, name: value})
        found = self.chosen([name])
        return found.claimed(same(found.values[name], value))

    def after(self, block):
        """Returns the context after statements without summaries."""
        context = self
        for statement in block:
            context = getattr(context, "after_" + statement[0])(*statement[1:])
        return context

    def after_declare(self, name, type_name):
        return self._replace(values={**self.values, name: Expression((), ATOM, type_name)})

    def after_set(self, targets, expression):
        return self.given(targets[0], self.of(expression))

    def after_any(self, names):
        return self.chosen(names)

    def after_reward(self, _):
        return self.blurred(not self.is_upper)

    def after_validate(self, _):
        return self

    def after_check(self, word, expression):
        if word == ("coassume" if self.is_upper else "assume"):
            return self.limited(self.of(expression))
        return self.blurred(word == ("assert" if self.is_upper else "coassert"))

    def after_toss(self, targets, expression):
        weight, chance = heyvl.literal(expression), self.of(expression)
        if weight is not None and (weight <= 0 or weight >= 1):
            return self.given(targets[0], plain("true" if weight >= 1 else "false", "Bool"))
        found = self.chosen(targets).blurred(not self.is_upper)
        if weight is not None:
            return found
        heads, tails = compared("<", plain("0", "UInt"), chance), compared("<", chance, plain("1", "UInt"))
        return found.claimed(choice(found.values[targets[0]], heads, tails))

    def after_draw(self, targets, parts):
        """`parts` has weights and values; those of a `unif` are numbers without a place."""
        values = [value for weight, value in parts if weight > 0]
        is_unif = not values[0].end
        if len(values) == 1:
            return self.given(targets[0], plain_number(values[0][1]) if is_unif else self.of(values[0]))
        context = self.blurred(not self.is_upper)
        if is_unif:
            return context.drawn(targets[0], values[0][1], values[-1][1])
        return context.one_of(targets[0], [self.of(value) for value in values])

    def drawn(self, name, first, last):
        """Gives a variable an integer between two."""
        type_name = "Int" if first < 0 else "UInt"
        symbol = of_symbol(Symbol(name, type_name))
        ends = [(plain_number(first), symbol)] * (first != 0 or type_name == "Int") + [(symbol, plain_number(last))]
        return self.claimed(*[compared("<=", a, b) for a, b in ends]).given(name, symbol)

    def one_of(self, name, values):
        """Gives a variable one of several values, by a symbol that says which."""
        if len(values) == 2:
            return self.given(name, choice(of_symbol(Symbol(name + "_part", "Bool")), *values))
        part, found = of_symbol(Symbol(name + "_part", "UInt")), values[-1]
        for number in reversed(range(len(values) - 1)):
            found = choice(same(part, plain_number(number)), values[number], found)
        return self.given(name, found)

    def after_if(self, arms, other):
        if not arms:
            return self.after(other)
        (guard, block), *more = arms
        return self.merged(self.of(guard), self.after(block), self.after_if(more, other))

    def after_pick(self, mark, left, right):
        test = of_symbol(Symbol("left", "Bool"))
        return self.merged(test, self.after(left), self.after(right)).blurred(not self.is_own_choice(mark))

    def is_own_choice(self, mark):
        """Returns whether the scheduler chooses at an `if` with this symbol."""
        return mark == ("\\cup" if self.is_upper else "\\cap")

    def merged(self, test, one, two):
        """Returns the context after two branches that begin in this one, where `test` says which is taken."""
        values = {name: one.values[name] if one.values[name].pieces == two.values[name].pieces else
                  choice(test, one.values[name], two.values[name]) for name in self.values}
        context = self._replace(values=values, is_exact=one.is_exact and two.is_exact)
        claims = [other.claims[len(self.claims):] for other in (one, two)]
        context = context.claimed(*[choice(test, *map(all_of, claims))] * any(claims))
        neutral, start = plain("0" if self.is_upper else "1", "UInt"), len(self.limits)
        limits = [choice(test, formula, neutral) for formula in one.limits[start:]]
        limits += [choice(test, neutral, formula) for formula in two.limits[start:]]
        return context._replace(limits=(*context.limits, *limits))


def relevant(context, seeds):
    """Returns the claims and limits of a context that speak of the symbols of the seeds, also through others. The rest is left out if small
    values satisfy it."""
    needed = {symbol for seed in seeds for symbol in symbols_of(seed)}
    left, kept = [(claim, True) for claim in context.claims] + [(limit, False) for limit in context.limits], []
    while left:
        found = [pair for pair in left if needed.intersection(symbols_of(pair[0]))]
        if not found and are_satisfied_somewhere(left, context.is_upper):
            break
        found = found or left
        left = [pair for pair in left if pair not in found]
        kept += found
        needed.update(symbol for pair in found for symbol in symbols_of(pair[0]))
    return [claim for claim, is_claim in kept if is_claim], [limit for limit, is_claim in kept if not is_claim]


def are_satisfied_somewhere(pairs, is_upper):
    """Whether some small values make the claims true and the limits finite, or in a proc above 0. A pair is an expression and whether it is
    a claim."""
    symbols = list(dict.fromkeys(symbol for expression, _ in pairs for symbol in symbols_of(expression)))
    found = {int(piece[0]) for expression, _ in pairs for piece in expression.pieces if isinstance(piece, tuple) and piece[0].isdigit()}
    numbers = sorted(found | {n + 1 for n in found} | {0, 1})[:MOST_NUMBERS]
    names = {symbol: plain(f"s{number}", symbol.type) for number, symbol in enumerate(symbols)}
    tests = [(heyvl.Reader(resolved(expression, names).text()).expression(), is_claim) for expression, is_claim in pairs]
    goal = goals.Goal([], is_upper)
    ranges = [[False, True] if symbol.type == "Bool" else list(map(Fraction, numbers)) for symbol in symbols]
    for values in itertools.islice(itertools.product(*ranges), MOST_TRIED):
        state = {names[symbol].text(): smtlib.Value(symbol.type, False, value) for symbol, value in zip(symbols, values)}
        if all(is_satisfied(goal.value(test, state), is_claim, is_upper) for test, is_claim in tests):
            return True
    return False


def is_satisfied(value, is_claim, is_upper):
    """Whether a claim has the value true, or a limit one that is finite, in a proc above 0."""
    return value.amount is True if is_claim else not value.infinite if is_upper else value.infinite or value.amount > 0
