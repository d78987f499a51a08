"""Values of loops by bounded iteration, in floats: bounds from below in a coproc, from above in a proc with `@wlp`.
They show where a search is in vain; nothing is believed of them."""
import itertools
import time

from invariants.expressions import INFINITY
from invariants.samples import size

MOST_STATES, MOST_STARTS, TINY = 1500, 24, 1e-9


def iterated(model, starts, seconds):
    """Returns the values of starts, which are functions, after as many iterations as there is time for: each state in
    which runs reach a loop has its value as a coefficient."""
    end, states, rows, change = time.time() + seconds, [], {}, 1.0
    loops = [loop for loop in model.loops.values() if loop.rule is None or loop.number == model.ranked]
    rough, templates, model.rough = model.rough, [loop.template for loop in loops], {}

    def column(loop, state):
        name = (loop.number, loop.key(state))
        if name not in model.rough:
            model.rough[name] = 0.0 if model.is_upper else 1.0
            if len(states) < MOST_STATES:
                states.append((name, loop, state))
        return {name: 1}

    def value(name, loop, state):
        if name not in rows or model.has_choice:
            terms = loop.turn(state)
            rows[name] = terms and {column: float(factor) for column, factor in terms.items()}
        return float(model.number(rows[name]))
    try:
        for loop in loops:
            loop.template = lambda state, loop=loop: column(loop, state)
        for start in starts:
            start()
        for state in states:
            if time.time() < end:
                value(*state)
        while change > TINY and time.time() < end:
            change = 0.0
            for name, loop, state in reversed(states):
                new, old = value(name, loop, state), model.rough[name]
                change = max(change, abs(new - old) / (1 + new) if new < INFINITY else 0)
                model.rough[name] = new
        return [float(model.number(start())) for start in starts]
    finally:
        for loop, template in zip(loops, templates):
            loop.template = template
        model.rough = rough
        model.sides.clear()


def exact_total(model, aim, goals, seconds):
    """The least total over the goals that any invariant may have, in the sense of `Search`."""
    value_at = aim.at if aim.number else model.entry.turn
    total = sum(iterated(model, [lambda state=state: value_at(state) for state in goals], seconds))
    return total if model.is_upper else len(goals) - total


def broken(model, seconds):
    """The inputs at which iterations pass the pre, the small ones first, each with what they give and the pre."""
    if not model.is_upper and not model.procedure.is_weak:
        return []
    starts = [state for state in model.entry.met.values() if model.pre(state) != INFINITY]
    starts = sorted(starts, key=size)[:MOST_STARTS]
    values = iterated(model, [lambda state=state: model.entry.turn(state) for state in starts], seconds)
    found = [(state, value, model.pre(state)) for state, value in zip(starts, values)]
    sign = 1 if model.is_upper else -1
    return [(state, value, bound) for state, value, bound in found if sign * (value - bound) > 1e-7 * (1 + bound)]


def scripts(model, states):
    """Scripts for `refute` that start in these states: without choices, and with some; those of few steps first."""
    decisions = [""] + [f"decide {value}\n" * 200 for value in ("right", "true", "1", "7")] * model.has_choice
    for steps, state, decision in itertools.product((100, 1000, 10000), states, decisions):
        settings = "".join(f"set {name} {str(value).lower()}\n" for name, value in state.items())
        yield f"steps {steps}\n{settings}{decision}"
