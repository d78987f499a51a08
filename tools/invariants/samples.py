"""States at which the linear programs have rows: inputs, states that runs reach, and changed ones."""
import itertools
import random
import time
from fractions import Fraction

import goals
from invariants.expressions import parts_of
from invariants.model import first_values, is_number

MOST_VALUES, MOST_ASKED, MOST_MET, MOST_LARGE, FAR = 180, 500, 1500, 1900, 1000


def size(state):
    return sum(abs(value) for value in state.values() if is_number(value))


def are_few(values):
    """Whether these seem to be all values of a variable that has few."""
    is_known = values and None not in values and len(values) <= MOST_VALUES and max(map(abs, values)) <= MOST_VALUES
    return is_known and all(Fraction(value).denominator == 1 for value in values)


class Samples:
    """Fills the samples of the loops of a model: `met` by runs, and `pool` with changed ones too."""

    def __init__(self, model, expressions, seed, seconds):
        self.model, self.random, self.loops = model, random.Random(seed), [model.loops[n] for n in sorted(model.loops)]
        self.constants = sorted({int(part[1]) for expression in expressions for part in parts_of(expression)
                                 if part[0] == "number" and part[1].denominator == 1 and part[1] <= FAR})
        entry = model.entry
        for state in self.inputs():
            entry.note(state)
        entry.met = {key: state for key, state in entry.pool.items() if model.is_begun(state)}
        entry.finite = {name: [False, True] for name in entry.changed if entry.types[name] == "Bool"}
        self.explore(time.time() + seconds)
        for loop in self.loops:
            for state in self.some(loop.met.values(), MOST_ASKED):
                loop.note(state)
            self.vary(loop, 250)
            near = [state for state in loop.met.values() if all(abs(v) < 40 for v in state.values() if is_number(v))]
            for state in self.some(near, 60):
                self.note_far(loop, state)
        for loop in self.loops if len(self.loops) > 1 else ():
            found = [pair for state in self.some(loop.pool.values(), 120) for pair in model.met(loop, state)]
            for other, state in self.some([pair for pair in found if pair[0] not in (loop, entry)], 150):
                other.note(state)

    def some(self, things, most):
        """Some of the things, at random."""
        things = list(things)
        return self.random.sample(things, min(most, len(things)))

    def other(self, type_name, state):
        """A value of a type, near that of some variable of a state, near a constant, or small."""
        chance, others = self.random, [abs(value) for value in state.values() if is_number(value)]
        if type_name == "Bool":
            return chance.random() < 0.5
        if others and chance.random() < 0.5:
            value = max(chance.choice(others) + chance.choice([-2, -1, 0, 0, 1, 2, chance.randint(-12, 12)]), 0)
        else:
            near = max(0, chance.choice(self.constants or [5]) + chance.randint(-1, 1))
            value = chance.choice([chance.randint(0, 4)] * 5 + [chance.randint(0, 12)] * 2 + [near, 37, FAR])
            value = Fraction(value * 4 + chance.randint(0, 7), 8) if type_name == "UReal" else value
        return value if type_name == "UReal" else int(value) * (chance.choice([1, -1]) if type_name == "Int" else 1)

    def inputs(self):
        """Inputs of a grid, others of which some are near each other, and such that are far away."""
        typed, chance = dict(self.model.procedure.inputs), self.random
        few = [[0, 1, 2, 3, 4, 5, 6, 7, 12, 37, FAR], [0, 1, 2, 5, 37], [0, 1, 3]][min(max(len(typed), 2), 4) - 2]
        quarters = [Fraction(n, 4) for n in (0, 1, 2, 3, 4, 5, 6, 8, 20, 4 * FAR)] if len(typed) <= 2 else few
        grids = [{"Bool": [False, True], "UReal": quarters}.get(t, few) for t in typed.values()]
        found = self.some(map(dict, (zip(typed, p) for p in itertools.product(*grids))), 260) if len(typed) < 9 else []
        for _ in range(200):
            state = {}
            for name in self.some(typed, len(typed)):
                state[name] = self.other(typed[name], state)
            found.append(state)
        outputs, numeric = self.model.procedure.outputs, [name for name, t in typed.items() if t != "Bool"]
        begun = [state for state in found if self.model.is_begun(state)]
        for state in [chance.choice(begun) for _ in range(120)] if numeric and begun else ():
            names = [name for name in numeric if chance.random() < 0.5] or numeric
            found.append({**state, **{name: self.far(state[name]) for name in names}})
        found += [{**found[0], **{name: self.other(t, {}) for name, t in outputs}} for _ in range(6)]
        return [{**first_values(outputs), **state} for state in found]

    def far(self, value):
        return value + (FAR if value >= 0 else -FAR) * self.random.choice([1, 1, 1, 2])

    def explore(self, until):
        """Collects states that runs reach, until a time: first in any order, then those in which a variable is largest,
        which shows whether it has few values."""
        queues, chance = {loop: [] for loop in self.loops}, self.random

        def take(loop, state, most):
            for met, at in self.model.met(loop, state):
                if met.number and met.key(at) not in met.met and len(met.met) < most:
                    met.met[met.key(at)] = at
                    queues[met].append(at)
        for state in sorted(self.model.entry.met.values(), key=size):
            take(self.model.entry, state, MOST_MET)
        for _ in range(900 + 300 * len(self.loops)):
            waiting = [loop for loop in self.loops if queues[loop]]
            if not waiting or time.time() > until:
                break
            loop = chance.choice(waiting)
            count = len(queues[loop])
            at = chance.choice([-1, -1, chance.randrange(count), chance.randrange(count // 8 + 1)])
            take(loop, queues[loop].pop(at), MOST_MET)
        before = {(loop, name): {s[name] for s in loop.met.values()} for loop in self.loops for name in loop.scope}
        for loop, name in [pair for pair in before for _ in range(40) if pair[0].types[pair[1]] != "Bool"]:
            values = [(abs(s[name]), at) for at, s in enumerate(queues[loop]) if is_number(s[name])]
            values = [pair for pair in values if pair[0] < MOST_ASKED]
            if values and time.time() < until:
                take(loop, queues[loop].pop(max(values)[1]), MOST_LARGE)
        is_done = not any(queues.values()) and all(len(loop.met) < MOST_MET for loop in self.loops)
        for (loop, name), values in before.items():
            found = {state[name] for state in loop.met.values()}
            if (is_done or found == values or loop.types[name] == "Bool") and are_few(found):
                loop.finite[name] = sorted(found)

    def note_far(self, loop, state):
        """Records copies of a state in which a changed variable is far away."""
        for name in loop.changed:
            if name in loop.scope and name not in loop.finite and is_number(state[name]):
                loop.note({**state, name: state[name] + FAR})

    def vary(self, loop, count):
        """Records states of runs with some changed variables at other values."""
        states = list(loop.met.values())
        for _ in range(count if states else 0):
            state = dict(self.random.choice(states))
            for name in loop.changed:
                few = loop.finite.get(name) if self.random.random() < 0.4 else None
                if self.random.random() < 0.6:
                    state[name] = self.random.choice(few) if few else self.other(loop.types[name], state)
            loop.note(state)

    def learn(self, number, plain, marked):
        """Takes a state that `verify` shows: for the loop of this number where it is about one, else for the inputs and
        the states reached from there with the values of the choices, which have marks."""
        model, heads = self.model, self.model.procedure.inputs + self.model.procedure.outputs
        if number:
            loop = model.loops[number]
            zeros = first_values((name, loop.types[name]) for name in loop.scope)
            loop.note({name: plain.get(name, zero) for name, zero in zeros.items()})
        state = {name: plain.get(name, value) for name, value in first_values(heads).items()}
        for name, values in marked.items():
            model.extra.setdefault(name, set()).update(filter(is_number, values))
        model.entry.note(state)
        waiting = model.met(model.entry, state)
        for _ in range(3):
            found = []
            for loop, at in [pair for pair in waiting if pair[0].number][:60]:
                for changed in self.with_marks(loop, at, marked):
                    loop.note(changed)
                    if any(is_number(value) and 20 < abs(value) < 500 for value in changed.values()):
                        self.note_far(loop, changed)
                    if len(self.loops) > 1 and self.random.random() < 0.2:
                        found += model.met(loop, changed)
            waiting = found

    @staticmethod
    def with_marks(loop, state, marked):
        """States in which changed variables have values that a counterexample chooses."""
        choices = []
        for name in loop.scope:
            more = [*first_values([(name, loop.types[name])]).values(), *marked.get(name, [])]
            choices.append(list(dict.fromkeys([state[name], *(more if name in loop.changed else [])])))
        return [dict(zip(loop.scope, values)) for values in itertools.islice(itertools.product(*choices), 200)]


def copies_of(procedure):
    """The inputs that the body begins by copying, each with its copy."""
    found = {}
    for statement in procedure.body:
        if statement[0] == "set" and statement[2][0] == "variable" and statement[2][1] in dict(procedure.inputs):
            found.setdefault(statement[2][1], statement[1][0])
    return found


def expressions_of(block):
    """The expressions of the statements of a block."""
    for kind, *parts in goals.statements_of(block):
        if kind in ("if", "draw"):
            yield from (pair[kind == "draw"] for pair in parts[kind == "draw"])
        elif kind == "call":
            yield from parts[2]
        elif kind in ("set", "toss", "while", "check", "reward"):
            yield parts[0 if kind == "reward" else 1]
