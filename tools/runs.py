"""The sums over the runs of a program under a script, by docs/RUNS.md."""
import typing
from fractions import Fraction

import goals
from smtlib import ZERO, Value

MOST = 1000


class Run(typing.NamedTuple):
    """A run that is under way: what it weighs, its state, the statements that are left of it, its reward, the number of its
    choices and the loops whose test has held."""

    weight: Fraction
    state: dict
    left: tuple
    reward: Value
    choices: int
    turned: tuple


class Runs:
    """The steps of runs; each kind of statement gives the runs that a run becomes."""

    def __init__(self, file, entries):
        self.file, self.entries, self.goal = file, entries, goals.Goal(file, True)

    def stepped(self, run):
        if not run.left:
            return [run]
        kind, *parts = run.left[0]
        return getattr(self, kind + "_steps")(run._replace(left=run.left[1:]), *parts)

    def entry(self, run):
        """What the script has for the next choice of a run."""
        return self.entries[run.choices] if run.choices < len(self.entries) else None

    def put(self, run, targets, values):
        return run._replace(state=self.goal.put(run.state, targets, values))

    def declare_steps(self, run, name, type_name):
        return self.stepped(run._replace(state={**run.state, name: Value(type_name, False, None)}))

    def set_steps(self, run, targets, expression):
        return [self.put(run, targets, [self.goal.value(expression, run.state)])]

    def draw_steps(self, run, targets, parts):
        return [self.set_steps(run._replace(weight=run.weight * weight), targets, value)[0] for weight, value in parts]

    def toss_steps(self, run, targets, expression):
        heads = min(self.goal.value(expression, run.state).amount, Fraction(1))
        sides = ((True, heads), (False, 1 - heads))
        return [self.put(run._replace(weight=run.weight * weight), targets, [Value("Bool", False, side)]) for side, weight in sides]

    def any_steps(self, run, names):
        type_name, entry = run.state[names[0]].type, self.entry(run)
        amount = type_name == "Bool" and entry == "true"
        if type_name != "Bool":
            amount = Fraction(entry) if entry and entry[-1].isdigit() else Fraction(0)
            is_typed = (amount >= 0 or type_name == "Int") and (amount.denominator == 1 or type_name == "UReal")
            amount = amount if is_typed else Fraction(0)
        left = (("any", names[1:]),) * bool(names[1:]) + run.left
        return [self.put(run._replace(choices=run.choices + 1, left=left), names, [Value(type_name, False, amount)])]

    def pick_steps(self, run, mark, left, right):
        block = right if self.entry(run) == "right" else left
        return [run._replace(choices=run.choices + 1, left=(*block, *run.left))]

    def reward_steps(self, run, expression):
        return [run._replace(reward=self.goal.sum(run.reward, self.goal.value(expression, run.state)))]

    def if_steps(self, run, arms, other):
        block = next((block for guard, block in arms if self.goal.value(guard, run.state).amount), other)
        return [run._replace(left=(*block, *run.left))]

    def while_steps(self, run, rules, guard, block):
        if not self.goal.value(guard, run.state).amount:
            return [run]
        left = (*block, ("while", rules, guard, block), *run.left)
        return [run._replace(left=left, turned=(*run.turned, id(rules)))]

    def call_steps(self, run, targets, name, arguments):
        called = next(procedure for procedure in self.file if procedure.name == name)
        values = [Value("", *self.goal.value(argument, run.state)[1:]) for argument in arguments]
        state = self.goal.put({x: Value(t, False, None) for x, t in called.inputs + called.outputs}, dict(called.inputs), values)
        outputs = [x for x, _ in called.outputs]
        choices = [("any", [x]) for x in outputs]
        return [run._replace(state=state, left=(*choices, *called.body, ("return", targets, run.state, outputs), *run.left))]

    def return_steps(self, run, targets, state, outputs):
        return [self.put(run._replace(state=state), targets, [run.state[x] for x in outputs])]

    def sum(self, runs, worth):
        """Returns the sum over runs of `worth` of each, weighted."""
        found = ZERO
        for run in runs:
            found = self.goal.sum(found, self.goal.product(Value("UReal", False, run.weight), worth(run)))
        return "infinity" if found.infinite else str(found.amount)


def sums(file, procedure, state, steps, entries):
    """What `run` has to write, or none where there are many runs."""
    runs = Runs(file, entries)
    found = [Run(Fraction(1), state, tuple(procedure.body), ZERO, 0, ())]
    for _ in range(steps):
        found = [run for before in found for run in runs.stepped(before)]
        if len(found) > MOST:
            return None
    ended, running = ([run for run in found if bool(run.left) == is_left] for is_left in (False, True))
    lines = [
        f"post {runs.sum(ended, lambda run: goals.Goal(file, procedure.is_upper).clauses(procedure.posts, run.state))}",
        f"reward {runs.sum(found, lambda run: run.reward)}",
        f"running {sum(run.weight for run in running)}",
    ]
    loops = [statement[1] for statement in goals.statements_of(procedure.body) if statement[0] == "while"]
    for number, rules in enumerate(loops, 1):
        turns = sum((run.weight * run.turned.count(id(rules)) for run in found), Fraction(0))
        lines.append(f"loop {number} turns {turns}")
    return "\n".join(lines) + "\n"
