"""Shows an obligation that fails: the state, both sides of the inequality there, and how the runs end."""
import conditions
import evaluate
import heyvl
from expressions import variables_of
from obligations import NOTHING

CHANGES = {
    "bound": "{up} the pre",
    "iteration": "{up} the invariant in this state",
    "exit": "{up} the invariant in this state",
    "call": "{up} the post of the called procedure",
    "ranking": "raise the ranking in this state",
    "weak": "lower it: a proc with @wlp bounds probabilities, so no formula of it may be above 1",
}
SIDES = {"bound": "the pre", "iteration": "the invariant", "exit": "the invariant", "ranking": "the ranking"}
MOST_ENDS = 8


class Failure:
    """An obligation of a file and the state in which it is false, as the report of `verify` has it. `is_shown` says whether the inequality is
    broken there."""

    def __init__(self, source, obligation, state):
        self.obligation = obligation
        text, _, marks = obligation.written(False)
        (procedure,) = heyvl.read(text)
        checks = {s.start: id(s[2]) for s in conditions.statements_of(procedure.body) if s[0] == "check"}
        posts = [(self.name(name), name) for name in sorted(variables_of(procedure.posts))]
        self.sides = evaluate.compare(
            procedure, source.procedures, {checks[place]: mark for place, mark in marks.items()}, obligation.is_wide(), state, posts)
        self.is_shown = self.sides.is_broken

    def name(self, name):
        """Returns the name in the source of a name of the obligation."""
        return self.obligation.shown.get(name, name)

    def values(self, pairs):
        return ", ".join(f"{self.name(name)} = {evaluate.written(value)}" for name, value in pairs)

    def lines(self):
        """Yields the lines below that of the obligation."""
        obligation, sides = self.obligation, self.sides
        yield f"claim: {obligation.claim}"
        yield f"state: {self.state()}"
        choices = [choice for choice in sides.ends[0].choices if choice[0]] if len(sides.ends) == 1 else []
        if choices:
            yield f"choices: {self.values(choices)}"
        stated, found = evaluate.written(sides.stated), evaluate.written(sides.found)
        if obligation.kind == "weak":
            yield f"the {obligation.label.removesuffix(' at most 1')} is {found}"
        else:
            side = SIDES.get(obligation.kind) or obligation.claim.split(" is ")[0]
            ends = list(self.ends()) if sides.is_sum else []
            yield f"{side} is {stated}, but has to be at {'least' if obligation.is_upper else 'most'} {found}{':' * bool(ends)}"
            yield from ends
        yield from self.changes()

    def changes(self):
        """Yields what would make the obligation true."""
        kind, is_upper, own = self.obligation.kind, self.obligation.is_upper, f"the pre of {self.obligation.procedure.name}"
        up, down = ("raise", "lower") if is_upper else ("lower", "raise")
        bounds = dict.fromkeys(end.label.partition(" (")[0] for end in self.sides.ends)
        bounds = [bound for bound in bounds if bound not in ("the post", own)]
        changes = [CHANGES[kind].format(up=up)]
        changes += [f"{down} {'it where the iteration leads' if bound == SIDES.get(kind) else bound}" for bound in bounds]
        changes += ["change the body"] * (kind == "bound" and not bounds)
        changes += ["take more copies by @k_induction"] * (kind == "iteration" and SIDES[kind] in bounds)
        changes += ["lower its step"] * (kind == "ranking")
        *others, last = changes
        yield f"change: {', '.join([*others, f'or {last}']) if others else last}"
        if kind in ("iteration", "exit", "ranking") and self.obligation.known:
            yield f"or: if no run reaches this state, let {SIDES[kind]} be {NOTHING[is_upper].text()} in it"

    def state(self):
        """Returns the values of the variables, then those of the inputs, then earlier values on which the state depends."""
        obligation, groups = self.obligation, {"": [], "inputs ": [], "before: ": []}
        inputs = {name for name, _ in obligation.procedure.inputs}
        for name, value in self.sides.inputs.items():
            is_input = self.name(name) in inputs
            if name in obligation.known:
                groups["inputs " if is_input and obligation.kind != "bound" else ""].append((name, value))
            elif (name, value.type) in obligation.inputs:
                groups["inputs " if is_input else "before: "].append((name, value))
        return "; ".join(word + self.values(group) for word, group in groups.items() if group) or "there are no inputs"

    def ends(self):
        """Yields how the runs end; the weighted values of the ends add up to the value of the body."""
        rows = next((rows for depth in (2, 1, 0) if len(rows := self.rows(depth)) <= MOST_ENDS), {})
        texts = [(value.strip("()") if weight == 1 else f"{weight} * {value}", label) for (value, label), weight in rows.items()]
        width = max((len(text) for text, _ in texts), default=0)
        reward = "the step and " if self.obligation.kind == "ranking" else "the reward and "
        for text, label in texts:
            yield f"  {text:{width}}  {reward * ('+' in text)}{label}"

    def rows(self, depth):
        """Returns the weights of the ends by their values and labels. These have all variables that were changed if `depth` is 2, those of the bound
        if it is 1, and none if it is 0."""
        rows = {}
        for end in self.sides.ends:
            variables = dict(end.state if depth else ())
            variables.update([other for other in end.others if depth == 2 and other[0] not in self.obligation.hidden])
            reward, value = evaluate.written(end.reward), evaluate.written(end.value)
            row = value if reward == "0" else f"({reward} + {value})", end.label + " where " * bool(variables) + self.values(variables.items())
            rows[row] = rows.get(row, 0) + end.weight
        return rows

    def decisions(self):
        """Returns the choices of the scheduler, if all runs can make them alike."""
        made = sorted((end.choices for end in self.sides.ends), key=len)
        is_one = self.sides.is_sum and made and all(choices == made[-1][:len(choices)] for choices in made)
        return [value if name is None else evaluate.written(value) for name, value in made[-1]] if is_one else []
