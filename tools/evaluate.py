"""Computes the pre-expectation of a procedure in a state, with the choices that a report shows for it, and the ends of runs that contribute to it.

Choices are numbered as reports number them: all ways through the body in their order, also those that aren't taken."""
import re
import typing
from fractions import Fraction

import conditions
import goals
from smtlib import INFINITY, ONE, ZERO, Value

WEIGHT, REWARD, CHOICES = "#weight", "#reward", "#choices"


class End(typing.NamedTuple):
    """How some of the runs end: their weight, the rewards so far, the value of the bound there, its label, its variables with their values,
    other variables that were changed, and the choices that were made."""

    weight: Fraction
    reward: Value
    value: Value
    label: str
    state: tuple
    others: tuple
    choices: tuple


def read_state(text):
    """Returns the values that a state gives to names, and to choices by their names and numbers."""
    values, choices = {}, {}
    for name, number, value in re.findall(r"(\w+)(?:'(\d+))? = ([\w/-]+)", "" if text == "any state" else text):
        found = value == "true" if value in ("true", "false") else Fraction(value)
        if number:
            choices[name, int(number)] = found
        else:
            values[name] = found
    return values, choices


def typed(type_name, value):
    """Returns a value of a type, where None is 0 or false."""
    return Value(type_name, False, value if value is not None else False if type_name == "Bool" else Fraction(0))


def written(value):
    """Returns a value as a text."""
    if isinstance(value.amount, bool):
        return "true" if value.amount else "false"
    return "infinite" if value.infinite else str(value.amount)


class Evaluation(goals.Goal):
    """Evaluates a body; `ends` has the ends of its runs, and `is_sum` says whether the whole value is their weighted sum."""

    def __init__(self, file, is_upper, choices, marks, count=0):
        super().__init__(file, is_upper)
        self.choices, self.marks, self.count, self.ends, self.is_sum, self.has_choices = choices, marks, count, [], True, True
        self.changed = set()

    def state(self, types):
        found = {}
        for name, type_name in types:
            self.count += 1
            found[name] = typed(type_name, self.choices.get((name, self.count)))
        return found

    def value(self, expression, state):
        if expression[0] == "bind":
            _, type_name, name, inner = expression
            return self.value(inner, {**state, **self.state([(name, type_name)])})
        return super().value(expression, state)

    def is_left_out(self, state):
        """Whether no run is in this state and no choice is to be counted."""
        return state[WEIGHT].amount == 0 and not self.has_choices

    def worth(self, block, state, follows):
        return ZERO if self.is_left_out(state) else super().worth(block, state, follows)

    def weighed(self, state, weight):
        return {**state, WEIGHT: Value("#", False, state[WEIGHT].amount * weight)}

    def made(self, state, choices):
        return {**state, CHOICES: Value("#", False, state[CHOICES].amount + tuple(choices))}

    def draw_worth(self, state, rest, targets, parts):
        found = ZERO
        for weight, expression in parts:
            after = self.put(self.weighed(state, weight), targets, [self.value(expression, state)])
            found = self.sum(found, self.product(Value("UReal", False, weight), rest(after)))
        return found

    def toss_worth(self, state, rest, targets, expression):
        heads = self.least(self.value(expression, state), ONE).amount
        parts = [(heads, ("truth", True)), (1 - heads, ("truth", False))]
        return self.draw_worth(state, rest, targets, parts)

    def any_worth(self, state, rest, names):
        chosen = self.state((name, state[name].type) for name in names)
        return rest(self.made({**state, **chosen}, chosen.items()))

    def reward_worth(self, state, rest, expression):
        reward = self.value(expression, state)
        after = {**state, REWARD: self.sum(state[REWARD], reward)}
        return self.sum(rest(after), reward)

    def if_worth(self, state, rest, arms, other):
        found, is_taken = None, False
        for guard, block in [*arms, (("truth", True), other)]:
            is_now = not is_taken and self.value(guard, state).amount is True
            value = self.inner(block, state if is_now else self.weighed(state, 0), rest)
            found, is_taken = value if is_now else found, is_taken or is_now
        return found

    def pick_worth(self, state, rest, mark, left, right):
        start = len(self.ends)
        one = self.inner(left, self.made(state, [(None, "left")]), rest)
        middle = len(self.ends)
        two = self.inner(right, self.made(state, [(None, "right")]), rest)
        is_left = self.at_most(two, one) if mark == "\\cup" else self.at_most(one, two)
        self.ends = self.ends[:middle] if is_left else self.ends[:start] + self.ends[middle:]
        return one if is_left else two

    def check_worth(self, state, rest, word, expression):
        mark = self.marks.get(id(expression))
        if mark is not None:
            value = self.value(expression, state)
            self.ended(state, value, mark.label, mark.variables)
            if self.has_choices:
                rest(self.weighed(state, 0))
            return value
        if expression[0] == "?" and expression[1] == ("truth", self.is_upper) and word.endswith("assume"):
            if self.has_choices:
                rest(self.weighed(state, 0))
            return ZERO if self.is_upper else INFINITY
        self.is_sum = self.is_sum and state[WEIGHT].amount == 0
        return super().check_worth(state, rest, word, expression)

    def validate_worth(self, state, rest, word):
        self.is_sum = self.is_sum and state[WEIGHT].amount == 0
        return super().validate_worth(state, rest, word)

    def call_worth(self, state, rest, targets, name, arguments):
        self.is_sum = self.is_sum and state[WEIGHT].amount == 0
        return super().call_worth(state, rest, targets, name, arguments)

    def while_worth(self, state, rest, rules, guard, block):
        self.is_sum = self.is_sum and state[WEIGHT].amount == 0
        return super().while_worth(state, rest, rules, guard, block)

    def ended(self, state, value, label, variables):
        if state[WEIGHT].amount > 0:
            shown = tuple((name, state[inner]) for name, inner in variables if inner in state)
            bound = {inner for _, inner in variables}
            others = tuple((name, state[name]) for name in state if name in self.changed and name not in bound)
            self.ends.append(End(state[WEIGHT].amount, state[REWARD], value, label, shown, others, state[CHOICES].amount))

    def body(self, procedure, state, posts):
        """Returns the value of a body in a state; `posts` has the variables of the post clauses, each with its name in the source."""
        blocks, self.changed = list(conditions.statements_of(procedure.body)), conditions.targets_of(procedure.body)
        self.has_choices = any(s[0] in ("any", "call", "while") for s in blocks) or any(post[0] == "bind" for post in procedure.posts)
        start = {**state, WEIGHT: Value("#", False, Fraction(1)), REWARD: ZERO, CHOICES: Value("#", False, ())}

        def follows(after):
            value = self.clauses(procedure.posts, after)
            self.ended(after, value, "the post", posts)
            return value

        return self.worth(procedure.body, start, follows)


class Comparison(typing.NamedTuple):
    """Both sides of an obligation in a state: the value of the pre and that of the body, whether the inequality fails, the ends of the runs,
    whether these make up the value, and the values of the inputs."""

    stated: Value
    found: Value
    is_broken: bool
    ends: list
    is_sum: bool
    inputs: dict


def compare(procedure, file, marks, is_wide, state_text, posts):
    """Compares both sides of a procedure in the state of a report; a wide one has its inputs as its first choices."""
    values, choices = read_state(state_text)
    typed_names = procedure.inputs + procedure.outputs
    state = {name: typed(type_name, values.get(name)) for name, type_name in typed_names}
    count = 0
    if is_wide:
        for count, (name, type_name) in enumerate(procedure.inputs, 1):
            state[name] = typed(type_name, choices.get((name, count)))
    evaluation = Evaluation(file, procedure.is_upper, choices, marks, count)
    stated = evaluation.clauses(procedure.pres, state)
    found = evaluation.body(procedure, state, posts)
    at_most = evaluation.at_most(found, stated) if procedure.is_upper else evaluation.at_most(stated, found)
    inputs = {name: state[name] for name, _ in typed_names}
    return Comparison(stated, found, not at_most, evaluation.ends, evaluation.is_sum, inputs)
