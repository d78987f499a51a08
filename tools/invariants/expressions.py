"""Expressions of HeyVL: their values in a state and their texts. Infinity is the float `INFINITY`."""
import functools
import operator
from fractions import Fraction

from expressions import LEVELS, type_of

INFINITY = float("inf")
COMPARISONS = {"==": operator.eq, "!=": operator.ne, "<": operator.lt, "<=": operator.le, ">": operator.gt,
               ">=": operator.ge}
CONDITIONS = {"!": operator.not_, "==>": lambda a, b: not a or b}
OPERATORS = {
    **COMPARISONS, "&&": lambda a, b: a and b, "||": lambda a, b: a or b, "[": int, "negative": operator.neg,
    "?": lambda a: INFINITY if a else 0, "!": lambda a: 0 if a else INFINITY, "~": lambda a: 0 if a == INFINITY else
    INFINITY, "==>": lambda a, b: INFINITY if a <= b else b, "<==": lambda a, b: 0 if a >= b else b, "\\cap": min,
    "\\cup": max, "+": operator.add, "-": lambda a, b: max(a - b, 0), "*": lambda a, b: a * b if a and b else 0,
    "/": lambda a, b: a if a == INFINITY else Fraction(a) / b,
}
MINUS, PREFIX = {"negative": "-"}, LEVELS["negative"]


class Failed(Exception):
    """Nothing is found: the program has a part that is not read, or a shape has no coefficients that serve."""


def number(value):
    """A number; one that is not an integer is a quotient."""
    value = Fraction(value)
    if value.denominator == 1:
        return ("number", value, "UInt")
    return ("/", number(value.numerator), number(value.denominator))


def variable(name):
    return ("variable", name)


def joined(mark, parts):
    """Expressions joined by an operator."""
    return functools.reduce(lambda a, b: (mark, a, b), parts)


def compiled(expression, types):
    """The function that gives the value of an expression over typed variables in a state."""
    kind, *parts = expression
    if kind == "variable":
        return operator.itemgetter(parts[0])
    if kind in ("number", "truth", "infinity"):
        value = INFINITY if kind == "infinity" else parts[0]
        value = int(value) if kind == "number" and value.denominator == 1 else value
        return lambda state: value
    if kind == "bind":
        raise Failed("a quantifier")
    functions = [compiled(part, types) for part in parts]
    if kind == "ite":
        test, yes, no = functions
        return lambda state: yes(state) if test(state) else no(state)
    function, first, last = OPERATORS[kind], functions[0], functions[-1]
    if kind in CONDITIONS and type_of(parts[0], types) == "Bool":
        function = CONDITIONS[kind]
    elif kind == "-" and type_of(expression, types) == "Int":
        function = operator.sub
    if len(functions) == 1:
        return lambda state: function(first(state))
    return lambda state: function(first(state), last(state))


def shown(expression, level=0):
    """The text of an expression, in parentheses where its operator binds less than `level`."""
    kind, *parts = expression
    if kind == "number":
        value = parts[0]
        text = str(value) if value.denominator == 1 else repr(float(value))
        is_exact = "e" not in text and Fraction(text) == value
        return text if is_exact else shown(number(value), level)
    if kind in ("truth", "infinity", "variable"):
        return "\\infty" if kind == "infinity" else str(parts[0]).lower() if kind == "truth" else parts[0]
    if kind == "[":
        return f"[{shown(parts[0])}]"
    if kind in ("?", "ite"):
        return f"{kind}({', '.join(map(shown, parts))})"
    at = LEVELS[kind]
    if at == PREFIX:
        return MINUS.get(kind, kind) + shown(parts[0], at)
    left, right = (at + 1, at) if at == 1 else (at + (at == 6), at + 1)
    space = "" if at == 8 else " "
    text = f"{shown(parts[0], left)}{space}{kind}{space}{shown(parts[1], right)}"
    return text if level <= at else f"({text})"


def parts_of(expression):
    """An expression and all parts of it."""
    yield expression
    for part in expression[1:]:
        if isinstance(part, tuple):
            yield from parts_of(part)


def renamed(expression, names):
    """An expression with other names for some of its variables."""
    if expression[0] == "variable":
        return variable(names.get(expression[1], expression[1]))
    return tuple(renamed(part, names) if isinstance(part, tuple) else part for part in expression)
