"""Expressions of HeyLo as pieces of text, which can be put into each other.

A piece is a string with its place in the source, or None where it was added, or a `Symbol`. An `Expression` knows the level of its operator,
by which parentheses are set, and its type."""
import typing
from fractions import Fraction

import heyvl
from smtlib import join

LEVELS = {
    "bind": 0, "==>": 1, "<==": 1, "\\cup": 2, "\\cap": 3, "||": 4, "&&": 5,
    "==": 6, "!=": 6, "<": 6, "<=": 6, ">": 6, ">=": 6, "+": 7, "-": 7, "*": 8, "/": 8, "!": 9, "~": 9, "negative": 9,
}
ATOM = 10


class Symbol:
    """An unknown value. `hint` is a name for it."""

    def __init__(self, hint, type_name):
        self.hint, self.type = hint, type_name


class Expression(typing.NamedTuple):
    """The pieces of an expression, the level of its operator, and its type."""

    pieces: tuple
    level: int
    type: str

    def at(self, level):
        """Returns the pieces as an operand of this level."""
        return self.pieces if self.level >= level else (("(", None), *self.pieces, (")", None))

    def text(self):
        """Returns the text, in which each symbol is a `?`."""
        return "".join("?" if isinstance(piece, Symbol) else piece[0] for piece in self.pieces)


def plain(text, type_name, level=ATOM):
    return Expression(((text, None),), level, type_name)


def plain_number(value):
    return plain(str(value), "Int" if value < 0 else "UInt", LEVELS["negative"] if value < 0 else ATOM)


def of_symbol(symbol):
    return Expression((symbol,), ATOM, symbol.type)


def pieces_of(*parts):
    """Returns strings and tuples of pieces as one tuple of pieces."""
    return tuple(piece for part in parts for piece in (((part, None),) if isinstance(part, str) else part))


def listed(texts):
    """Returns tuples of pieces as one, with commas between."""
    return pieces_of(*[part for text in texts for part in (", ", text)][1:])


def choice(test, a, b):
    """Returns `ite(test, a, b)`."""
    type_name = a.type if a.type == b.type else join(a.type, b.type)
    return Expression(pieces_of("ite(", listed([test.pieces, a.pieces, b.pieces]), ")"), ATOM, type_name)


def compared(mark, a, b):
    """Returns a comparison of two expressions."""
    return Expression(pieces_of(a.at(7), f" {mark} ", b.at(7)), LEVELS[mark], "Bool")


def same(a, b):
    return compared("==", a, b)


def not_of(test):
    return Expression(pieces_of("!", test.at(ATOM)), LEVELS["!"], "Bool")


def all_of(tests):
    """Returns Bools joined by `&&`, without those that are `true`."""
    found = [test for test in tests if test.text() != "true"]
    return chained("&&", found) if found else plain("true", "Bool")


def joined(clauses, is_upper):
    """Returns several clauses as one bound."""
    if not clauses:
        return plain("0", "UInt") if is_upper else plain("\\infty", "EUReal")
    return chained("\\cup" if is_upper else "\\cap", clauses)


def chained(mark, expressions):
    """Returns expressions joined by an operator, from the left."""
    found, level = expressions[0], LEVELS[mark]
    for expression in expressions[1:]:
        pieces = pieces_of(found.at(level), f" {mark} ", expression.at(level + 1))
        found = Expression(pieces, level, join(found.type, expression.type))
    return found


def is_positive(formula):
    """Whether a formula is a literal above 0."""
    try:
        return Fraction(formula.text().replace(" ", "")) > 0
    except (ValueError, ZeroDivisionError):
        return formula.text() == "\\infty"


def symbols_of(expression):
    return [piece for piece in expression.pieces if isinstance(piece, Symbol)]


def resolved(expression, known):
    """Returns an expression with the expressions of `known` in place of its symbols."""
    pieces = [known[piece].pieces if isinstance(piece, Symbol) else (piece,) for piece in expression.pieces]
    return expression._replace(pieces=pieces_of(*pieces))


def variables_of(part):
    """Returns the names of the variables in a node, a list or a dictionary of nodes."""
    if isinstance(part, tuple) and part[:1] == ("variable",):
        return {part[1]}
    parts = part.values() if isinstance(part, dict) else part if isinstance(part, (tuple, list)) else ()
    return {name for inner in parts for name in variables_of(inner)}


def type_of(node, types):
    """Returns the type of an expression without an error."""
    kind, *parts = node
    if kind in ("number", "truth", "infinity", "bind", "?", "~", "<==", "["):
        return node[2] if kind == "number" else {"truth": "Bool", "[": "UInt"}.get(kind, "EUReal")
    if kind == "variable":
        return types[parts[0]]
    if kind in ("&&", "||", "==", "!=", "<", "<=", ">", ">="):
        return "Bool"
    if kind == "negative":
        return "Int"
    found = [type_of(part, types) for part in parts]
    if kind in ("!", "==>"):
        return "Bool" if found[0] == "Bool" else "EUReal"
    return join("UReal", found[0]) if kind == "/" else join(found[-2], found[-1])


class Source:
    """The text of a file, its tokens and its procedures."""

    def __init__(self, text):
        self.text, self.procedures, self.tokens = text, heyvl.read(text), heyvl.tokens_of(text)
        self.numbers = {start: number for number, (_, start, _) in enumerate(self.tokens)}
        self.words = {token for token, _, _ in self.tokens}

    def called(self, name):
        """Returns the procedure of a name."""
        return next(procedure for procedure in self.procedures if procedure.name == name)

    def position(self, place):
        """Returns the line and the column of a place."""
        return "%d:%d" % heyvl.line_column(self.text, place)

    def pieces(self, start, end, names):
        """Returns the text between two places, with one space for white space and comments, and with the expressions of `names` in place
        of the variables."""
        found, number, last = [], self.numbers[start], start
        while self.tokens[number][1] < end:
            token, first, last_of_token = self.tokens[number]
            found += [(" ", None)] * (first > last)
            found += names[token].at(ATOM) if token in names else [(token, first)]
            number, last = number + 1, last_of_token
        return tuple(found)

    def expression(self, node, names):
        """Returns a node of the source with the expressions of `names` in place of the variables."""
        types = {name: value.type for name, value in names.items()}
        bound = node
        while bound[0] == "bind":
            types.setdefault(bound[2], bound[1])
            bound = bound[3]
        return Expression(self.pieces(node.start, node.end, names), LEVELS.get(node[0], ATOM), type_of(node, types))
