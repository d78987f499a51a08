"""Reads a HeyVL file by the tokens, the load and the grammar of docs/LANGUAGE.md; `Fault` is raised where it is none.

A node is a tuple that begins with its kind. The statements, of which a `var` is two:

  ("declare", name, type), ("set", targets, expression), ("draw", targets, [(weight, value), ..]), ("toss", targets, expression),
  ("call", targets, name, arguments), ("any", names), ("reward", expression), ("check", word, expression), ("validate", word),
  ("if", [(guard, block), ..], block), ("pick", mark, block, block), ("while", {rule: expressions}, guard, block)

The expressions, where `mark` is the symbol of a binary operator:

  ("number", fraction, type), ("truth", bool), ("infinity",), ("variable", name), ("!", a), ("negative", a), ("~", a), ("[", a),
  ("?", a), ("ite", a, b, c), ("bind", type, name, a), (mark, a, b)

Each node and each block has its places in the text: `start`, that of its first character, and `end`, that after its last one.
"""
import re
import sys
from fractions import Fraction

SPACE = re.compile(r"(?:[ \t\r\n]|//[^\n]*|/\*.*?\*/)*", re.S)
TOKEN = re.compile(
    r"\\(?:cap|cup|infty)(?!\w)|[A-Za-z_]\w*|\d+(?:\.\d+)?|<==|==>|==|!=|<=|>=|->|&&|\|\||[(){}\[\],:;.=<>+*/!~?@-]", re.A
)
WORD = re.compile(r"[A-Za-z_]\w*", re.A)
TYPES = ["Bool", "Int", "UInt", "UReal", "EUReal", "Real"]
KEYS = {
    *TYPES, *"proc coproc pre post var if else while assert assume coassert coassume havoc cohavoc validate covalidate".split(),
    *"reward tick true false ite flip unif choose sup inf".split(),
}
LEVELS = [("\\cup",), ("\\cap",), ("||",), ("&&",), ("==", "!=", "<", "<=", ">", ">="), ("+", "-"), ("*", "/")]
RULES = {"invariant": 1, "k_induction": 2, "ranking": 2}
DEEPER = {*"+ - * / && || ! ~ == != < <= > >= ==> <== \\cap \\cup sup inf".split()}
FLATTER = {
    *", ; = @ proc coproc pre post var if else while assert assume coassert coassume havoc cohavoc validate covalidate".split(), "reward", "tick",
}
LOAD, PROCEDURES = 200, 1024
FAULTS = {
    1: "no token here", 2: "comment without end", 3: "number too large", 4: "unexpected token or end of file", 5: "nested too deeply",
    6: "too many procedures", 10: "unknown name", 11: "name given twice", 12: "types do not agree", 13: "input assigned",
    14: "wrong number of values", 15: "literal out of range", 16: "division", 17: "statement on the wrong side",
    18: "loop without one rule", 19: "k out of range", 20: "reward in a weak procedure", 21: "call against the direction",
    22: "ranking body", 23: "quantifier out of place", 24: "procedure too large",
}


class Fault(Exception):
    """An error of docs/LANGUAGE.md: its number, and its place in the text."""

    def __init__(self, number, place):
        super().__init__(number, place)
        self.number, self.place = number, place

    def line(self, text):
        """The line that the program writes."""
        return "%d:%d: fault %d: %s" % (*line_column(text, self.place), self.number, FAULTS[self.number])


class Node(tuple):
    """A node of the tree. `group` has the places of the parentheses around an expression, or is None; `mark` is the place of its operator, or
    its start."""

    start = end = mark = 0
    group = None

    def placed(self, start, end, mark=None, **others):
        self.start, self.end, self.mark = start, end, start if mark is None else mark
        vars(self).update(others)
        return self

    def grouped(self, start, end):
        """The same node in parentheses."""
        return Node(self).placed(self.start, self.end, self.mark, group=(start, end))


class Block(list):
    """The statements of a block, with the places of its braces; an else that isn't written starts where it ends."""

    def __init__(self, start, end, statements=()):
        super().__init__(statements)
        self.start, self.end = start, end


class Procedure:
    """A procedure: its note or None, whether it has `@wlp`, whether it is a coproc, its name, inputs, outputs and clauses, and its body or None.
    `clauses` has the nodes ("pre", expression) and ("post", expression) in the order of the text."""

    def __init__(self, reader):
        self.start = reader.place()
        self.note = reader.one_of(["wlp", "wp", "ert"]) if reader.took("@") else None
        self.is_weak, self.is_upper = self.note == "wlp", reader.one_of(["proc", "coproc"]) == "coproc"
        self.name_start, self.name = reader.place(), reader.name()
        self.inputs = reader.listed("(", reader.typed, ")")
        reader.expect("->")
        self.outputs, self.clauses = reader.listed("(", reader.typed, ")"), []
        while reader.seen() in ("pre", "post"):
            start = reader.place()
            self.clauses.append(reader.node(start, reader.token(), reader.expression()))
        self.pres, self.posts = ([clause for kind, clause in self.clauses if kind == word] for word in ("pre", "post"))
        self.body = reader.block() if reader.seen() == "{" else None
        self.end = reader.last_end()


class Reader:
    """The tokens of a text and the number of the next one; each method reads what it is called after."""

    def __init__(self, text):
        self.tokens, self.next = tokens_of(text), 0

    def seen(self, ahead=0):
        return self.tokens[min(self.next + ahead, len(self.tokens) - 1)][0]

    def place(self):
        return self.tokens[self.next][1]

    def last_end(self):
        return self.tokens[self.next - 1][2]

    def node(self, start, *parts, **others):
        return Node(parts).placed(start, self.last_end(), **others)

    def token(self):
        self.next += 1
        return self.tokens[self.next - 1][0]

    def took(self, token):
        is_there = self.seen() == token
        self.next += is_there
        return is_there

    def expect(self, token):
        if not self.took(token):
            raise Fault(4, self.place())

    def one_of(self, tokens):
        if self.seen() not in tokens:
            raise Fault(4, self.place())
        return self.token()

    def is_name(self):
        return WORD.match(self.seen()) is not None and self.seen() not in KEYS

    def name(self):
        if not self.is_name():
            raise Fault(4, self.place())
        return self.token()

    def some(self, read):
        """One or more with commas between."""
        found = [read()]
        while self.took(","):
            found.append(read())
        return found

    def listed(self, first, read, last):
        self.expect(first)
        found = [] if self.seen() == last else self.some(read)
        self.expect(last)
        return found

    def arguments(self, count):
        """As many expressions in parentheses."""
        self.expect("(")
        found = [self.expression()]
        for _ in range(count - 1):
            self.expect(",")
            found.append(self.expression())
        self.expect(")")
        return found

    def typed(self):
        start, name = self.place(), self.name()
        self.expect(":")
        return self.node(start, name, self.one_of(TYPES))

    def block(self):
        start, found = self.place(), []
        self.expect("{")
        while not self.took("}"):
            found += self.statement()
            while self.took(";"):
                pass
        return Block(start, self.last_end(), found)

    def no_block(self):
        return Block(self.last_end(), self.last_end())

    def statement(self):
        start = self.place()
        if self.seen() == "@" or self.seen() == "while":
            return [self.loop(start)]
        if self.is_name():
            return [self.assignment(start)]
        word = self.token()
        if word == "var":
            name, type_name = self.typed()
            value = self.right(start, [name]) if self.took("=") else self.node(start, "any", [name])
            return [self.node(start, "declare", name, type_name), value]
        if word in ("assert", "assume", "coassert", "coassume"):
            return [self.node(start, "check", word, self.expression())]
        if word in ("validate", "covalidate"):
            return [self.node(start, "validate", word)]
        if word in ("reward", "tick"):
            return [self.node(start, "reward", self.expression())]
        if word in ("havoc", "cohavoc"):
            return [self.node(start, "any", self.some(self.name), word=word)]
        if word == "if":
            return [self.branches(start)]
        raise Fault(4, start)

    def assignment(self, start):
        if self.seen(1) == "(":
            return self.node(start, "call", [], self.name(), self.listed("(", self.expression, ")"))
        targets = self.some(self.name)
        self.expect("=")
        return self.right(start, targets)

    def branches(self, start):
        if self.seen() in ("\\cap", "\\cup"):
            mark, first = self.token(), self.block()
            return self.node(start, "pick", mark, first, self.block() if self.took("else") else self.no_block())
        arms = [(self.expression(), self.block())]
        while self.took("else"):
            if not self.took("if"):
                return self.node(start, "if", arms, self.block())
            arms.append((self.expression(), self.block()))
        return self.node(start, "if", arms, self.no_block())

    def loop(self, start):
        """A loop; `rules` has the nodes (rule, expressions) in the order of the text."""
        rules = []
        while self.seen() == "@":
            at = self.place()
            self.token()
            word = self.one_of(RULES)
            rules.append(self.node(at, word, self.arguments(RULES[word])))
        self.expect("while")
        return self.node(start, "while", dict(rules), self.expression(), self.block(), rules=rules)

    def right(self, start, targets):
        """What a `=` gives to targets; of a draw, `parts` has what is written in its braces or parentheses."""
        if self.is_name() and self.seen(1) == "(":
            return self.node(start, "call", targets, self.name(), self.listed("(", self.expression, ")"))
        if self.took("flip"):
            return self.node(start, "toss", targets, *self.arguments(1))
        if self.took("unif"):
            ends = self.arguments(2)
            return self.node(start, "draw", targets, uniform(*ends), word="unif", parts=ends)
        if self.took("choose"):
            self.expect("{")
            parts = self.some(self.part)
            self.expect("}")
            return self.node(start, "draw", targets, [(literal(weight), value) for weight, value in parts], word="choose", parts=parts)
        return self.node(start, "set", targets, self.expression())

    def part(self):
        weight = self.expression()
        self.expect(":")
        return weight, self.expression()

    def expression(self):
        start = self.place()
        if self.seen() in ("sup", "inf"):
            word = self.token()
            name, type_name = self.typed()
            self.expect(".")
            return self.node(start, "bind", type_name, name, self.expression(), word=word)
        return self.implication()

    def implication(self):
        start, left = self.place(), self.level(0)
        mark = self.place()
        if self.seen() not in ("==>", "<=="):
            return left
        return self.node(start, self.token(), left, self.implication(), mark=mark)

    def level(self, number):
        if number == len(LEVELS):
            return self.prefixed()
        start, left = self.place(), self.level(number + 1)
        while self.seen() in LEVELS[number]:
            mark = self.place()
            left = self.node(start, self.token(), left, self.level(number + 1), mark=mark)
            if "<" in LEVELS[number]:
                break
        return left

    def prefixed(self):
        start, token = self.place(), self.seen()
        if self.is_name():
            return self.node(start, "variable", self.token())
        self.next += 1
        if token in ("!", "~", "-"):
            return self.node(start, "negative" if token == "-" else token, self.prefixed())
        if token in ("(", "[", "?"):
            if token == "?":
                self.expect("(")
            inner = self.expression()
            self.expect("]" if token == "[" else ")")
            return inner.grouped(start, self.last_end()) if token == "(" else self.node(start, token, inner)
        if token == "ite":
            return self.node(start, "ite", *self.arguments(3))
        if token in ("true", "false"):
            return self.node(start, "truth", token == "true")
        if token[:1].isdigit():
            number = Fraction(token)
            return self.node(start, "number", number, "UInt" if number.denominator == 1 else "UReal")
        if token == "\\infty":
            return self.node(start, "infinity")
        raise Fault(4, start)


def tokens_of(text):
    """The tokens with their starts and ends, and an empty one at the end of the text."""
    found, place = [], 0
    while (place := SPACE.match(text, place).end()) < len(text):
        token = TOKEN.match(text, place)
        if text.startswith("/*", place) or token is None:
            raise Fault(2 if text.startswith("/*", place) else 1, place)
        digits, _, fraction = token[0].partition(".")
        if token[0][0].isdigit() and (len(fraction) > 38 or len(digits) > 200 or int(digits + fraction) >= 2**127):
            raise Fault(3, place)
        found.append((token[0], place, token.end()))
        place = token.end()
    refuse_load(found)
    heads = [start for token, start, _ in found if token in ("proc", "coproc")]
    if len(heads) > PROCEDURES:
        raise Fault(6, heads[PROCEDURES])
    return [*found, ("", len(text), len(text))]


def refuse_load(tokens):
    """Refuses tokens whose load is too high."""
    counts, load = [0], 0
    for token, place, _ in tokens:
        if token in ("(", "[", "{"):
            counts.append(0)
            load += 1
        elif token in (")", "]", "}") and len(counts) > 1:
            load -= counts.pop() + 1
        elif token in DEEPER:
            counts[-1] += 1
            load += 1
        elif token in FLATTER:
            load -= counts[-1]
            counts[-1] = 0
        if load > LOAD:
            raise Fault(5, place)


def literal(expression):
    """The value of a literal without parentheses: a number, a negated one, or one divided by another; else None."""
    kind, *parts = expression
    if expression.group is not None:
        return None
    if kind == "number":
        return parts[0]
    numbers = [literal(part) for part in parts] if kind in ("negative", "/") else [None]
    if None in numbers or kind == "/" and numbers[1] == 0:
        return None
    return -numbers[0] if kind == "negative" else numbers[0] / numbers[1]


def uniform(first, last):
    """Returns the parts of a draw of integers between two literals, or none."""
    first, last = literal(first), literal(last)
    if None in (first, last) or first.denominator * last.denominator != 1:
        return []
    values = range(int(first), min(int(last), int(first) + 256) + 1)
    return [(Fraction(1, len(values)), Node(("number", Fraction(n), "Int"))) for n in values]


def line_column(text, place):
    """The line and the column of a place, as the program counts them: both from 1, columns in bytes."""
    start = text.rfind("\n", 0, place) + 1
    return text.count("\n", 0, place) + 1, len(text[start:place].encode("utf-8", "surrogateescape")) + 1


def read(text):
    """The procedures of a file, in their order."""
    sys.setrecursionlimit(max(sys.getrecursionlimit(), 100_000))
    reader, found = Reader(text), []
    while reader.seen():
        found.append(Procedure(reader))
    return found
