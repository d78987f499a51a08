"""Writes random HeyVL files without an error, by the grammar and the static rules of docs/LANGUAGE.md."""
import random
from fractions import Fraction

TYPES = ["Bool", "UInt", "Int", "UReal"]
NARROWER = {"Bool": ["Bool"], "UInt": ["UInt"], "Int": ["UInt", "Int"], "UReal": ["UInt", "UReal"], "EUReal": ["UInt", "UReal"]}
LITERALS = {
    "Bool": ["true", "false"], "UInt": ["0", "1", "2", "3.0", "7"], "Int": ["0", "1", "-1", "-2", "4"],
    "UReal": ["0", "1", "0.5", "1/3", "2.50", "3"], "EUReal": ["0", "1", "0.75", "5/2", "\\infty"],
}
OPERATORS = {
    "Bool": ["ite", "(", "!", "&&", "||", "==>", "==", "<", "<", "<"],
    "UInt": ["ite", "(", "*", "\\cap", "\\cup", "+", "-", "["],
    "Int": ["ite", "(", "*", "\\cap", "\\cup", "+", "-", "negative"],
    "UReal": ["ite", "(", "*", "\\cap", "\\cup", "+", "-", "[", "/"],
    "EUReal": ["ite", "(", "*", "\\cap", "\\cup", "+", "[", "/", "?", "!", "~", "==>", "<=="],
}
LEVELS = {"==>": 1, "<==": 1, "\\cup": 2, "\\cap": 3, "||": 4, "&&": 5, "+": 7, "-": 7}
WEIGHTS = [["1/2", "1/2"], ["0.25", "3/4"], ["1/3", "1/3", "1/3"], ["0", "1"], ["1"], ["1/6", "0.5", "2/6"]]
CHANCES = ["1/2", "0.25", "1/3", "0.75", "1", "0"]


def named(type_name, scope):
    """A name that isn't visible."""
    return f"{dict(Bool='b', UInt='n', Int='i', UReal='r')[type_name]}{len(scope)}"


def typed(scope):
    return ", ".join(f"{x}: {type_name}" for x, type_name in scope.items())


class Writer(random.Random):
    """Writes expressions for a type to which they widen; a scope gives each visible variable its type. A level is that of the
    grammar, from a quantifier's 0 to an atom's 10."""

    def is_now(self, share):
        return self.random() < share

    def any(self, wanted, scope, level=0, depth=2):
        """The text of an expression, in parentheses where its level is below the one that is wanted."""
        text, found = self.leaf(wanted, scope) if depth == 0 or self.is_now(0.2) else self.applied(wanted, scope, depth)
        return text if found >= level and self.is_now(0.97) else f"({text})"

    def leaf(self, wanted, scope):
        found = [name for name, type_name in scope.items() if type_name in NARROWER[wanted]]
        if found and self.is_now(0.7):
            return self.choice(found), 10
        text = self.choice(LITERALS[wanted])
        return text, 9 if text[0] == "-" else 8 if "/" in text else 10

    def applied(self, wanted, scope, depth):
        """An operator with its parts, and its level."""

        def part(level, type_name=wanted):
            return self.any(type_name, scope, level, depth - 1)

        kind = self.choice(OPERATORS[wanted])
        if kind == "ite":
            return f"ite({part(0, 'Bool')}, {part(0)}, {part(0)})", 10
        if kind in ("(", "[", "?"):
            return {"(": "(%s)", "[": "[%s]", "?": "?(%s)"}[kind] % part(0, wanted if kind == "(" else "Bool"), 10
        if kind in ("!", "~", "negative"):
            return {"negative": "-"}.get(kind, kind) + part(9), 9
        if kind == "/":
            return f"{part(8)} / {self.choice(['2', '3', '0.5'])}", 8
        if kind == "*":
            factor = self.any("UInt" if self.is_now(0.8) else wanted, scope if self.is_now(0.05) else {}, 9, 0)
            return " * ".join(self.sample([factor, part(9)], 2)), 8
        if kind in ("==", "<"):
            sides = self.choice(TYPES if kind == "==" else TYPES[1:])
            return f"{part(7, sides)} {self.choice(['==', '!='] if kind == '==' else ['<', '<=', '>', '>='])} {part(7, sides)}", 6
        level = LEVELS[kind]
        left, right = (2, 1) if level == 1 else (level, level + 1)
        return f"{part(left)} {kind} {part(right)}", level

    def small(self, scope):
        """A formula that is often at most 1."""
        test = self.any("Bool", scope)
        return self.choice([
            "1", "1", "0", "1/2", f"[{test}]", f"[{test}] * 1/2", f"ite({test}, 1, 1/3)", f"[{test}] \\cap 3/4",
            f"1 \\cap {self.any('EUReal', scope, 4)}", f"1/4 + [{test}] / 2",
        ])

    def bound(self, scope, is_weak):
        """Returns a formula for a bound; in a proc with `@wlp` it is often at most 1."""
        if is_weak or self.is_now(0.4):
            return self.small(scope)
        if self.is_now(0.3):
            return self.choice([self.any("EUReal", scope), "\\infty"])
        terms = [f"{self.choice(['', '2*', '1/2*'])}{x}" for x, t in scope.items() if t in NARROWER["UReal"] and self.is_now(0.5)]
        return " + ".join(terms + [self.choice(["1", "2", "3", "5/2", f"3*({self.small(scope)})"])])

    def file(self):
        """The text of a file."""
        heads = [Head(self, f"p{i}") for i in range(self.choice([1, 1, 2, 3]))]
        return "\n".join(line for head in heads for line in head.lines + Body(self, head, heads).lines) + "\n"


class Head:
    """A procedure without its body: what the calls of it need to know, and its clauses."""

    def __init__(self, writer, name):
        self.name, self.is_upper = name, writer.is_now(0.6)
        self.is_weak = not self.is_upper and writer.is_now(0.8)
        self.is_program, self.has_body = writer.is_now(0.7), writer.is_now(0.95)
        self.has_quantifier = not self.is_program and writer.is_now(0.3)
        self.inputs, self.outputs, scope = {}, {}, {}
        for kind in [self.inputs] * writer.randint(0, 2) + [self.outputs] * writer.choice([0, 1, 1, 1, 2]):
            type_name = writer.choice(TYPES)
            kind[named(type_name, scope)] = scope[named(type_name, scope)] = type_name
        self.scope = scope
        pres = [writer.bound(self.inputs, self.is_weak) for _ in range(writer.choice([0, 1, 1, 1, 1, 1, 1, 2]))]
        posts = [self.post(writer) for _ in range(writer.choice([1, 1, 1, 1, 2]))]
        title = f"{'coproc' if self.is_upper else 'proc'} {name}({typed(self.inputs)}) -> ({typed(self.outputs)})"
        self.lines = ["@wlp"] * self.is_weak + [title, *(f"  pre {pre}" for pre in pres), *(f"  post {post}" for post in posts)]

    def post(self, writer):
        """A post clause, which may begin with a quantifier."""
        scope, front = self.scope, ""
        if self.has_quantifier:
            type_name = writer.choice(TYPES)
            front = f"{'sup' if self.is_upper else 'inf'} {named(type_name, scope)}: {type_name}. "
            scope = {**scope, named(type_name, scope): type_name}
        return front + (writer.small(scope) if writer.is_now(0.8) else writer.bound(scope, self.is_weak))


class Body:
    """The body of a procedure. Each kind of statement gives lines for a scope, to which a declaration adds, and for so many
    blocks in each other."""

    def __init__(self, writer, head, heads):
        self.writer, self.head = writer, head
        known = [other for other in heads if other.is_upper == head.is_upper and not other.has_quantifier]
        self.known = [other for other in known if other.is_weak or not head.is_weak]
        self.is_ranked, self.is_looped, self.is_closed = False, False, False
        self.lines = ["{", *self.block(head.scope, 3), "}"] if head.has_body else []

    def block(self, scope, depth):
        scope, found = dict(scope), []
        for _ in range(self.writer.randint(depth // 3, depth)):
            *lines, last = self.statement(scope, depth)
            found += [*lines, last + ";" * self.writer.is_now(0.1)]
        return ["  " + line for line in found]

    def statement(self, scope, depth):
        is_open = not self.is_ranked and not self.is_closed
        kinds = ["assigned"] * 4 + ["declared"] * 2 + ["chosen"] * (not self.is_closed) + ["rewarded"] * (not self.head.is_weak)
        kinds += ["branches", "branches", "picked"] * (depth > 1) + ["walk", "flag", "looped"] * (is_open and depth > 1)
        kinds += ["called"] * (2 * is_open * bool(self.known))
        kinds += ["checked"] * (3 * (not self.head.is_program and not self.is_ranked))
        return getattr(self, self.writer.choice(kinds))(scope, depth)

    def targets(self, scope, types):
        return [x for x, type_name in scope.items() if x not in self.head.inputs and type_name in types]

    def target(self, scope, type_name):
        """Lines that declare a variable of this type where none is there, and the name of one."""
        found = self.targets(scope, [type_name])
        return ([], self.writer.choice(found)) if found else (self.declared(scope, 0, type_name), list(scope)[-1])

    def chance(self, scope):
        """What a flip may be given: a literal, or what no number of the state enters but by conditions, also above 1."""
        test = self.writer.any("Bool", scope, depth=1)
        tests = ["[%s]", "[%s] / 3", "ite(%s, 1/3, 1)", "ite(%s, 3/2, 0)", "1/2 * [%s] + 1/4", "1 - [%s] / 2", "[%s] \\cap 2/3"]
        return self.writer.choice([*CHANCES, "(3/4)", "1 + 1", *(form % test for form in tests)])

    def value(self, wanted, scope):
        """Returns what may follow the `=` of a variable of this type."""
        kind = self.writer.choice(["draw", "choose", "expression", "expression"])
        if kind == "draw":
            first = self.writer.randint(-2 if wanted == "Int" else 0, 2)
            ends = f"{first}, {first + self.writer.randint(0, 2)}"
            return f"flip({self.chance(scope)})" if wanted == "Bool" else f"unif({ends})"
        if kind == "choose":
            parts = (f"{weight}: {self.writer.any(wanted, scope, depth=1)}" for weight in self.writer.choice(WEIGHTS))
            return f"choose {{ {', '.join(parts)} }}"
        return self.writer.any(wanted, scope)

    def assigned(self, scope, depth):
        lines, name = self.target(scope, self.writer.choice(TYPES))
        return [*lines, f"{name} = {self.value(scope[name], scope)}"]

    def declared(self, scope, depth, type_name=None):
        type_name = type_name or self.writer.choice(TYPES)
        has_value = self.is_closed or self.writer.is_now(0.8)
        line = f"var {named(type_name, scope)}: {type_name}" + (f" = {self.value(type_name, scope)}" if has_value else "")
        scope[named(type_name, scope)] = type_name
        return [line]

    def chosen(self, scope, depth):
        found = self.targets(scope, TYPES)
        names = self.writer.sample(found, self.writer.randint(1, len(found))) if found else []
        return [f"{'cohavoc' if self.head.is_upper else 'havoc'} {', '.join(names)}"] if names else self.declared(scope, depth)

    def rewarded(self, scope, depth):
        return [f"{self.writer.choice(['reward', 'tick'])} {self.writer.small(scope)}"]

    def checked(self, scope, depth):
        both = [["assume", "validate"], ["coassume", "covalidate"]]
        closing, other = both if self.head.is_upper else both[::-1]
        may_close = not self.is_looped and not self.head.has_quantifier and self.writer.is_now(0.6)
        word = self.writer.choice(["assert", "coassert", *other, *(closing if may_close else [])])
        self.is_closed = self.is_closed or word in closing
        return [word if "validate" in word else f"{word} {self.writer.bound(scope, self.head.is_weak)}"]

    def branches(self, scope, depth):
        found = [f"if {self.writer.any('Bool', scope)} {{", *self.block(scope, depth - 1)]
        if self.writer.is_now(0.2):
            found += [f"}} else if {self.writer.any('Bool', scope)} {{", *self.block(scope, depth - 1)]
        return found + (["} else {", *self.block(scope, depth - 1)] if self.writer.is_now(0.7) else []) + ["}"]

    def picked(self, scope, depth):
        is_upward = self.head.is_upper if self.head.is_program else self.writer.is_now(0.5)
        mark = "\\cup" if is_upward else "\\cap"
        return [f"if {mark} {{", *self.block(scope, depth - 1), "} else {", *self.block(scope, depth - 1), "}"]

    def called(self, scope, depth):
        called, lines, names = self.writer.choice(self.known), [], []
        values = ", ".join(self.writer.any(type_name, scope) for type_name in called.inputs.values())
        for type_name in called.outputs.values():
            wider = [t for t in TYPES if type_name in NARROWER[t]]
            found = [x for x in self.targets(scope, wider) if x not in names]
            lines += [] if found else self.declared(scope, depth, self.writer.choice(wider))
            names.append(self.writer.choice(found) if found else list(scope)[-1])
        return [*lines, f"{', '.join(names)} = {called.name}({values})" if names else f"{called.name}({values})"]

    def turned(self, scope, depth, rules, guard, first):
        """A loop whose body begins with these lines."""
        was = self.is_ranked, self.is_looped
        self.is_ranked, self.is_looped = any("ranking" in rule for rule in rules), True
        block = self.block(scope, depth - 1) if self.writer.is_now(0.4) or not first else []
        self.is_ranked, self.is_looped = was
        return [*rules, f"while {guard} {{", *("  " + line for line in first), *block, "}"]

    def rule(self, bound):
        is_short = self.is_looped or self.writer.is_now(0.7)
        return f"@invariant({bound})" if is_short else f"@k_induction({self.writer.randint(1, 3)}, {bound})"

    def reward(self):
        """Returns the cost of an iteration, with its line."""
        cost = 0 if self.head.is_weak else self.writer.randint(0, 2)
        return cost, [f"reward {cost}"] * (cost > 0)

    def walk(self, scope, depth):
        """A loop that counts down by chance."""
        (lines, x), down = self.target(scope, "UInt"), Fraction(self.writer.choice(CHANCES[:4]))
        cost, first = self.reward()
        scale, rest = self.writer.choice([1, 1, 1, 2, Fraction(1, 2)]), self.writer.small(scope)
        is_down = named("Bool", scope)
        first = [*first, f"var {is_down}: Bool = flip({down})", f"if {is_down} {{ {x} = {x} - 1 }}"]
        rules = [self.rule(rest if self.head.is_weak else f"{cost / down * scale}*{x} + ({rest})")]
        rules += [f"@ranking(1, {scale / down}*{x})"] * self.writer.is_now(0.5)
        return lines + self.turned({**scope, is_down: "Bool"}, depth, rules, f"{x} > 0", first)

    def flag(self, scope, depth):
        """A loop that ends by chance."""
        (lines, x), on = self.target(scope, "Bool"), Fraction(self.writer.choice(CHANCES[:4]))
        cost, first = self.reward()
        scale, rest = self.writer.choice([1, 1, 1, 2, Fraction(1, 2)]), self.writer.small(scope)
        first = [*first, f"{x} = flip({on})"]
        rules = [self.rule(rest if self.head.is_weak else f"ite({x}, {cost / (1 - on) * scale}, 0) + ({rest})")]
        rules += [f"@ranking(1/2, ite({x}, {scale / (1 - on) / 2}, 0))"] * self.writer.is_now(0.5)
        return lines + self.turned(scope, depth, rules, x, first)

    def looped(self, scope, depth):
        """Any loop."""
        rules = [self.rule(self.writer.bound(scope, self.head.is_weak))]
        rules += [f"@ranking(1/3, {self.writer.bound(scope, False)})"] * self.writer.is_now(0.2)
        return self.turned(scope, depth, rules, self.writer.any("Bool", scope), [])
