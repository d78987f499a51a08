"""Finds the first static error of a file, by docs/LANGUAGE.md: a node is tested after its parts, and the lowest number counts."""
from fractions import Fraction

import conditions
import heyvl
from heyvl import Fault

TYPES = ("Bool", "UInt", "Int", "UReal")
NUMBERS = ("UInt", "Int", "UReal", "EUReal")
FORMULAS = ("UInt", "UReal", "EUReal")
WIDER = {"Bool": ("Bool",), "Int": ("Int",), "UInt": NUMBERS, "UReal": ("UReal", "EUReal"), "EUReal": ("EUReal",)}
WIDE, PARTS, COPIES = 2**62, 16, 16
NAMES, CLAUSES, VARIABLES, STATEMENTS = 16, 64, 256, 1024


def test(broken, place):
    """Refuses a place by the lowest number of the rules that are broken; `broken` gives each number whether it is."""
    for number, is_broken in sorted(broken.items()):
        if is_broken:
            raise Fault(number, place)


def join(a, b):
    """The least number type to which both widen, or None."""
    return next((wide for wide in NUMBERS if wide in WIDER[a] and wide in WIDER[b]), None)


def type_of(node, scope, wanted=None, front=None):
    """Returns the type of an expression, which has to be one of `wanted`. `scope` has the types of the visible variables, and `front` is the
    keyword of a quantifier that is allowed here. A parenthesis is a separate node."""
    kind, *parts = node
    own, front, broken = (wanted, front, {}) if node.group is None else (None, None, {})
    if kind == "bind":
        type_name, name, inner = parts
        is_formula = type_of(inner, {**scope, name: type_name}, front=front) in FORMULAS
        found = "EUReal" if type_name in TYPES and is_formula else None
        broken = {11: name in scope, 23: front is None or node.word != front}
    elif kind == "variable":
        found, broken[10] = scope.get(parts[0]), parts[0] not in scope
    elif kind in ("number", "truth", "infinity"):
        found = parts[1] if kind == "number" else {"truth": "Bool", "infinity": "EUReal"}[kind]
    else:
        found = applied(kind, *[type_of(part, scope) for part in parts])
        broken[16] = kind == "/" and not (is_number(parts[1]) and parts[1][1])
    test({**broken, 12: found is None or own is not None and found not in own}, node.mark)
    if node.group is not None:
        test({12: wanted is not None and found not in wanted}, node.group[0])
    return found


def applied(kind, a, b=None, c=None):
    """The type of an operator on parts of these types, or None."""
    are_bools, are_formulas = a == "Bool" == (b or "Bool"), a in FORMULAS and (b or a) in FORMULAS
    both = join(a, b) if b and b in WIDER and a in WIDER else None
    if kind == "ite":
        return None if a != "Bool" else "Bool" if b == c == "Bool" else join(b, c)
    if kind in ("[", "?", "&&", "||"):
        return {"[": "UInt", "?": "EUReal"}.get(kind, "Bool") if are_bools else None
    if kind in ("!", "==>") and are_bools:
        return "Bool"
    if kind in ("!", "~", "==>", "<=="):
        return "EUReal" if are_formulas else None
    if kind == "negative":
        return "Int" if a in ("Int", "UInt") else None
    if kind == "/":
        return join("UReal", a) if a in FORMULAS else None
    if kind in ("==", "!=", "<", "<=", ">", ">="):
        return "Bool" if both not in (None, "EUReal") or are_bools and kind in ("==", "!=") else None
    return None if kind == "-" and both == "EUReal" else both


def has_quantifier(procedure):
    """Whether a quantifier occurs in a post clause."""
    def is_in(part):
        return isinstance(part, (tuple, list)) and (part[:1] == ("bind",) or any(map(is_in, part)))

    return is_in(procedure.posts)


def is_number(node):
    return node[0] == "number" and node.group is None


def weight_of(node):
    """The value of a weight literal, infinity if its divisor is 0, or None."""
    if node[0] == "/" and node.group is None and is_number(node[1]) and is_number(node[2]):
        return node[1][1] / node[2][1] if node[2][1] else float("inf")
    return node[1] if is_number(node) else None


def integer_of(node):
    """The value of an integer literal, or None."""
    is_negative = node[0] == "negative" and node.group is None
    number = node[1] if is_negative else node
    is_literal = is_number(number) and number[1].denominator == 1
    return (-number[1] if is_negative else number[1]) if is_literal else None


def is_wide(weight):
    return isinstance(weight, Fraction) and max(weight.numerator, weight.denominator) >= WIDE


def weight_or_type(node, scope):
    """The value of a weight literal, whose type does not matter, or else None and the type."""
    weight = weight_of(node)
    return (weight, "UReal") if weight is not None else (None, type_of(node, scope))


def varies(node, scope):
    """Whether a numeric variable occurs outside of conditions."""
    if node[0] == "variable":
        return scope[node[1]] != "Bool"
    parts = node[2:] if node[0] == "ite" else node[1:] if node[0] not in ("number", "truth", "infinity", "[", "?") else ()
    return any(varies(part, scope) for part in parts)


class Rules:
    """Tests the procedures of a file, whose parts are tested in the order of their tree."""

    def __init__(self, file):
        self.file = file
        for procedure in file:
            self.procedure = procedure
            self.test_procedure()

    def called(self, name):
        return next((procedure for procedure in self.file if procedure.name == name), None)

    def test_procedure(self):
        procedure, scope = self.procedure, {}
        test({11: self.called(procedure.name) is not procedure, 17: procedure.is_weak and procedure.is_upper}, procedure.start)
        for parameter in procedure.inputs + procedure.outputs:
            name, type_name = parameter
            test({11: name in scope, 12: type_name not in TYPES}, parameter.start)
            scope[name] = type_name
        self.inputs = {name: scope[name] for name, _ in procedure.inputs}
        for clauses, visible, front in ((procedure.pres, self.inputs, None), (procedure.posts, scope, "sup" if procedure.is_upper else "inf")):
            for clause in clauses:
                type_of(clause, visible, FORMULAS, front)
        statements = list(conditions.statements_of(procedure.body or []))
        self.last = max([s.start for s in statements if s[0] in ("any", "call", "while")], default=-1)
        if procedure.body is not None:
            self.test_block(procedure.body, scope, False)
        variables = len(scope) + sum(len(conditions.quantified(post)) for post in procedure.posts)
        variables += sum(s[0] == "declare" for s in statements)
        is_large = len(scope) > NAMES or max(len(procedure.pres), len(procedure.posts)) > CLAUSES or variables > VARIABLES
        test({24: is_large or self.count(procedure.body or []) > STATEMENTS}, procedure.start)

    def test_block(self, block, scope, is_in_loop):
        scope, declared = dict(scope), None
        for statement in block:
            kind, *parts = statement
            if kind == "declare":
                declared = statement
                continue
            if kind in ("set", "draw", "toss", "call", "any"):
                self.test_assignment(statement, scope, declared)
                declared = None
            elif kind == "reward":
                type_of(parts[0], scope, FORMULAS)
                test({20: self.procedure.is_weak}, statement.start)
            elif kind in ("check", "validate"):
                if kind == "check":
                    type_of(parts[1], scope, FORMULAS)
                is_closing = parts[0] in (("assume", "validate") if self.procedure.is_upper else ("coassume", "covalidate"))
                is_early = is_in_loop or statement.start < self.last or has_quantifier(self.procedure)
                test({17: is_closing and is_early}, statement.start)
            elif kind == "if":
                for guard, inner in parts[0]:
                    type_of(guard, scope, ["Bool"])
                    self.test_block(inner, scope, is_in_loop)
                self.test_block(parts[1], scope, is_in_loop)
            elif kind == "pick":
                for inner in parts[1:]:
                    self.test_block(inner, scope, is_in_loop)
            else:
                self.test_loop(statement, scope)

    def test_assignment(self, statement, scope, declared):
        """Tests a statement with targets, which may be that of a declaration, and declares its target."""
        kind, targets, *parts = statement
        called, broken = self.called(parts[0]) if kind == "call" else None, {}
        found = getattr(self, kind + "_types")(statement, scope, broken)
        types = [declared[2]] if declared else [scope.get(target) for target in targets]
        broken[10] = kind == "call" and called is None or None in types
        broken[11] = declared[1] in scope if declared else len(set(targets)) < len(targets)
        broken[12] = broken.get(12) or declared is not None and declared[2] not in TYPES or any(
            wanted not in WIDER.get(type_name, ()) for type_name, wanted in zip(found, types))
        broken[13] = any(target in self.inputs for target in targets)
        broken[14] = broken.get(14) or kind != "any" and len(found) != len(targets)
        test(broken, statement.start)
        if declared:
            scope[declared[1]] = declared[2]

    def set_types(self, statement, scope, broken):
        return [type_of(statement[2], scope)]

    def toss_types(self, statement, scope, broken):
        chance = statement[2]
        weight, type_name = weight_or_type(chance, scope)
        broken[12] = type_name not in ("UInt", "UReal")
        broken[15] = weight not in (None, float("inf")) and (weight > 1 or is_wide(weight)) or weight is None and varies(chance, scope)
        broken[16] = weight == float("inf")
        return ["Bool"]

    def draw_types(self, statement, scope, broken):
        if statement.word == "unif":
            first, last = statement.parts
            for end in statement.parts:
                type_of(end, scope)
            ends = [integer_of(end) for end in statement.parts]
            broken[15] = None in ends or not 1 <= len(heyvl.uniform(first, last)) <= 256
            return ["Int" if ends[0] is not None and ends[0] < 0 else "UInt"]
        weights, types = [], []
        for weight, value in statement.parts:
            weights.append(weight_or_type(weight, scope)[0])
            types.append(type_of(value, scope))
        broken[16] = float("inf") in weights
        sums = [sum(weights[:count + 1]) for count in range(len(weights))] if not broken[16] and None not in weights else [Fraction(1)]
        broken[15] = None in weights or len(weights) > PARTS or any(map(is_wide, weights + sums)) or sums[-1] != 1
        found = types[0]
        for type_name in types[1:]:
            found = "Bool" if found == type_name == "Bool" else found and join(found, type_name)
        return [found]

    def any_types(self, statement, scope, broken):
        word = vars(statement).get("word", "")
        broken[17] = word == ("havoc" if self.procedure.is_upper else "cohavoc")
        return []

    def call_types(self, statement, scope, broken):
        _, _, name, arguments = statement
        given, called = [type_of(argument, scope) for argument in arguments], self.called(name)
        if called is None:
            return []
        broken[12] = any(wanted not in WIDER[type_name] for type_name, (_, wanted) in zip(given, called.inputs))
        broken[14] = len(given) != len(called.inputs)
        broken[21] = called.is_upper != self.procedure.is_upper
        broken[23] = has_quantifier(called)
        return [type_name for _, type_name in called.outputs]

    def test_loop(self, loop, scope):
        steps, others = [], []
        for rule, expressions in loop.rules:
            *first, last = expressions
            if rule == "ranking":
                steps.append(weight_or_type(first[0], scope)[0])
            elif rule == "k_induction":
                type_of(first[0], scope)
            others.append(type_of(last, scope))
        type_of(loop[2], scope, ["Bool"])
        self.test_block(loop[3], scope, True)
        words = [rule for rule, _ in loop.rules]
        copies = [expressions[0] for rule, expressions in loop.rules if rule == "k_induction"]
        inner = list(conditions.statements_of(loop[3]))
        test({
            12: any(type_name not in FORMULAS for type_name in others),
            15: any(step is None or step <= 0 or is_wide(step) for step in steps if step != float("inf")),
            16: float("inf") in steps,
            18: words.count("invariant") + words.count("k_induction") != 1 or words.count("ranking") > 1,
            19: any(not is_number(copy) or copy[1].denominator != 1 or not 1 <= copy[1] <= COPIES for copy in copies),
            22: "ranking" in words and any(s[0] in ("while", "call", "check", "validate") for s in inner),
        }, loop.start)

    def count(self, block):
        """The number of statements of a block as they are encoded."""
        found = 0
        for statement in block:
            kind, *parts = statement
            inner = sum(map(self.count, conditions.blocks_of(statement)))
            if kind == "call":
                called = self.called(parts[1])
                found += 3 + len(called.inputs) + 2 * len(called.outputs)
            elif kind == "while":
                own = {s[1] for s in conditions.statements_of(parts[2]) if s[0] == "declare"}
                copies = int(parts[0]["k_induction"][0][1]) if "k_induction" in parts[0] else 1
                found += 4 + len(conditions.targets_of(parts[2]) - own) + copies * (inner + 2)
            elif kind != "declare":
                found += inner + {"if": len(parts[0]), "any": len(parts[0])}.get(kind, 1)
        return found


def refuse(file):
    """Refuses a file by its first static error."""
    Rules(file)
