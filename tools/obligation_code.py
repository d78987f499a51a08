"""Writes the code of an obligation: items of tools/summaries.py as lines of HeyVL, up to the bounds with which they end."""
import typing

from expressions import joined, listed, pieces_of, plain, variables_of
from summaries import SUMMARIES, assigned, invariant_of, is_end


class Mark(typing.NamedTuple):
    """A piece without text before a bound at which the code ends: what it is, and the variables in it with their names in the code."""

    label: str
    variables: tuple


class CodeWriter:
    """Lines of code, as tuples of pieces. A dictionary `names` gives each visible variable its expression, which is a name but for some inputs
    of calls; `used` has the names that are taken, `called` those of procedures that are called, and `shown` gives new names those of
    the source."""

    def __init__(self, source, procedure, used=(), is_ranking=False):
        self.source, self.is_ranking = source, is_ranking
        self.is_upper = procedure.is_upper or is_ranking
        self.used, self.lines, self.called, self.shown = set(used), [], set(), {}

    def fresh(self, hint):
        """Returns a new name, with a number after it where this one is taken."""
        name, number = hint, 0
        while name in self.used or number and name in self.source.words:
            number += 1
            name = f"{hint}_{number}"
        self.used.add(name)
        return name

    def line(self, depth, *parts):
        self.lines.append(pieces_of("  " * depth, *parts))

    def text_of(self, node, names):
        return self.source.expression(node, names).pieces

    def texts_of(self, nodes, names):
        return listed([self.text_of(node, names) for node in nodes])

    def write(self, items, names, depth, is_last, is_whole=False):
        """Writes items. With `is_last`, nothing follows them; with `is_whole`, loops and calls are no ends."""
        names, rest = dict(names), list(items)
        while rest:
            item, *rest = rest
            if item[0] == "declare":
                _, name, type_name = item
                item, *rest = rest
                if item[0] not in SUMMARIES or is_whole:
                    given, before = self.fresh(name), dict(names)
                    names[name], self.shown[given] = plain(given, type_name), name
                    self.declaration(item, before, depth, pieces_of(f"var {given}: {type_name}"))
                    continue
            is_whole = is_whole or item[0] == "whole"
            if is_end(item, is_whole):
                self.end(item, names, depth, is_last)
                return
            if item[0] in ("if", "pick", "while"):
                getattr(self, "write_" + item[0])(item, names, depth, is_last and not rest, is_whole)
                if not is_whole and not assigned([item])[1]:
                    return
            elif item[0] != "whole":
                self.statement(item, names, depth)

    def declaration(self, item, names, depth, head):
        """Writes a declaration, with what it is followed by: the assignment of its value, or any value."""
        self.line(depth, head, *([] if item[0] == "any" else [" = ", self.right(item, names)]))

    def statement(self, item, names, depth):
        """Writes a statement without blocks."""
        kind, *parts = item
        targets = ", ".join(names[name].text() for name in parts[0]) if kind in ("set", "draw", "toss", "call", "give", "any") else ""
        if kind == "any":
            self.line(depth, f"{'cohavoc' if self.is_upper else 'havoc'} {targets}")
        elif kind == "give":
            self.line(depth, f"{targets} = ", names[parts[1]].pieces)
        elif targets or kind == "call":
            self.line(depth, f"{targets} = " if targets else "", self.right(item, names))
        elif kind == "reward":
            if not self.is_ranking:
                self.line(depth, "reward ", self.text_of(parts[0], names))
        else:
            self.line(depth, parts[0], *[" ", self.text_of(parts[1], names)] if kind == "check" else [])

    def right(self, item, names):
        """Returns the right side of an assignment."""
        kind, *parts = item
        if kind == "set":
            return self.text_of(parts[1], names)
        if kind == "toss":
            return pieces_of("flip(", self.text_of(parts[1], names), ")")
        if kind == "call":
            self.called.add(parts[1])
            return pieces_of(parts[1], "(", self.texts_of(parts[2], names), ")")
        if item.word == "unif":
            return pieces_of("unif(", self.texts_of(item.parts, names), ")")
        shares = [pieces_of(self.text_of(weight, names), ": ", self.text_of(value, names)) for weight, value in item.parts]
        return pieces_of("choose { ", listed(shares), " }")

    def block(self, block, names, depth, is_last, is_whole):
        """Writes a block, whose names are free again after it."""
        used = set(self.used)
        self.write(block, names, depth + 1, is_last, is_whole)
        self.used = used

    def write_if(self, item, names, depth, is_last, is_whole):
        word = "if "
        for guard, block in item[1]:
            self.line(depth, word, self.text_of(guard, names), " {")
            self.block(block, names, depth, is_last, is_whole)
            word = "} else if "
        self.line(depth, "} else {")
        self.block(item[2], names, depth, is_last, is_whole)
        self.line(depth, "}")

    def write_pick(self, item, names, depth, is_last, is_whole):
        mark = "\\cup" if self.is_ranking else item[1]
        for line, block in ((f"if {mark} {{", item[2]), ("} else {", item[3])):
            self.line(depth, line)
            self.block(block, names, depth, is_last, is_whole)
        self.line(depth, "}")

    def write_while(self, item, names, depth, is_last, is_whole):
        """Writes a loop that stays, without its ranking."""
        for rule, expressions in item[1].items():
            if rule != "ranking":
                self.line(depth, f"@{rule}(", self.texts_of(expressions, names), ")")
        self.line(depth, "while ", self.text_of(item[2], names), " {")
        self.block(item[3], names, depth, False, True)
        self.line(depth, "}")

    def end(self, item, names, depth, is_last):
        """Writes the bound with which the code ends, and that what follows it counts for nothing."""
        if item[0] == "call":
            bound, label, variables = self.pre_of(item, names, depth)
        else:
            node, label = (item[1], item[2]) if item[0] == "end" else (invariant_of(item), item.label)
            bound, read = self.source.expression(node, names), variables_of(node)
            variables = [(name, names[name].text()) for name in names if name in read]
        co = "co" * self.is_upper
        self.lines.append(pieces_of("  " * depth, (Mark(label, tuple(variables)),), f"{co}assert ", bound.pieces))
        if not is_last:
            self.line(depth, f"{co}assume ?({'true' if self.is_upper else 'false'})")

    def pre_of(self, item, names, depth):
        """Returns the pre of a call, its label and its variables. Arguments that are not names or numbers of the right type are given to new
        variables."""
        _, _, name, arguments = item
        called = self.source.called(name)
        used, inputs, variables = variables_of(called.pres), {}, []
        for (inner, type_name), node in zip(called.inputs, arguments):
            value = self.source.expression(node, names)
            if inner in used and (node[0] not in ("variable", "number", "truth") or value.type != type_name):
                given = self.fresh(f"{name}_{inner}")
                self.line(depth, f"var {given}: {type_name} = ", value.pieces)
                value = plain(given, type_name)
            inputs[inner] = value
            if inner in used and value.text() in self.used:
                variables.append((node[1] if node[0] == "variable" else f"{name}.{inner}", value.text()))
        return joined([self.source.expression(pre, inputs) for pre in called.pres], self.is_upper), item.label, variables
