"""A file as text and as procedures: its loops without an invariant and clauses `pre _`, and edits that leave everything
else alone."""
import re

import calls
import goals
import heyvl
from invariants.expressions import shown
from invariants.model import is_hole, loops_of

AFTER_RULE = re.compile(r"[ \t]*(?:\r?\n[ \t]*)?")


def has_invariant(loop):
    return "invariant" in loop[1] or "k_induction" in loop[1]


def may_have_ranking(loop):
    """Whether a loop has no ranking, and its body nothing that a ranking excludes."""
    kinds = {statement[0] for statement in goals.statements_of(loop[3])}
    return "ranking" not in loop[1] and not kinds & {"while", "call", "check", "validate"}


class Source:
    """A file. `found` has what was found, by places: the rules of loops, and bounds in the place of `holes`, the pre
    clauses `_`; of the procedures in `replaced` the rules with these names are `removed`."""

    def __init__(self, text, replaced=(), words=()):
        self.text, self.file, self.found, self.removed = text, heyvl.read(text), {}, []
        for procedure in self.file:
            for loop in loops_of(procedure.body or []) if procedure.name in replaced else ():
                for rule in [rule for rule in loop.rules if rule[0] in words]:
                    self.removed.append((rule.start, AFTER_RULE.match(text, rule.end).end(), ""))
                    del loop[1][rule[0]]
        self.holes = {procedure.name: procedure.pres[0] for procedure in self.file if is_hole(procedure)}

    def ordered(self, names):
        """The procedures of these names, or all, with a body, each after those that it calls."""
        found = []

        def visit(procedure, callers):
            called = {s[2] for s in goals.statements_of(procedure.body or []) if s[0] == "call"}
            for other in [p for p in self.file if p.name in called and p not in [*callers, *found]]:
                visit(other, [*callers, procedure])
            if procedure not in found:
                found.append(procedure)
        for procedure in self.file:
            visit(procedure, [])
        return [p for p in found if p.body is not None and (not names or p.name in names)]

    def is_open(self, procedure):
        """Whether a procedure has a hole: a loop without an invariant, or `pre _`."""
        return procedure.name in self.holes or not all(map(has_invariant, loops_of(procedure.body)))

    def line_column(self, place):
        """A place as the program writes places."""
        return "%d:%d" % heyvl.line_column(self.text, place)

    def texts(self, procedure, found, ranked):
        """What is written, by places, for invariants, by the numbers of their loops, and for the bound, which has
        number 0; or for the ranking of the loop of a number."""
        written, rule = {}, "@ranking(1, %s)" if ranked else "@invariant(%s)"
        for number, loop in enumerate(loops_of(procedure.body), 1):
            if number in found:
                written[loop.start] = self.found.get(loop.start, "") + self.line(loop, rule % shown(found[number]))
        if 0 in found:
            written[self.holes[procedure.name].start] = shown(found[0])
        return written

    def keep(self, procedure, found, ranked):
        """Takes what was found as given from here on."""
        self.found.update(self.texts(procedure, found, ranked))
        for number, loop in enumerate(loops_of(procedure.body), 1):
            if number in found:
                loop[1]["ranking" if ranked else "invariant"] = [found[number]]
        if 0 in found:
            procedure.pres[:] = [found[0]]

    def edited(self, found=(), only=None):
        """The text with what was found, and the edits. With `only`, the name of a procedure, the other bodies are
        blank, and what always holds is written where nothing was found."""
        found, edits = {**self.found, **dict(found)}, list(self.removed)
        for procedure in self.file:
            nothing = "\\infty" if procedure.is_upper else "0"
            if only not in (None, "", procedure.name) and procedure.body is not None:
                start, end = procedure.body.start, procedure.body.end
                edits.append((start, end, re.sub(r"[^\n]", " ", self.text[start:end])))
            for loop in loops_of(procedure.body or []):
                text = found.get(loop.start, "")
                if only is not None and not has_invariant(loop) and not text.startswith("@invariant"):
                    text = self.line(loop, f"@invariant({nothing})") + text
                edits.append((loop.start, loop.start, text))
            clause = self.holes.get(procedure.name)
            if clause and (clause.start in found or only is not None):
                edits.append((clause.start, clause.end, found.get(clause.start, nothing)))
        edits, parts, at = sorted(edits), [], 0
        for start, end, text in edits:
            if start >= at:
                parts += [self.text[at:start], text]
                at = end
        return "".join([*parts, self.text[at:]]), edits

    def line(self, loop, rule):
        """Returns a rule before a loop: on a separate line if the loop begins one."""
        start = self.text.rfind("\n", 0, loop.start) + 1
        margin, line_end = self.text[start:loop.start], "\r\n" if self.text[:start].endswith("\r\n") else "\n"
        return rule + (" " if margin.strip() else line_end + margin)

    def placed(self, fault):
        """Returns the line of an error of the text with holes filled, at its place in the file."""
        text, edits = self.edited(only="")
        line, column, cause = fault
        start = sum(len(line) + 1 for line in text.split("\n")[:line - 1])
        within = len(calls.decoded(calls.encoded(text[start:])[:column - 1]))
        return f"{self.line_column(original(edits, start + within))}: {cause}"


def original(edits, place):
    """The place in a text from which a place in the edited one comes."""
    shift = 0
    for start, end, text in edits:
        if start + shift <= place:
            if place < start + shift + len(text):
                return start
            shift += len(text) - (end - start)
    return place - shift
