"""The search for the invariants, the bound or a ranking of one procedure: shapes one after the other, each with a
linear program whose rows are asked at samples, and `verify` as the judge, whose states become samples."""
import math
import random
import time
from fractions import Fraction

from invariants.expressions import INFINITY, Failed, shown
from invariants.judge import is_accepted, state_of
from invariants.model import CONSTANT, is_number, mixed, valued
from invariants.refuting import broken, exact_total
from invariants.samples import FAR, Samples, size
from invariants.shapes import Shapes
from invariants.simplex import LinearProgram
from invariants.simplify import shortest
from invariants.templates import Template

MOST_VERDICTS, MOST_CUTS, MOST_ROWS, MOST_GOALS, GOAL_COST, NEAR = 40, 12, 400, 40, 1000, Fraction(1, 1000)
SLACKS = [Fraction(1, 2**bits) for bits in (4, 10, 16, 24)]


class Search:
    """One search in a model. `verdict_on(invariants)` asks the judge about expressions, by the numbers of loops;
    `loops` are those that are proposed and `checked` those whose iterations give rows; the values of the loop `aim` are
    made small, or large in a proc, over the states in `goals`."""

    def __init__(self, model, verdict_on, seconds, seed, say):
        self.model, self.verdict_on, self.seconds, self.say = model, verdict_on, seconds, say
        self.begin, self.random, self.exact = time.time(), random.Random(seed), None
        self.end, self.last, self.reasons, self.suspects = self.begin + seconds, "", {}, []
        every = [model.entry, *(model.loops[number] for number in sorted(model.loops))]
        self.samples = Samples(model, Shapes(model).expressions, seed, seconds / 10)
        self.loops = [loop for loop in every if loop.rule is None]
        self.checked = [loop for loop in every if loop.is_plain]
        if model.ranked:
            self.loops = self.checked = [model.loops[model.ranked]]
        self.aim = self.loops[0] if model.ranked or model.has_hole else None
        states = sorted(self.aim.met.values(), key=size) if self.aim else []
        near = [state for state in states if all(abs(value) <= 12 for value in state.values() if is_number(value))]
        self.goals = (near or states)[:MOST_GOALS]

    def is_late(self):
        return time.time() > self.end

    def run(self):
        """What was found: invariants by the numbers of loops; None with `reasons` by shape, or with `suspects`."""
        best, total = None, None
        for step, shapes in Shapes(self.model, self.loops):
            if self.is_late() or best and self.is_enough(total):
                break
            try:
                best = self.found(shapes, best and total * (1 - NEAR))
                total = self.model.candidate.get(self.goal, 0) if self.aim else None
                self.say(f"  {step}: found after {time.time() - self.begin:.1f} s")
                if not self.aim:
                    break
            except Failed as failure:
                self.reasons[step] = str(failure)
                self.say(f"  {step}: {str(failure)[:150]} ({time.time() - self.begin:.1f} s)")
                if "nonlinear at" in str(failure) or not best and len(self.reasons) == 3 and self.is_suspect(1):
                    break
        if best is None:
            self.is_suspect(4)
            return None
        return shortest(self, best)

    def found(self, shapes, limit):
        """Returns the invariants in these shapes that `verify` accepts; if numbers overflow, with rounded tables."""
        reasons = []
        for self.slack in (0, *SLACKS):
            try:
                return self.attempt(shapes, limit)
            except Failed as failure:
                reasons.append(failure)
                if "bits" not in str(reasons[0]):
                    break
        raise reasons[0]

    def is_enough(self, total):
        """Returns whether the search for a better bound ends: iterations show that there is none, or ten times what the
        first one took is over."""
        if self.exact is None:
            self.first = time.time()
            self.exact = exact_total(self.model, self.aim, self.goals, min(self.seconds / 20, self.end - time.time()))
        is_long = time.time() - self.first > max(self.seconds / 6, 10 * (self.first - self.begin))
        return total <= self.exact * (1 + float(NEAR)) or is_long

    def is_suspect(self, effort):
        """Whether iterations pass the pre at `suspects`; asked after some shapes and at the end."""
        if not self.aim and not self.suspects:
            self.suspects = broken(self.model, min(self.seconds / 30 * effort, self.end - time.time()))
        return bool(self.suspects)

    # One shape.

    def attempt(self, shapes, limit):
        """The invariants in these shapes that `verify` accepts, with a total of at most `limit`."""
        self.program, self.cache = LinearProgram(), {}
        self.model.candidate, self.model.rough = {}, {}
        for loop, shape in zip(self.loops, shapes):
            loop.template = Template(loop, self.model, shape, self.program.unknown)
        self.prune()
        if self.aim:
            self.aim_at(limit)
        self.solve()
        for _ in range(MOST_VERDICTS):
            invariants = {loop.number: loop.template.expression() for loop in self.loops}
            verdict = self.verdict_on(invariants)
            self.say(f"    {' ; '.join(map(shown, invariants.values()))}: {verdict}")
            if is_accepted(verdict):
                return invariants
            self.refused(verdict)
            self.solve()
        raise Failed(f"{MOST_VERDICTS} proposals refused")

    def aim_at(self, limit):
        """Makes the total of the values over the goals small, and at most a limit."""
        self.goal, values = self.program.unknown(GOAL_COST), [self.aim.template(state) for state in self.goals]
        if None in values:
            raise Failed("infinite at an input")
        sign, constant = (-1, 0) if self.model.is_upper else (1, -len(values))
        self.add(mixed((1, {self.goal: 1, CONSTANT: constant}), *((sign, value) for value in values)))
        if limit is not None:
            self.add({self.goal: -1, CONSTANT: limit})

    def add(self, terms):
        self.program.add({name: factor for name, factor in terms.items() if name != CONSTANT}, terms.get(CONSTANT, 0))

    def solve(self):
        """Solves and adds the rows that the coefficients break most, until none is broken."""
        program, model, cuts = self.program, self.model, True
        while cuts:
            found = program.solve(self.is_late)
            if not found:
                raise Failed("no coefficients serve" if found is False else "time")
            if len(program.rows) > MOST_ROWS:
                program.forget()
            model.candidate = {name: program.value(name) for name in range(program.count)}
            model.rough = {name: float(value) for name, value in model.candidate.items()}
            cuts = self.cuts()
            for terms in cuts:
                self.add(terms)
        for loop in self.loops if self.slack else ():
            self.round(loop.template)

    def round(self, template):
        """Rounds the entries of tables to the grid of the slack, up in a coproc and down in a proc; an iteration has
        that much to spare."""
        candidate, side = self.model.candidate, math.ceil if self.model.is_upper else math.floor
        for (name, _), in [cell for cell in template.cells.values() if len(cell) == 1]:
            candidate[name] = self.slack * side(candidate.get(name, 0) / self.slack)

    def refused(self, verdict):
        """Learns from a verdict, or raises where nothing is to be learnt."""
        if not verdict.startswith("not "):
            raise Failed(verdict)
        self.last = verdict
        number, plain, marked = state_of(verdict)
        self.samples.learn(self.model.ranked or number, plain, marked)
        self.cache.clear()
        for _ in range(5):
            self.prune()
            if self.cuts():
                return
            for loop in self.loops:
                self.samples.vary(loop, 200)
        raise Failed("a state that the samples do not explain")

    def prune(self):
        """Drops facts that iterations do not keep, and lets leaves in that iterations reach."""
        open_loops = [loop for loop in self.loops if loop.template.facts or loop.template.allowed is not None]
        is_changed = bool(open_loops)
        while is_changed and not self.is_late():
            is_changed = False
            for loop in self.checked:
                for state in [state for state in loop.pool.values() if self.is_claimed(loop, state)]:
                    for met, at in self.model.met(loop, state):
                        is_changed = met in open_loops and met.template.admit(at) or is_changed

    def is_claimed(self, loop, state):
        """Whether something is claimed of a state of a loop."""
        if loop in self.loops:
            return loop.template.holds(state)
        return self.model.number(loop.template(state)) != (INFINITY if self.model.is_upper else 0)

    # Rows.

    def cuts(self):
        """The rows that the present coefficients break most; what seems broken in floats is asked exactly."""
        found, values = [], {**self.model.rough, CONSTANT: 1}
        asked = [(loop, key) for loop in self.checked for key in loop.pool]
        self.random.shuffle(asked)
        for at, (loop, key) in enumerate(asked):
            if len(found) >= MOST_CUTS and at >= 60 or at % 50 == 49 and self.is_late():
                break
            for terms, rough in self.rows_of(loop, key):
                value = sum(factor * values.get(name, 0) for name, factor in rough.items())
                if value < 0 and self.is_broken(loop, terms):
                    norm = sum(abs(factor) for name, factor in rough.items() if name != CONSTANT)
                    found.append((value / norm, len(found), terms))
        return [terms for _, _, terms in sorted(found)[:MOST_CUTS]]

    def is_broken(self, loop, terms):
        """Whether a row is broken that coefficients can mend."""
        if valued(terms, self.model.candidate) >= 0:
            return False
        if any(factor for name, factor in terms.items() if name != CONSTANT):
            return True
        if loop in self.loops or not loop.number:
            raise Failed("no value serves at a state")
        return False

    def rows_of(self, loop, key):
        """The rows of a state, each with its factors in floats; those without a choice are kept."""
        if (loop, key) not in self.cache or self.model.has_choice:
            rows = self.rows_along(loop, loop.pool[key])
            floats = [{name: float(factor) for name, factor in terms.items()} for terms in rows]
            self.cache[loop, key] = list(zip(rows, floats))
        return self.cache[loop, key]

    def rows_along(self, loop, state):
        """The rows of a state; where values are large, also those that ask the same of all larger ones: what a row
        gains along the ray."""
        rows, more = self.rows_at(loop, state), []
        far = {name: value + FAR * round(value / FAR) for name, value in state.items()
               if is_number(value) and abs(value) >= FAR / 2}
        try:
            more = self.rows_at(loop, {**state, **far}) if far and not self.model.has_choice else []
        except Failed:
            pass
        columns = [[terms.keys() - {CONSTANT} for terms in found] for found in (rows, more)]
        return rows + [mixed((1, b), (-1, a)) for a, b in zip(rows, more) if columns[0] == columns[1]]

    def rows_at(self, loop, state):
        """Returns rows which say that an iteration from a state keeps to the template, and that its value is no less than
        0, and in a proc with `@wlp` no more than 1."""
        model, rows, is_upper, is_open = self.model, [], self.model.is_upper, loop in self.loops
        model.sides.clear()
        here = loop.template(state)
        if here is None and is_upper or is_open and not is_upper and not loop.template.holds(state):
            return rows
        if not (is_open and loop.number and loop.template.is_exit(state)):
            found = loop.turn(state)
            greater, less = (here, found) if is_upper else (found, here)
            if greater is not None:
                if less is None:
                    raise Failed("infinite after an iteration")
                rows.append(mixed((1, greater), (-1, less), (-1, {CONSTANT: self.slack if is_open else 0})))
        if is_open:
            rows.append(here)
            if model.procedure.is_weak and not is_upper:
                rows.append(mixed((1, {CONSTANT: 1}), (-1, here)))
        if None in model.sides:
            raise Failed("infinite at a call")
        rows += model.sides
        model.sides.clear()
        return rows
