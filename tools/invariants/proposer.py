"""What `tools/invariant` does with a file: its errors, the order of its procedures, a search for each, and the text
that is written."""
import time

import calls
import heyvl
from invariants.expressions import Failed, parts_of, shown
from invariants.judge import Judge, is_accepted
from invariants.model import Model, loops_of
from invariants.refuting import scripts
from invariants.samples import expressions_of
from invariants.search import Search
from invariants.source import Source, may_have_ranking

FOUND, NONE, BROKEN, FAULT = range(4)
STATUSES = [0, 2, 1]
FINAL, MOST_REFUTED = 20, 3


class Proposer:
    """Proposes for a text. `tell` writes a line for people, `show` one that the next replaces, and `say` what is
    tried."""

    def __init__(self, text, program, options, tell, show, say):
        self.judge, self.options = Judge(program, max(options.seconds / 5, 1)), options
        self.tell, self.show, self.say, self.results = tell, show, say, {}
        self.refuse(self.judge.run("print", text, seconds=FINAL), (0,))
        procedures = [procedure.name for procedure in heyvl.read(text)]
        for name in options.procedures:
            if name not in procedures:
                self.refuse(calls.Answer(FAULT, f"no such procedure: {name}"))
        words = ("invariant", "k_induction") * options.replace + ("ranking",) * (options.replace and options.ranking)
        self.source = Source(text, options.procedures or procedures, words)
        answer = self.judge.run("verify", self.source.edited(only="")[0])
        fault = calls.fault(answer.output)
        self.refuse(calls.Answer(FAULT, self.source.placed(fault)) if fault else answer, (0, 1, 2, None))

    def refuse(self, answer, good=()):
        """Ends with what the program reports of the file, unless the status is a good one."""
        if answer.status not in good:
            reason = answer.output.strip() or f"the program ended with status {answer.status}"
            raise calls.Refusal(f"{self.options.file}: {reason}", FAULT)

    def run(self):
        """The status, and the text with what was found, which `verify` accepts, or None."""
        for procedure in self.source.ordered(self.options.procedures):
            if self.source.is_open(procedure):
                self.guarded(procedure)
            for at, loop in enumerate(loops_of(procedure.body), 1) if self.options.ranking else ():
                if may_have_ranking(loop):
                    self.guarded(procedure, at)
        if not self.results:
            self.tell("nothing to propose: each loop has its rules (--replace proposes anew)")
        result = max(self.results.values(), default=FOUND)
        if result != FOUND:
            return STATUSES[result], None
        text, self.judge.longest = self.source.edited()[0], max(self.options.seconds, FINAL)
        found, reason = self.judge.verdicts(text, time.time() + self.judge.longest)
        wrong = {name: said for (name, _), said in found.items() if name in self.results and not is_accepted(said)}
        for name, verdict in wrong.items() if found else [("the file", reason)]:
            self.tell(f"{name}: {verdict}")
        return (STATUSES[NONE], None) if wrong or not found else (STATUSES[FOUND], text)

    def guarded(self, procedure, ranked=None):
        """Proposes, and records the result; reports what the proposer does not read, and what exceeds its limits."""
        name, result = procedure.name, NONE
        try:
            result = self.propose(procedure, ranked)
        except Failed as reason:
            self.tell(f"{name}: none found: {reason}")
        except (RecursionError, MemoryError, OverflowError):
            self.tell(f"{name}: none found: the procedure is too large")
        self.results[name] = max(result, self.results.get(name, FOUND))

    def propose(self, procedure, ranked):
        """Proposes invariants for the loops of a procedure, and its bound where that is asked for; or a ranking for the
        loop of a number."""
        name, begin, model = procedure.name, time.time(), Model(self.source.file, procedure, ranked)
        if model.has_hole and not (procedure.is_upper or procedure.is_weak):
            raise Failed("`pre _` is for a coproc, or a proc with @wlp")

        def verdict_on(found):
            self.show(f"{name}: proposal {self.judge.calls}, {time.time() - begin:.0f} s")
            text = self.source.edited(self.source.texts(procedure, found, ranked), name)[0]
            verdicts, reason = self.judge.verdicts(text, begin + self.options.seconds)
            return verdicts.get((name, f"loop {ranked}" if ranked else name), reason)
        search = Search(model, verdict_on, self.options.seconds, self.options.seed, self.say)
        found = search.run()
        if found is None:
            return BROKEN if procedure.is_upper and self.is_refuted(name, search) else self.failed(procedure, search)
        for at, part in sorted(found.items()):
            place = f"loop {at} at {self.source.line_column(model.loops[at].start)}:" if at else "pre"
            self.tell(f"{name}: {place} {'ranking ' * bool(ranked)}{shown(part)}")
        self.source.keep(procedure, found, ranked)
        return FOUND

    def is_refuted(self, name, search):
        """Whether `refute` shows that the bound is false at an input that is suspected, and reports that."""
        until, text = time.time() + search.seconds / 10, self.source.edited(only="")[0]
        for script in scripts(search.model, [state for state, _, _ in search.suspects[:MOST_REFUTED]]):
            if (seconds := min(self.judge.longest, until - time.time())) <= 0:
                break
            status, output = self.judge.run("refute", text, name, script=script, seconds=seconds)
            if status == 1:
                claim, steps = output.strip().partition(": ")[2], output.partition(" at step ")[2].partition(":")[0]
                lines = script.splitlines()[1:]
                decided = [line for line in lines if line.startswith("decide")][:int(steps)]
                lines = [f"steps {steps}", *(line for line in lines if line.startswith("set")), *decided]
                self.tell("\n".join([f"{name}: the bound is false: {claim}, by the script", *lines]))
                return True
        return False

    def failed(self, procedure, search):
        """Reports why nothing was found: an input at which iterations break the bound, or what was tried."""
        name, what = procedure.name, f"ranking of loop {search.model.ranked}: " * bool(search.model.ranked)
        if search.suspects:
            state, value, bound = search.suspects[0]
            values = ", ".join(f"{x} = {str(value).lower()}" for x, value in state.items()) or "any state"
            given = f"{'at least' if procedure.is_upper else 'at most'} {value:.6g}"
            given = f"from {values} iterations give {given}, and the pre is {bound}"
            self.tell(f"{name}: none found: {given}: it seems false")
            return NONE
        self.tell(f"{name}: {what}none found in {time.time() - search.begin:.0f} s: {len(search.reasons)} shapes tried")
        last = [f"last answer: {search.last}"] if search.last else []
        products = [f"nonlinear at {self.source.line_column(place)}: `verify` knows no product of two variables"
                    for place in products_of(procedure)]
        for line in [*dict.fromkeys(search.reasons.values()), *last, *products]:
            self.tell(f"  {line}")
        return NONE


def products_of(procedure):
    """The places of the products of two numbers that vary, in the clauses and the body."""
    expressions = [*procedure.pres, *procedure.posts, *expressions_of(procedure.body)]
    parts = [part for expression in expressions for part in parts_of(expression)]
    return [part.mark for part in parts if part[0] == "*" and all(map(varies, part[1:]))]


def varies(expression):
    """Whether a number that varies occurs in an expression, outside its conditions."""
    kind, *parts = expression
    inner = parts[1:] if kind == "ite" else [] if kind in ("[", "?") else parts
    return kind == "variable" or any(varies(part) for part in inner if isinstance(part, tuple))
