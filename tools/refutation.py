"""Asks `caesar refute` whether runs of a coproc break its bound, by a few scripts."""
import os
import re
import tempfile
from fractions import Fraction

import calls
import conditions
import evaluate
import summaries

STEPS, LARGER, SAME_CHOICES, SECONDS = 200, 2, 12, 300
LONG, SUM = 24, "the expected reward plus post"


def lines_on(program, path, procedure, whole, has_failure, decisions):
    """Returns lines on a coproc whose bound is not shown: whether it is false, and by which script. `whole` is the verdict of `verify`,
    `has_failure` says whether an obligation fails, and `decisions` are choices by which the bound is broken in its state, if they are known."""
    answer, script = Runs(program, path, procedure).refuted(whole, decisions)
    output = answer.output.strip()
    found = re.search(r": violated at step (\d+): (\S+) above (\S+)$", output)
    if found:
        given, pre = shortened(found[2]), shortened(found[3])
        head = f"the bound is false: after {steps(found[1])} {SUM} is {given}, above the pre {pre}, with the script"
        return [head, *("  " + line for line in script.splitlines())]
    if output.endswith(" is not a program"):
        return [f"whether runs break the bound is not known: {output}"]
    kinds = {statement[0] for statement in conditions.statements_of(procedure.body)}
    if not kinds.intersection(summaries.SUMMARIES):
        return ["the bound is false: a scheduler who chooses as above breaks it"] if whole.fails else []
    weak = "the invariant" if "while" in kinds else "what the called procedures claim"
    head = f"the bound may be true, and {weak} too weak" if has_failure else "the bound may be true"
    return [f"{head}: {seen(output, script)}"]


def steps(number):
    return f"{number} step" + "s" * (number != "1")


def seen(output, script):
    """Returns what an answer without a violation says of the runs of a script."""
    values = ", ".join(f"{name} = {value}" for name, value in re.findall(r"^set (\S+) (\S+)$", script, re.M))
    start = f" from {values}" * bool(values)
    found = re.search(r": within (\S+) at step (\d+): (\S+)$", output)
    if found:
        pre, given = shortened(found[1]), shortened(found[3])
        return f"after {steps(found[2])}{start} {SUM} is {given}, not above the pre {pre}"
    found = re.fullmatch(r"run stopped at step (\d+): (\w+)", output)
    if found:
        return f"{SUM}{start} is not above the pre before step {found[1]}, at which the runs stop ({found[2]})"
    return output or f"the runs{start} take too long"


class Runs:
    """Asks `refute` on a coproc."""

    def __init__(self, program, path, procedure):
        self.program, self.path, self.procedure = program, path, procedure
        self.kinds = {statement[0] for statement in conditions.statements_of(procedure.body)}

    def asked(self, script):
        """Returns the answer on a script."""
        with tempfile.TemporaryDirectory(prefix="explain-") as folder:
            place = os.path.join(folder, "script")
            with open(place, "w", encoding="utf-8") as file:
                file.write(script)
            words = ["refute", calls.argument(self.path), self.procedure.name, place]
            return calls.call(self.program, words, seconds=SECONDS)

    def refuted(self, whole, decisions):
        """Returns the answer that shows a violation, with its script, else the last answer."""
        for start in self.starts(whole):
            for decided, is_repeated in self.choices(decisions):
                script = start + decided * (SAME_CHOICES if is_repeated else 1)
                answer = self.asked(script)
                if answer.status == 1 and is_repeated:
                    return self.shortest(start, decided)
                if answer.status in (1, 3):
                    return answer, script
        return answer, script

    def shortest(self, start, decided):
        """Returns the answer that shows a violation with the fewest choices, with its script."""
        for count in range(1, SAME_CHOICES + 1):
            answer = self.asked(start + decided * count)
            if answer.status == 1:
                break
        return answer, start + decided * count

    def starts(self, whole):
        """Yields the beginnings of scripts: for the state of the report, and for one with larger inputs."""
        values = evaluate.read_state(whole.detail if whole.fails else "any state")[0]
        inputs = list(map(tuple, self.procedure.inputs))
        for more in (0, LARGER)[:1 + any(type_name != "Bool" for _, type_name in inputs)]:
            sets = ""
            for name, type_name in [*inputs, *map(tuple, self.procedure.outputs)]:
                is_input, value = (name, type_name) in inputs, values.get(name, False if type_name == "Bool" else 0)
                value = value + more if is_input and type_name != "Bool" else value
                sets += f"set {name} {str(value).lower()}\n" * bool(is_input or value)
            yield f"steps {STEPS}\n{sets}"

    def choices(self, decisions):
        """Yields choices as lines of scripts, and whether they are made again and again: the known ones, or none and always the same."""
        yield "".join(f"decide {decision}\n" for decision in decisions), False
        if not decisions:
            for kind, value in (("pick", "right"), ("any", "true")):
                if kind in self.kinds:
                    yield f"decide {value}\n", True


def shortened(number):
    """Returns a fraction, or the first digits of a long one."""
    if len(number) < LONG or "/" not in number:
        return number
    return "%d.%06d.." % divmod(int(Fraction(number) * 10**6), 10**6)
