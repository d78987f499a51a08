"""The sums over the runs of a procedure for growing numbers of steps, and its pre, both by `caesar run`."""
import os
import re
import tempfile
import time
import typing
from fractions import Fraction

import calls
import heyvl

SUM = re.compile(r"(post|reward|running) (infinity|[\d/]+)")
STOPPED = re.compile(r"run stopped at step (\d+): \w+\n")


class Point(typing.NamedTuple):
    """The sums after some steps; infinity is None."""

    steps: int
    post: typing.Optional[Fraction]
    reward: typing.Optional[Fraction]
    running: typing.Optional[Fraction]


class Series(typing.NamedTuple):
    """The points, the pre, whether it is a bound from below, the inputs that the script sets, and why the points end
    early, or an empty text."""

    points: list
    pre: typing.Optional[Fraction]
    is_weak: bool
    settings: list
    stopped: str


def number(text):
    """Returns the number of a text; infinity is None."""
    return None if text == "infinity" else Fraction(text)


def written(value):
    """Returns the text of a number."""
    return "infinity" if value is None else str(value)


class Runs:
    """Calls of `caesar run` in a separate folder, where the script has other numbers of steps."""

    def __init__(self, program, folder, seconds):
        self.program, self.folder, self.end = program, folder, None if seconds is None else time.monotonic() + seconds

    def answer(self, file, procedure, script):
        """Returns the answer of `caesar run` with a script of this text."""
        path = os.path.join(self.folder, "script")
        with open(path, "wb") as written_script:
            written_script.write(calls.encoded(script))
        left = None if self.end is None else max(self.end - time.monotonic(), 0.001)
        return calls.call(self.program, ["run", os.path.abspath(file), procedure, path], seconds=left)

    def sums(self, file, procedure, script):
        """Returns the sums by their names, or None where the run stops or the time is over."""
        answer = self.answer(file, procedure, script)
        if answer.status == 0:
            return sums_of(answer)
        if answer.status in (8, None):
            return None
        raise calls.Refusal(answer.output.strip(), answer.status)

    def pre(self, text, procedure, script):
        """Returns the pre in the state of the script: the post of a procedure that does nothing."""
        head = "@wlp proc" if procedure.is_weak else "coproc"
        inputs = ", ".join(f"{name}: {type_name}" for name, type_name in procedure.inputs)
        pres = [clause for clause in procedure.clauses if clause[0] == "pre"]
        posts = "\n".join("post" + text[clause.start + 3 : clause.end] for clause in pres)
        path = os.path.join(self.folder, "bound.heyvl")
        with open(path, "wb") as file:
            file.write(calls.encoded(f"{head} bound({inputs}) -> ()\n{posts}\n{{ }}\n"))
        names = [name for name, _ in procedure.inputs]
        lines = [line for line in script.splitlines() if line.startswith("set ") and line.split(" ")[1] in names]
        answer = self.answer(path, "bound", "\n".join(["steps 1", *lines]))
        if answer.status != 0:
            cause = answer.output.strip().rpartition(": ")[2] or "the time is over"
            raise calls.Refusal(f"the pre is not known: {cause}", 8)
        return sums_of(answer)["post"]


def sums_of(answer):
    """Returns the sums of an answer by their names."""
    return {name: number(value) for name, value in SUM.findall(answer.output)}


def of_procedure(program, file, name, script, most=100, seconds=None):
    """Returns the series of a procedure: at most so many points after the first, in so many seconds."""
    with tempfile.TemporaryDirectory(prefix="series-") as folder:
        runs = Runs(program, folder, seconds)
        answer = runs.answer(file, name, script)
        if answer.status not in (0, 8):
            raise calls.Refusal(refusal(file, answer), answer.status or 8)
        text, (first, _, rest) = calls.read_text(file), script.partition("\n")
        steps = int(first.split(" ")[1])
        stopped = STOPPED.fullmatch(answer.output)
        last = min(steps, int(stopped[1])) if stopped else steps
        procedure = next(procedure for procedure in heyvl.read(text) if procedure.name == name)
        pre, points, count = runs.pre(text, procedure, script), [], min(last, most)
        for at in range(count + 1):
            number_of_steps = last * at // count if count else 0
            sums = runs.sums(file, name, f"steps {number_of_steps}\n{rest}")
            if sums is None:
                stopped = stopped or "the time is over"
                break
            points.append(Point(number_of_steps, *(sums[key] for key in ("post", "reward", "running"))))
        settings = [line[4:].replace(" ", " = ", 1) for line in script.splitlines() if line.startswith("set ")]
        end = answer.output.strip() if answer.status == 8 else stopped or ""
        return Series(points, pre, procedure.is_weak, settings, end)


def refusal(file, answer):
    """Returns the line of a call of `run` that was refused."""
    if calls.fault(answer.output) or answer.status in (None, 5, 7):
        return ": ".join(calls.refusal(file, answer))
    return answer.output.strip()
