"""The program `caesar`, which alone decides what holds: its answers on texts."""
import os
import re
import tempfile
import time

import calls
import evaluate
import reports


class Judge:
    """Runs a program, for at most `longest` seconds; `calls` counts its answers."""

    def __init__(self, program, longest):
        self.program, self.longest, self.calls = program, longest, 0

    def run(self, command, text, *arguments, seconds=None, script=""):
        """The status and the output of a command on a text, and on a script after the arguments."""
        self.calls += 1
        with tempfile.TemporaryDirectory() as folder:
            for name, content in (("file.heyvl", text), ("file.script", script)):
                with open(os.path.join(folder, name), "wb") as file:
                    file.write(calls.encoded(content))
            words = [command, "file.heyvl", *arguments, *["file.script"] * bool(script)]
            answer = calls.call(self.program, words, folder, max(self.longest if seconds is None else seconds, 0.2))
        return answer if answer.status is not None else calls.Answer(None, "unknown (bound): time")

    def verdicts(self, text, end):
        """The verdicts of `verify` until a time, by the names of procedures twice, or of procedure and loop; and why
        there are none."""
        status, output = self.run("verify", text, seconds=min(self.longest, end - time.time()))
        if "fault 3: " in output:
            return {}, "unknown (bound): bits"
        if status in (0, 1, 2):
            return reports.verdicts(output), ""
        return {}, output.strip() if status is None else f"status {status}: {output.strip()}"


def is_accepted(verdict):
    """Whether the inequality holds; `conditional` and `valid` say the same with less about runs."""
    return verdict.startswith(("verified", "conditional", "valid", "ranked"))


def state_of(verdict):
    """The state in a verdict: the number of the loop that it is about, or 0; the values of variables; those of
    choices."""
    about, marked = re.search(r"invariant of loop (\d+)", verdict), {}
    plain, choices = evaluate.read_state(verdict.partition(": ")[2])
    for (name, _), value in choices.items():
        marked.setdefault(name, []).append(value)
    return int(about[1]) if about else 0, plain, marked
