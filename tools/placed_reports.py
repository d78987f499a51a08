"""Reports of `verify` and `check` with the places of what they are about."""
import typing

import calls
import heyvl

KINDS = [
    "verified", "ranked", "valid", "no body", "conditional", "not verified", "not ranked", "not checked", "unknown",
]


class Line(typing.NamedTuple):
    """A verdict with its place: on the procedure of this name, on a loop of it, or on the file if the name is empty."""

    place: str
    name: str
    loop: str
    verdict: str

    def kind(self):
        """Returns the verdict without its cause; `refused` where it is on the file."""
        return next(kind for kind in KINDS if self.verdict.startswith(kind)) if self.name else "refused"

    def text(self):
        return calls.one_line(": ".join(part for part in self if part))


def report_lines(path, text, report):
    """Returns the lines of a report, each with its place in the text; one of another text is refused."""
    found, loops = [], []
    try:
        procedures = iter(heyvl.read(text))
    except heyvl.Fault:
        procedures = iter(())
    for line in report.splitlines()[:-1]:
        name, _, verdict = line.strip().partition(": ")
        if line.startswith("  "):
            place, name, loop = loops[int(name.split()[1]) - 1].start, found[-1].name, name
        else:
            procedure = next(procedures, None)
            if procedure is None or procedure.name != name:
                break
            place, loop, loops = procedure.name_start, "", loops_of(procedure.body or [])
        found.append(Line("%s:%d:%d" % (path, *heyvl.line_column(text, place)), name, loop, verdict))
    if report.splitlines()[-1:] != ["%d procedures" % sum(not line.loop for line in found)] or next(procedures, None):
        raise calls.Refusal(f"{path}: the program has reported on another text", 2)
    return found


def loops_of(block):
    """Returns the loops below a block, in the order in which they begin."""
    found = []
    for statement in block:
        kind, *parts = statement
        if kind == "while":
            found += [statement, *loops_of(parts[2])]
        elif kind == "pick":
            found += loops_of(parts[1]) + loops_of(parts[2])
        elif kind == "if":
            for block in [*(block for _, block in parts[0]), parts[1]]:
                found += loops_of(block)
    return found
