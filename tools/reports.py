"""The verdicts of a report, and the answers of a solver that agree with them."""


def verdicts(report):
    """Returns the verdicts of a report on each procedure, under its name twice, and on each loop with a ranking, under both names."""
    found, procedure_name = {}, ""
    for line in report.splitlines()[:-1]:
        name, verdict = line.strip().split(": ", 1)
        procedure_name = procedure_name if line.startswith(" ") else name
        found[procedure_name, name] = verdict
    return found


def verdict_on(told, name, goal):
    """The verdict that speaks of a goal of the procedure of this name."""
    return told[name, goal if goal.startswith("loop") else name]


def agreeing(verdict, goal):
    """The answer that agrees with a verdict, where only one does."""
    if verdict.startswith(("verified", "valid", "conditional", "ranked")):
        return "unsat"
    return "sat" if verdict.startswith(("not ranked", f"not verified ({goal})")) else None
