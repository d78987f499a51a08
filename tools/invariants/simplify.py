"""Shorter invariants: parts are left out, and fractions become simpler ones, while `verify` accepts the result."""
import math
import time
from fractions import Fraction

from invariants.expressions import shown
from invariants.judge import is_accepted
from invariants.templates import multiple

SHARE, MOST_TRIES, SHORT, MOST_NEAR = 1 / 6, 90, 12, 3
DENOMINATORS = (1, 2, 3, 4, 5, 6, 8, 9, 10, 12, 15, 16, 20, 25, 50, 100, 1000, 10_000, 100_000, 1_000_000)


def shorter(expression):
    """Expressions in which one part is replaced by a part of it, or by a simpler fraction; the outer ones first."""
    kind, *parts = expression
    if kind in ("ite", "&&", "||", "+", "-"):
        yield from parts[kind == "ite":]
    for at, part in enumerate(parts):
        for other in shorter(part) if isinstance(part, tuple) else ():
            yield (kind, *parts[:at], other, *parts[at + 1:])
    if kind == "/" and parts[1][0] == "number":
        yield from simpler(parts[0], parts[1][1])


def simpler(dividend, divisor):
    """Fractions near `n/divisor`, or near this multiple of a summand, with shorter numbers; the nearest first."""
    factor, atom = dividend[1:] if dividend[0] == "*" else (dividend, None)
    if factor[0] != "number":
        return
    value = factor[1] / divisor
    near = {Fraction(side(value * small), small) for small in DENOMINATORS for side in (math.floor, math.ceil)}
    near = [other for other in near if 0 < other and len(str(other)) < len(f"{factor[1]}/{divisor}")]
    for other in sorted(near, key=lambda other: abs(other - value))[:MOST_NEAR]:
        yield multiple(other, atom)


def shortest(search, found):
    """The invariants that a search found, by the numbers of loops, without parts that `verify` can do without."""
    until, tries = min(search.end, time.time() + SHARE * search.seconds), 0
    for at in [at for at in found if at and (not search.aim or search.aim.number == 0)]:
        others, index = list(shorter(found[at])), 0
        while index < len(others) and len(shown(found[at])) >= SHORT and tries < MOST_TRIES and time.time() < until:
            other, index = others[index], index + 1
            if len(shown(other)) < len(shown(found[at])):
                tries += 1
                if is_accepted(search.verdict_on({**found, at: other})):
                    found, others, index = {**found, at: other}, list(shorter(other)), index - 1
    return found
