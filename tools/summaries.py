"""Loops and calls as summaries, and the items that the code of an obligation consists of.

Items are the statements of docs/LANGUAGE.md as tools/heyvl.py reads them, and three more:

  ("end", expression, label)   the code ends with this bound
  ("give", [target], name)     the target gets the value of a variable
  ("whole",)                   the loops and calls after it stay as they are

Without a `whole` before it, a loop or a call is an end: its bound is the invariant, or the pre of the called procedure."""
import conditions
import heyvl
from expressions import variables_of

SUMMARIES = ("while", "call")
ASSIGNMENTS = ("set", "draw", "toss", "any", "give", "call")


def has_summaries(block):
    return any(statement[0] in SUMMARIES for statement in conditions.statements_of(block))


def invariant_of(loop):
    return (loop[1].get("k_induction") or loop[1]["invariant"])[-1]


def copies_of(loop):
    return int(loop[1]["k_induction"][0][1]) if "k_induction" in loop[1] else 1


def after_copy(loop, count, rest, is_upper, label):
    """Returns the items that follow a copy of the body of a loop, where `count` copies are left with this one, and `rest` after the loop.
    The code ends with the invariant, which has this label."""
    invariant = invariant_of(loop)
    if count == 1:
        return [("end", invariant, label)]
    more = [item for item in after_copy(loop, count - 1, [], is_upper, label) if item[0] != "whole"]
    again = heyvl.Node(("if", [(loop[2], heyvl.Block(0, 0, [*loop[3], *more]))], heyvl.Block(0, 0)))
    return [("whole",), heyvl.Node(("check", "assert" if is_upper else "coassert", invariant)), again, *rest]


def is_end(item, is_whole):
    """Whether the code ends at an item."""
    return item[0] == "end" or item[0] in SUMMARIES and not is_whole


def end_reads(item):
    """Returns the variables of the bound of an end."""
    return variables_of(item[3] if item[0] == "call" else invariant_of(item) if item[0] == "while" else item[1])


def live(items, after, is_whole=False):
    """Returns the variables whose values matter before items, with those that matter after them."""
    cut = len(items) if is_whole else next((n for n, item in enumerate(items) if item[0] == "whole"), len(items))
    for number, item in reversed(list(enumerate(items))):
        kind, *parts = item
        stays = is_whole or number > cut
        if is_end(item, stays):
            after = end_reads(item)
        elif kind in ASSIGNMENTS:
            targets, read = set(parts[0]), set(parts[1:]) if kind == "give" else variables_of(parts[1:])
            is_idle = kind != "call" and after.isdisjoint(targets)
            after = (after - targets) | (read - targets if is_idle else read)
        elif kind == "declare":
            after = after - {parts[0]}
        elif kind == "if":
            blocks = [block for _, block in parts[0]] + [parts[1]]
            after = set().union(*(live(block, after, stays) for block in blocks), *(variables_of(guard) for guard, _ in parts[0]))
        elif kind == "pick":
            after = live(parts[1], after, stays) | live(parts[2], after, stays)
        else:
            after = after | variables_of(parts)
    return after


def assigned(items, is_whole=False):
    """Returns the variables that items assign before the code ends, and whether anything can follow the items."""
    found = set()
    for item in items:
        kind, *parts = item
        is_whole = is_whole or kind == "whole"
        if is_end(item, is_whole):
            return found, False
        if kind in ("if", "pick"):
            blocks = [assigned(block, is_whole) for block in conditions.blocks_of(item)]
            found = found.union(*(names for names, _ in blocks))
            if not any(goes_on for _, goes_on in blocks):
                return found, False
        elif kind == "while":
            found |= conditions.targets_of([item])
        elif kind in ASSIGNMENTS:
            found |= set(parts[0])
    return found, True
