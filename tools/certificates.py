"""Reads texts of certificates by the rules of docs/CERTIFICATES.md."""
import re

DEEPEST = 1000
NUMBER = rb"(0|[1-9][0-9]*)"
GOAL = re.compile(rb"goal %s (?:(main|pre|post)|(invariant|ranking) %s)" % (NUMBER, NUMBER))
SPLIT = re.compile(rb"i %s (0|-?[1-9][0-9]*)" % NUMBER)
ROW = re.compile(rb"%s:%s" % (NUMBER, NUMBER))
KINDS = [b"main", b"pre", b"post", b"invariant", b"ranking"]
VERSIONS = {b"caesar certificate 1": 1, b"caesar certificate 2": 2}


class Fault(Exception):
    """The number of the first line that may not be where it is, or of the one after the last where the text ends too early."""

    def __init__(self, line):
        super().__init__(line)
        self.line = line


def whole(digits, end):
    """The number of some digits, or None where it reaches an end."""
    return int(digits) if len(digits) < 30 and abs(int(digits)) < end else None


def goal_of(line):
    """The place of a goal's line in the order of goals; None where it is none."""
    found = GOAL.fullmatch(line)
    if found is None:
        return None
    place = whole(found[1], 2**32), KINDS.index(found[2] or found[3]), whole(found[4] or b"0", 2**32)
    return None if None in place else place


def rows_of(line):
    """The rows of an `f`, which grow, each with its multiplier; None where the line is no `f`."""
    found = [ROW.fullmatch(part) for part in line.split(b" ")[1:]]
    if line[:2] != b"f " or None in found:
        return None
    rows = [(whole(row[1], 2**32), whole(row[2], 2**62)) for row in found]
    if any(number is None or not multiplier for number, multiplier in rows):
        return None
    return rows if all(a < b for (a, _), (b, _) in zip(rows, rows[1:])) else None


def node_of(line, version):
    """A node without its trees, and how many it has; None where the line is no node."""
    if line in (b"s", b"t"):
        return [line.decode()], 2 if line == b"s" else 0
    found = SPLIT.fullmatch(line) if version == 2 else None
    if found is not None:
        variable, number = whole(found[1], 2**32), whole(found[2], 2**62)
        return None if None in (variable, number) else (["i", variable, number], 2)
    rows = rows_of(line)
    return None if rows is None else (["f", rows], 0)


def trees(text):
    """The trees of a text of certificates, by the procedure's number, the goal's kind and the loop's number or 0. A tree is a list: `s`, `i` with
    a variable and a number, both with their two trees; `f` with rows and multipliers; or `t`."""
    lines = text.split(b"\n")
    version, found, last, is_split = VERSIONS.get(lines[0]), {}, None, False
    above = []
    for number, line in enumerate(lines[:-1], 1):
        if number == 1:
            is_right = version is not None
        elif above:
            node, parts = node_of(line, version) or (None, 0)
            is_right = node is not None and (parts == 0 or len(above) < DEEPEST)
            if is_right:
                above[-1][0].append(node)
                above[-1][1] -= 1
                above += [[node, parts]] * (parts > 0)
                is_split = is_split or node[0] == "i"
            while above and above[-1][1] == 0:
                above.pop()
        elif line == b"end":
            if version == 2 and not is_split or lines[number:] != [b""]:
                raise Fault(number + (version == 1 or is_split))
            return {place: tree for place, (tree,) in found.items()}
        else:
            place = goal_of(line)
            is_right = place is not None and (last is None or last < place)
            if is_right:
                last, root = place, []
                found[place[0], KINDS[place[1]].decode(), place[2]] = root
                above = [[root, 1]]
        if not is_right:
            raise Fault(number)
    raise Fault(len(lines))


def fault(text):
    """Returns the number of the first invalid line of a text, or None."""
    try:
        trees(text)
    except Fault as fault_of_text:
        return fault_of_text.line
    return None
