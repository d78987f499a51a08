"""Writes files whose goals need splits of integer variables, and spoils certificates at such splits."""

VARIABLES = [b"0", b"1", b"2", b"3", b"16", b"256", b"2147483648", b"4294967295", b"4294967296", b"00", b"-1", b""]
NUMBERS = [
    b"0", b"1", b"-1", b"-0", b"07", b"+1", b"4611686018427387902", b"4611686018427387903", b"4611686018427387904", b"-4611686018427387903",
    b"-4611686018427387904", b"9223372036854775807", b"-9223372036854775808", b"9223372036854775808", b"18446744073709551616", b"9" * 400, b"",
]
LENGTHS = [8, 9, 100, 990, 996, 997, 998, 999, 1000, 5000]
BELOW = [(b"s",), (b"t",), (b"f 0:1",), (b"f 0:1 1:4611686018427387903",), (b"f 4294967295:1",), (b"i 0 0", b"f 0:1", b"f 0:1"), (b"end",), (b"",)]


def triangle(writer):
    """Returns variables and conditions of a triangle without an integer point: its only corner with an integer second coordinate has none as its first."""
    steep, place = writer.randint(2, 6), writer.randint(0, 4)
    conditions = [f"y + {steep * place} <= {steep}*x", f"y + {steep}*x <= {steep * place + steep}", "1 <= y"]
    return ["x", "y"], conditions


def line(writer):
    """Returns variables and conditions of a line that passes no integer point between two places, or seldom one at the last of them."""
    steep, other = writer.choice([(3, 2), (5, 2), (5, 3), (7, 5), (7, 3), (9, 6), (11, 4)])
    rest, least = writer.randint(1, steep - 1), writer.randint(0, 9)
    wide = 0
    while wide < steep and (other * (least + wide) + rest) % steep:
        wide += 1
    ends = [f"{least} <= x", f"x < {least + wide + writer.is_now(0.1)}"]
    return ["x", "y"], [f"{steep}*y == {other}*x + {rest}", *writer.sample(ends, 2)]


def procedure(writer, name):
    """Returns a procedure whose goal fails at the integer points of such a triangle or line alone."""
    variables, conditions = writer.choice([triangle, triangle, line])(writer)
    declared = [f"{x}: {writer.choice(['Int', 'UInt', 'UInt'])}" for x in writer.sample(variables, 2)]
    if writer.is_now(0.3):
        declared.insert(writer.randint(0, 2), "b: Bool")
        conditions.insert(writer.randint(0, len(conditions)), writer.choice(["b", "!b"]))
    if writer.is_now(0.2):
        declared.insert(writer.randint(0, len(declared)), "r: UReal")
        conditions.append("r <= 1/2")
    if writer.is_now(0.2):
        conditions = writer.sample(conditions, len(conditions))
    where = " && ".join(conditions)
    if writer.is_now(0.3):
        return f"@wlp proc {name}({', '.join(declared)}) -> () pre ite({where}, 2, 1) post 1 {{ }}"
    return f"coproc {name}({', '.join(declared)}) -> () pre ite({where}, 0, 1) post 1 {{ }}"


def file(writer):
    """The text of a file of such procedures."""
    return "\n".join(procedure(writer, f"p{i}") for i in range(writer.choice([1, 1, 2]))) + "\n"


def behind(lines, at):
    """Returns the number of the line after the tree that begins at a line."""
    wanted = 1
    while wanted and at < len(lines):
        wanted += 1 if lines[at][:1] in (b"s", b"i") else -1
        at += 1
    return at


class Spoiled:
    """The lines of certificates of version 2, and ways to spoil them at one of their splits."""

    def __init__(self, writer, text):
        self.writer, self.lines = writer, text.split(b"\n")
        self.at = writer.choice([at for at, line in enumerate(self.lines) if line[:2] == b"i "])
        self.middle = behind(self.lines, self.at + 1)
        self.end = behind(self.lines, self.middle)
        self.first, self.second = self.lines[self.at + 1 : self.middle], self.lines[self.middle : self.end]
        parts = self.lines[self.at].split(b" ")
        self.variable, self.number = parts[1:] if len(parts) == 3 else (b"0", b"0")

    def put(self, *lines):
        """Lines in place of the split and what is below it."""
        self.lines[self.at : self.end] = lines

    def over_another_variable(self):
        self.lines[self.at] = b"i %s %s" % (self.writer.choice(VARIABLES), self.number)

    def at_another_number(self):
        self.lines[self.at] = b"i %s %s" % (self.variable, self.writer.choice(NUMBERS))

    def at_the_next_number(self):
        if self.number.lstrip(b"-").isdigit():
            self.lines[self.at] = b"i %s %d" % (self.variable, int(self.number) + self.writer.choice([-1, 1]))

    def halves_exchanged(self):
        self.put(self.lines[self.at], *self.second, *self.first)

    def one_half_alone(self):
        self.put(*self.writer.choice([self.first, self.second]))

    def one_half_too_few(self):
        self.put(self.lines[self.at], *self.writer.choice([self.first, self.second]))

    def one_half_too_many(self):
        self.put(self.lines[self.at], *self.first, *self.second, *self.second)

    def split_twice(self):
        self.put(self.lines[self.at], self.lines[self.at], *self.first, *self.second, *self.second)

    def another_half(self):
        below = self.writer.choice(BELOW)
        self.put(self.lines[self.at], *self.writer.choice([(*below, *self.second), (*self.first, *below), (*below, *below)]))

    def a_question_in_its_place(self):
        self.lines[self.at] = self.writer.choice([b"s", b"t", b"s 0", b"i", b"i 0", b"i 0 0 0", b"I 0 0", b"i  0 0", b"i 0 0 ", b"i\t0\t0", b"i 0 0\r"])

    def before_a_question(self):
        goals = [at for at, line in enumerate(self.lines) if line[:5] == b"goal " and at + 1 < len(self.lines)]
        if goals:
            at = self.writer.choice(goals) + 1
            tree = self.lines[at : behind(self.lines, at)]
            self.lines[at:at] = [b"i %s %s" % (self.variable, self.number), *tree]

    def a_chain(self):
        """A chain of splits, whose length with the nodes above it may pass the depth of trees."""
        count, split, leaf = self.writer.choice(LENGTHS), self.lines[self.at], self.first[-1] if self.first else b"t"
        chain = [split] * count + [leaf] * (count + 1) if self.writer.is_now(0.5) else [line for _ in range(count) for line in (split, leaf)] + [leaf]
        self.put(*chain)

    def another_version(self):
        self.lines[0] = self.writer.choice([b"caesar certificate 1", b"caesar certificate 3", b"caesar certificate 2 ", b"caesar certificate"])

    def no_split_left(self):
        self.lines = [line for line in self.lines if line[:2] != b"i "]


WAYS = [name for name in vars(Spoiled) if name[0] != "_" and name != "put"]


def has_splits(text):
    return b"\ni " in text


def spoiled(writer, text):
    """Certificates of version 2 that are spoiled at up to three of their splits, while there are some."""
    for _ in range(writer.choice([1, 1, 2, 3])):
        if has_splits(text) and len(text) < 100000:
            lines = Spoiled(writer, text)
            getattr(lines, writer.choice(WAYS))()
            text = b"\n".join(lines.lines)
    return text
