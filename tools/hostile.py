"""Spoils files, scripts and certificates, and checks how the program answers them; certificates are also read by a separate reader."""
import os
import re
import resource
import signal
import subprocess
import tempfile
from concurrent.futures import ThreadPoolExecutor

import certificates
import splits

# The processor time that a call may take, and the time from which on it is reported, in seconds.
SECONDS = 300
SLOW = 10

# How many spoiled certificates are checked of a file whose goals need splits.
CERTIFICATES = 12

# The statuses with which each command may end, where its files can be read, its output be written and there is memory.
STATUSES = {
    "verify": (0, 1, 2, 3), "print": (0, 3), "run": (0, 3, 8), "certify": (0, 1, 2, 3), "check": (0, 1, 2, 3), "pgcl": (0, 3),
    "omega": (0, 1, 2, 3), "remainder": (0, 1, 2, 3), "refute": (0, 1, 3, 8),
}
PLACE = re.compile(rb"(\d+):(\d+): fault \d+: [^\n]+\n")
REFUSALS = re.compile(
    rb"file too long\n|script line \d+: fault\n|certificate line \d+: fault\n|no such procedure\n|[^\n]+ is not a program\n"
    rb"|not an omega pair\n|not a remainder pair\n|[^\n]+ is not a coproc\n"
)
LINE = re.compile(rb"certificate line (\d+): fault\n")
LONGEST = 2**20
PIECES = [
    b"(", b")", b"{", b"}", b"[", b"]", b",", b":", b";", b"=", b"==", b"<", b"<=", b"==>", b"->", b".", b"..", b"?", b"!", b"~", b"@", b"/",
    b"/*", b"*/", b"//", b"\\cap ", b"\\cup ", b"\\infty ", b"\\", b"0", b"1", b"1/2", b"1/0", b"0.5", b"99999999999999999999",
    b"170141183460469231731687303715884105727", b"4611686018427387904", b"-1", b" ite(", b" flip(", b" unif(", b" choose {", b" if ", b" else ",
    b" while ", b" var ", b" reward ", b" havoc ", b" cohavoc ", b" assume ", b" coassert ", b" sup ", b" inf ", b" pre ", b" post ", b" proc ",
    b" coproc ", b"@wlp ", b"@invariant(1) ", b"@k_induction(16, 1) ", b"@ranking(1, 1) ", b" Bool", b" UInt", b" true", b"\n", b"\r", b"\t", b"\0",
    b"\xff", b"\xc3\xa4", b"steps 10000\n", b"set x 1\n", b"decide left\n", b"s\n", b"t\n", b"f 0:1\n", b"f 4294967295:4611686018427387903\n",
    b"i 0 0\n", b"goal 0 main\n", b"end\n", b"caesar certificate 1\n",
]


def spoiled(writer, text):
    """Returns a text with up to four changes: pieces removed, doubled, moved or inserted, the end cut off, or a bit flipped."""
    for _ in range(writer.randint(1, 4)):
        at, to = sorted(writer.randint(0, len(text)) for _ in range(2))
        to = min(to, at + writer.choice([1, 2, 8, 64, 1024]))
        how = writer.choice(["removed", "cut", "doubled", "turned", "moved", "put in", "put in", "many"])
        if how == "removed":
            text = text[:at] + text[to:]
        elif how == "cut":
            text = text[:at] if writer.is_now(0.2) else text
        elif how == "doubled":
            text = text[:to] + text[at:to] + text[to:]
        elif how == "turned" and at < len(text):
            text = text[:at] + bytes([text[at] ^ 1 << writer.randint(0, 7)]) + text[at + 1 :]
        elif how == "moved":
            other = writer.randint(0, len(text))
            text = text[:other] + text[at:to] + text[other:]
        elif how == "put in":
            text = text[:at] + writer.choice(PIECES) + text[at:]
        elif how == "many":
            text = text[:at] + writer.choice(PIECES) * writer.choice([16, 199, 201, 2000]) + text[at:]
    return text


def pairs(folder):
    """Returns the files of a folder that hold pairs of procedures, each with the arguments for its pairs: NAME.PROC.OTHER.omega names a pair of NAME.heyvl."""
    found = {}
    for name in sorted(os.listdir(folder)):
        file, *words = name.split(".")
        if words and words[-1] in ("omega", "remainder"):
            found.setdefault(os.path.join(folder, file + ".heyvl"), []).append((words[-1], words[0], words[1]))
    return sorted(found.items())


class Hostile:
    """Calls one program with spoiled files, so many times beside each other, and counts what it answers."""

    def __init__(self, program, folder, beside):
        self.program, self.folder, self.beside = os.path.abspath(program), folder, beside
        self.calls, self.with_splits, self.slow, self.told = 0, 0, [], []

    def put(self, name, text):
        with open(os.path.join(self.folder, name), "wb") as file:
            file.write(text)
        return name

    def answer(self, *words):
        """The status of a call, what it writes to the two outputs, and the seconds that it takes of a processor."""
        with tempfile.TemporaryFile() as output, tempfile.TemporaryFile() as errors:
            called = subprocess.Popen([self.program, *words], cwd=self.folder, stdin=subprocess.DEVNULL, stdout=output, stderr=errors)
            resource.prlimit(called.pid, resource.RLIMIT_CPU, (SECONDS, SECONDS))
            _, status, used = os.wait4(called.pid, 0)
            called.returncode = os.waitstatus_to_exitcode(status)
            output.seek(0)
            errors.seek(0)
            return called.returncode, output.read(), errors.read(), used.ru_utime + used.ru_stime

    def fault(self, words, text):
        """What is wrong with the answer to a call whose first file has this text, or None."""
        status, output, errors, taken = self.answer(*words)
        if taken > SLOW:
            self.slow.append("%d seconds: %s" % (taken, self.shown(words)))
        if status in (-signal.SIGXCPU, -signal.SIGKILL):
            return "no answer after %d seconds" % SECONDS
        if status not in STATUSES[words[0]]:
            return "status %d" % status
        if errors:
            return "it writes to standard error"
        place = PLACE.fullmatch(output) if status == 3 else None
        if words[0] == "check" and place is None and not self.is_told(words[2], output):
            return "another line of the certificates is at fault, or none"
        if status != 3:
            return None if output.endswith(b"\n") or not output else "its last line has no end"
        if place is None:
            return None if REFUSALS.fullmatch(output) else "another refusal"
        line, column = map(int, place.groups())
        lines = text.split(b"\n")
        return None if 1 <= line <= len(lines) and 1 <= column <= len(lines[line - 1]) + 1 else "a place outside the file"

    def is_told(self, name, output):
        """Returns whether the output names the first invalid line of certificates, if they have one."""
        with open(os.path.join(self.folder, name), "rb") as file:
            text = file.read()
        told = LINE.fullmatch(output)
        return len(text) > LONGEST or certificates.fault(text) == (int(told[1]) if told else None)

    def shown(self, words):
        """Returns the arguments of a call, and the texts of its files."""
        texts = []
        for word in words[1:]:
            if os.path.exists(os.path.join(self.folder, word)):
                with open(os.path.join(self.folder, word), "rb") as file:
                    texts.append("%s:\n%s\n" % (word, file.read().decode("utf-8", "backslashreplace")))
        return "%s\n%s" % (" ".join(words), "".join(texts))

    def called(self, calls):
        """Makes calls, each with the text of its first file, beside each other."""
        with ThreadPoolExecutor(self.beside) as pool:
            for (words, text), fault in zip(calls, pool.map(lambda call: self.fault(*call), calls)):
                self.calls += 1
                if fault is not None:
                    self.told.append("%s: %s" % (fault, self.shown(words)))

    def of_file(self, number, writer, text, script, procedures):
        """Calls the commands of HeyVL on a spoiled file, and on the file as it is with a spoiled script and spoiled certificates."""
        whole, bad = self.put("%d.heyvl" % number, text), spoiled(writer, text)
        broken = self.put("%d.bad.heyvl" % number, bad)
        certified = self.answer("certify", whole)[1]
        good_script = self.put("%d.script" % number, script)
        bad_script = self.put("%d.bad.script" % number, spoiled(writer, script))
        good_cert = self.put("%d.certificate" % number, certified)
        bad_cert = self.put("%d.bad.certificate" % number, spoiled(writer, certified))
        name = writer.choice(procedures)
        calls = [((command, broken), bad) for command in ("verify", "print", "certify")]
        for command in ("run", "refute"):
            calls += [((command, whole, name, bad_script), text), ((command, broken, name, good_script), bad)]
        calls += [(("check", whole, bad_cert), text), (("check", broken, good_cert), bad)]
        calls += [((command, file, name, writer.choice(procedures)), held) for command in ("omega", "remainder") for file, held in ((whole, text), (broken, bad))]
        self.called(calls)

    def of_splits(self, number, writer, text):
        """Calls the commands of goals on a spoiled file whose goals need splits, and `check` on the file as it is with certificates that are
        spoiled at their splits."""
        whole, bad = self.put("%d.heyvl" % number, text), spoiled(writer, text)
        broken = self.put("%d.bad.heyvl" % number, bad)
        certified = self.answer("certify", whole)[1]
        good_cert = self.put("%d.certificate" % number, certified)
        calls = [(("verify", broken), bad), (("certify", broken), bad), (("check", broken, good_cert), bad), (("check", whole, good_cert), text)]
        for at in range(CERTIFICATES if splits.has_splits(certified) else 0):
            bad_cert = splits.spoiled(writer, certified)
            bad_cert = spoiled(writer, bad_cert) if writer.is_now(0.2) else bad_cert
            calls.append((("check", whole, self.put("%d.%d.certificate" % (number, at), bad_cert)), text))
            self.with_splits += 1
        self.called(calls)

    def of_pair(self, number, writer, text, pairs):
        """Calls the commands on pairs of procedures, each with its arguments, on a spoiled file that holds them."""
        bad = spoiled(writer, text)
        broken = self.put("%d.pair.heyvl" % number, bad)
        self.called([((command, broken, first, second), bad) for command, first, second in pairs])

    def of_program(self, number, writer, text):
        """Calls `pgcl` on a spoiled program of guarded commands, and `verify` on what it writes."""
        bad = spoiled(writer, text)
        words = "pgcl", self.put("%d.pgcl" % number, bad)
        self.called([(words, bad)])
        status, output, _, _ = self.answer(*words)
        if status == 0:
            self.called([(("verify", self.put("%d.made.heyvl" % number, output)), output)])
