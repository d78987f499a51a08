"""What the tests of the tools share: calls of a tool, comparisons, and the line of counts at the end."""
import os
import signal
import subprocess
import sys

ROOT = os.path.dirname(os.path.dirname(os.path.dirname(os.path.abspath(__file__))))
TOOLS = os.path.join(ROOT, "tools")
EXAMPLES = os.path.join(ROOT, "examples")
sys.dont_write_bytecode = True
sys.path.insert(0, TOOLS)


class Checks:
    """Counts comparisons, and prints each that fails."""

    def __init__(self, program, seconds=120):
        self.program, self.seconds = os.path.abspath(program), seconds
        self.passed, self.failed, self.skipped = 0, 0, []

    def equal(self, name, wanted, got):
        """Compares two values; a text shows both from the first line that differs."""
        if wanted == got:
            self.passed += 1
            return
        self.failed += 1
        print(f"{name}:\n  wanted: {wanted}\n  got:    {got}")

    def holds(self, name, is_so, why=""):
        """Counts something that has to be so."""
        self.equal(name, "so", "so" if is_so else f"not so {why}")

    def part(self, count, missing, work, *others):
        """Makes comparisons, or skips them where something is missing; reports a count that is not that of them."""
        if missing:
            self.skipped.append((count, missing))
            return
        before = self.passed + self.failed
        work(self, *others)
        made = self.passed + self.failed - before
        if made != count:
            self.failed += 1
            print(f"{work.__name__}: would skip {count} comparisons, and has made {made}")

    def environment(self):
        """Returns the variables of a tool's call."""
        return {**os.environ, "CAESAR": self.program, "PYTHONDONTWRITEBYTECODE": "1"}

    def tool(self, name, *words, folder=None, standard_input=b"", **others):
        """Calls a tool and returns its status, its output and its errors."""
        ended = subprocess.run([os.path.join(TOOLS, name), *words], cwd=folder, input=standard_input,
                               env={**self.environment(), **others}, stdout=subprocess.PIPE, stderr=subprocess.PIPE,
                               timeout=self.seconds)
        return ended.returncode, *(text.decode("utf-8", "backslashreplace") for text in (ended.stdout, ended.stderr))

    def broken_outputs(self, name, *words, folder=None):
        """Calls a tool whose standard output is full, closed, or read by nobody: it has status 6 and no traceback."""
        call = [os.path.join(TOOLS, name), *words]
        reader, writer = os.pipe()
        os.close(reader)
        outputs = (("full", call, open("/dev/full", "wb"), "output: No space left on device\n"),
                   ("closed", ["sh", "-c", 'exec "$@" >&-', "sh", *call], None, "output: there is none\n"),
                   ("read by nobody", call, open(writer, "wb"), ""))
        for how, command, output, wanted in outputs:
            ended = subprocess.run(command, cwd=folder, env=self.environment(), stdin=subprocess.DEVNULL, stdout=output,
                                   stderr=subprocess.PIPE, timeout=self.seconds)
            self.equal(f"{name}: an output that is {how}", (6, wanted), (ended.returncode, ended.stderr.decode()))
            if output:
                output.close()

    def run(self, *words, folder=None):
        """Calls the program and returns what it writes."""
        ended = subprocess.run([self.program, *words], cwd=folder, stdout=subprocess.PIPE, timeout=self.seconds)
        return ended.stdout.decode()

    def finish(self):
        """Prints the counts and ends the test."""
        skipped, reasons = sum(count for count, _ in self.skipped), dict.fromkeys(why for _, why in self.skipped)
        skipped = f", {skipped} skipped: {'; '.join(reasons)}" if reasons else ""
        print(f"{self.passed} passed, {self.failed} failed{skipped}")
        sys.exit(self.failed != 0 or self.passed + len(self.skipped) == 0)


def begin(text):
    """Returns the checks of a test whose one argument is the program."""
    if len(sys.argv) != 2:
        print(text.strip(), file=sys.stderr)
        sys.exit(2)
    return Checks(sys.argv[1])


def start(words, folder=None):
    """Starts a tool that signals will end, and returns it; a shell may have set it to ignore the keyboard's."""
    return subprocess.Popen(words, cwd=folder, stdout=subprocess.PIPE, stderr=subprocess.PIPE,
                            preexec_fn=lambda: signal.signal(signal.SIGINT, signal.default_int_handler))


def program(folder, name, text):
    """Writes a program that is a shell script, and returns its path."""
    path = written(folder, name, "#!/bin/sh\n" + text)
    os.chmod(path, 0o755)
    return path


def written(folder, name, text):
    """Writes a file and returns its path."""
    path = os.path.join(folder, name)
    os.makedirs(os.path.dirname(path), exist_ok=True)
    with open(path, "wb") as file:
        file.write(text if isinstance(text, bytes) else text.encode("utf-8"))
    return path
