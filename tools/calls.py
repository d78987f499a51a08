"""Finds the program `caesar`, calls it, and reads what it writes; the errors that tools report in one line."""
import argparse
import os
import re
import shutil
import signal
import subprocess
import sys
import tempfile
import threading
import typing

ROOT = os.path.dirname(os.path.dirname(os.path.abspath(__file__)))
LONGEST = 2**20
FAULT = re.compile(r"(\d+):(\d+): (fault \d+: .*)\n")
HELP = "the program: this one, else that of $CAESAR, else `caesar` on PATH, else the one built in this repository"


class Refusal(Exception):
    """An error of a user's call: one line, and the status with which the tool ends."""

    def __init__(self, line, status):
        super().__init__(line)
        self.line, self.status = line, status


class Arguments(argparse.ArgumentParser):
    """The arguments of a tool, whose help is the text of its module."""

    def __init__(self, name, text, has_program=True):
        layout = argparse.RawDescriptionHelpFormatter
        super().__init__(prog=name, description=text, formatter_class=layout)
        if has_program:
            self.add_argument("--caesar", metavar="PROGRAM", help=HELP)

    def error(self, message):
        raise Refusal(f"{self.prog}: {message}; see {self.prog} --help", 4)


def count(text):
    """Returns the integer above 0 that an argument gives."""
    if not (text.isascii() and text.isdigit() and 0 < int(text[:10]) < 10**9):
        raise argparse.ArgumentTypeError("N is an integer above 0")
    return int(text)


def seconds(text):
    """Returns the number of seconds above 0 that an argument gives."""
    try:
        found = float(text)
    except ValueError:
        found = 0
    if not 0 < found < 10**9:
        raise argparse.ArgumentTypeError("N is a number above 0")
    return found


class Answer(typing.NamedTuple):
    """The status of a call, or None where it took too long, and what it wrote."""

    status: typing.Optional[int]
    output: str


UNDER_WAY, ENDING = set(), threading.Event()


def find_program(named=None):
    """Returns the path of the program."""
    built = os.path.join(ROOT, "crates", "caesar", "out", "caesar")
    named = named or os.environ.get("CAESAR")
    path = shutil.which(named or "caesar") or (None if named else shutil.which(built))
    if path is None:
        what = f"there is no program {named}" if named else "there is no program `caesar` on PATH"
        raise Refusal(f"{what}: name it by --caesar PROGRAM or CAESAR=PROGRAM", 4)
    return os.path.abspath(path)


def argument(path):
    """Returns a path as the program takes it, which refuses arguments that begin with `-`. A name that the program does
    not take is refused, and so is a pipe, as it can be read only once."""
    if os.path.exists(path) and not os.path.isfile(path):
        raise Refusal(f"{path}: not a regular file", 5)
    if not path.isascii() and decoded(encoded(path).decode("utf-8", "ignore").encode()) != path:
        raise Refusal(f"{path}: the name is not UTF-8, and the program takes no other", 5)
    return os.path.join(".", path) if path.startswith("-") else path


def call(program, words, folder=None, seconds=None):
    """Calls the program and returns its answer; one that a signal ended has status 7, as where memory runs out."""
    try:
        called = subprocess.Popen([program, *words], cwd=folder, stdin=subprocess.DEVNULL, stdout=subprocess.PIPE,
                                  stderr=subprocess.STDOUT)
    except OSError as error:
        raise Refusal(f"{program}: {error.strerror}", 4) from error
    UNDER_WAY.add(called)
    try:
        if ENDING.is_set():
            called.kill()
        output = called.communicate(timeout=seconds)[0]
    except subprocess.TimeoutExpired:
        return Answer(None, "")
    finally:
        UNDER_WAY.discard(called)
        end(called)
    return Answer(called.returncode if called.returncode >= 0 else 7, decoded(output))


def end(called):
    """Ends a call, where it still runs."""
    called.kill()
    called.stdout.close()
    called.wait()


def end_calls():
    """Ends the calls that other threads wait for, and those that they begin now."""
    ENDING.set()
    for called in list(UNDER_WAY):
        called.kill()


def decoded(data):
    """Returns a text from which `encoded` gives back the same bytes."""
    return data.decode("utf-8", "surrogateescape")


def encoded(text):
    """Returns the bytes of a text."""
    return text.encode("utf-8", "surrogateescape")


def shown(text):
    """Returns a text that can be written anywhere: bytes that are no UTF-8 as `\\xNN`."""
    return encoded(text).decode("utf-8", "backslashreplace")


def one_line(text):
    """Returns a text as one line, in which line feeds and other control characters are written as `\\xNN`, too."""
    return "".join(letter if letter.isprintable() else "\\x%02x" % ord(letter) for letter in shown(text))


def read_text(path, name=None):
    """Returns the text of a file, each byte of it; a file that is too long for the program is refused with the program's
    message. A name may be given that is shown instead of the path."""
    try:
        with open(path, "rb") as file:
            data = file.read(LONGEST + 1)
    except OSError as error:
        raise Refusal(f"{name or path}: {error.strerror}", 5) from error
    if len(data) > LONGEST:
        raise Refusal(f"{name or path}: file too long", 3)
    return decoded(data)


def replace(name, text):
    """Replaces the contents of a file by a text in one step; a file that may not be written stays."""
    path, new = os.path.realpath(name), None
    try:
        with open(path, "r+b"):
            handle, new = tempfile.mkstemp(dir=os.path.dirname(path), prefix=".new-")
        with os.fdopen(handle, "wb") as file:
            file.write(encoded(text))
        shutil.copymode(path, new)
        os.replace(new, path)
        new = None
    except OSError as error:
        raise Refusal(f"{name}: {error.strerror}", 6) from error
    finally:
        if new:
            os.unlink(new)


def fault(output):
    """Returns the line, the column and the text of the error that an output consists of, or None."""
    found = FAULT.fullmatch(output)
    return (int(found[1]), int(found[2]), found[3]) if found else None


def refusal(path, answer):
    """Returns the place and the cause of a refusal."""
    found = fault(answer.output)
    if found:
        return "%s:%d:%d" % (path, *found[:2]), found[2]
    return path, "no answer in the time given" if answer.status is None else answer.output.strip() or "out of memory"


def canonical(program, path):
    """Returns the canonical text of a file."""
    answer = call(program, ["print", argument(path)])
    if answer.status != 0:
        raise Refusal(": ".join(refusal(path, answer)), answer.status or 2)
    return answer.output


def files_below(paths):
    """Returns the files at these paths, and the HeyVL files below those that are folders, each once and in the order of
    their names, but for hidden ones; and status 5 where something can't be read, which is reported, or 0."""
    found, refused = [], []

    def refuse(path, cause):
        refused.append(path)
        print(one_line(f"{path}: {cause}"), file=sys.stderr)

    for path in paths:
        if not os.path.isdir(path):
            found.append(path)
            continue
        below, before = [], len(refused)
        for folder, folders, names in os.walk(path, onerror=lambda error: refuse(error.filename, error.strerror)):
            folders[:] = [name for name in folders if name[0] != "."]
            below += [os.path.join(folder, name) for name in names if name.endswith(".heyvl") and name[0] != "."]
        if not below and len(refused) == before:
            refuse(path, "there is no file *.heyvl")
        found += sorted(below)
    return list(dict.fromkeys(map(short, found))), 5 if refused else 0


def short(path):
    """Returns a path without parts such as `./`, where it leads to the same file."""
    normal = os.path.normpath(path)
    return normal if path and os.path.realpath(normal) == os.path.realpath(path) else path


def run_tool(main):
    """Runs the main function of a tool and ends with its status; an error of the user is one line on standard error."""
    signal.signal(signal.SIGTERM, interrupt)
    try:
        status = with_outputs(main)
    except Refusal as refused:
        status = report(refused.line, refused.status)
    except KeyboardInterrupt as interrupted:
        status = 128 + (interrupted.args or [signal.SIGINT])[0]
    except BrokenPipeError:
        status = 6
    except OSError as error:
        status = report(f"{error.filename or 'output'}: {error.strerror}", 6)
    except Exception as error:
        line = error.__traceback__
        while line.tb_next:
            line = line.tb_next
        place = f"{os.path.basename(line.tb_frame.f_code.co_filename)}:{line.tb_lineno}"
        name = os.path.basename(sys.argv[0])
        status = report(f"{name}: a fault of this tool at {place}: {type(error).__name__}: {error}", 70)
    close_outputs()
    sys.exit(status)


def interrupt(number, _):
    raise KeyboardInterrupt(number)


def with_outputs(main):
    """Returns the status of a main function that has a standard output and a place for its errors."""
    if sys.stderr is None:
        sys.stderr = open(os.devnull, "w", encoding="utf-8")
    if sys.stdout is None:
        raise Refusal("output: there is none", 6)
    sys.stdout.reconfigure(errors="backslashreplace")
    sys.stderr.reconfigure(errors="backslashreplace")
    status = main()
    sys.stdout.flush()
    return status


def report(line, status):
    """Writes a line to standard error, and returns the status."""
    try:
        print(one_line(line), file=sys.stderr, flush=True)
    except OSError:
        pass
    return status


def close_outputs():
    """Writes what is left to standard output, or drops what can't be written, which Python would report once more."""
    try:
        sys.stdout.flush()
    except (AttributeError, OSError):
        if sys.stdout:
            os.dup2(os.open(os.devnull, os.O_WRONLY), sys.stdout.fileno())
