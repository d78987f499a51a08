"""The Rattle kit and the crates of the repository, for the tools that prove and build.

A kit keeps what a full check proved beside itself, or it keeps nothing. Where it keeps nothing, libraries are built
here by the kit's own module `rtlib`, one crate in a lane, into the crates' folders `out/`: a library with the kit's
stamp, which `rt check` and `rt lib` use too, and the work that the next build of that crate begins with.
"""

import functools
import hashlib
import importlib
import os
import shutil
import signal
import subprocess
import sys
import threading
from concurrent.futures import FIRST_COMPLETED, ThreadPoolExecutor, wait

TOP = os.path.dirname(os.path.dirname(os.path.abspath(__file__)))
# The most bytes that the folders out/ take together: above it, kept work is removed, libraries stay.
MOST_KEPT = 5_000_000_000
PARTS = ("src", "specs", "proofs")


def crate_lines():
    """Returns the lines of crates.txt by the crate's name, each with the names of what the crate uses."""
    lines = {}
    with open(os.path.join(TOP, "crates.txt"), encoding="utf-8") as file:
        for line in file:
            words = line.partition("#")[0].replace(":", " ").split()
            if words:
                lines[words[0]] = line.strip(), words[1:]
    return lines


def crates_below(names):
    """Returns the crates that `names` use, and themselves, the lowest first."""
    lines, found = crate_lines(), []

    def visit(name):
        if name in lines and name not in found:
            for other in lines[name][1]:
                visit(other)
            found.append(name)

    for name in names:
        visit(name)
    return found


def crates_above(names):
    """Returns `names` and all crates that use one of them, in the order of crates.txt."""
    return [name for name in crate_lines() if set(crates_below([name])) & set(names)]


def folder_of(name, *more):
    return os.path.join(TOP, "crates", name, *more)


@functools.lru_cache(maxsize=None)
def keeps():
    """Returns whether the kit keeps what `rt ci` proved, and so knows `rt ci NAME..`."""
    try:
        said = subprocess.run(["rt", "--help"], stdout=subprocess.PIPE, stderr=subprocess.STDOUT, text=True, check=False, stdin=subprocess.DEVNULL).stdout
    except OSError:
        return False
    return os.environ.get("CAESAR_KEEPS", "yes") != "no" and "rt ci NAME" in said and "kept beside the kit" in said


@functools.lru_cache(maxsize=None)
def module():
    """Returns the kit's module `rtlib`, or None where the kit has none that builds a crate here."""
    found = shutil.which("rt")
    if not found:
        return None
    sys.path.insert(0, os.path.dirname(os.path.realpath(found)))
    try:
        rtlib = importlib.import_module("rtlib")
    except ImportError:
        return None
    finally:
        del sys.path[0]
    if not hasattr(rtlib, "Crate") or not all(hasattr(rtlib.Crate, it) for it in ("build_rlib", "is_built", "stamp", "below")):
        return None
    rtlib.Crate.stamp = stamped_once(rtlib.Crate.stamp)
    return rtlib


STAMPS = threading.local()


def stamped_once(stamp):
    """Returns `stamp` such that one call reads the files of each crate once, and not once for each way down to it."""

    def call(crate):
        seen = getattr(STAMPS, "seen", None)
        if seen is None:
            STAMPS.seen = {}
            try:
                return call(crate)
            finally:
                STAMPS.seen = None
        if crate.folder not in seen:
            seen[crate.folder] = stamp(crate)
        return seen[crate.folder]

    return call


@functools.lru_cache(maxsize=None)
def has_statements():
    """Returns whether the kit builds libraries that hold statements alone, which have a quarter of the bytes of those with proofs."""
    rtlib = module()
    return all(hasattr(rtlib, name) for name in ("help_of", "libraries_keep")) and "--statements" in rtlib.help_of("build")


def build(crate, jobs):
    """Proves the crate and puts its library, with the kit's stamp, into its folder; returns the status.

    A kit that builds libraries of statements keeps nothing for a second proof of the same crate, so that is from nothing.
    """
    words = ["--jobs", str(jobs)]
    if has_statements():
        module().libraries_keep = lambda: False
        words.append("--statements")
    return crate.build_rlib(words, False)


def opened(names):
    """Returns the kit's crates for `names` and those below them, by name, the lowest first."""
    rtlib, known = module(), {}
    for name in names:
        folder = folder_of(name)
        if folder not in known:
            known[folder] = rtlib.Crate(folder, TOP, known)
    by_name = {it.name: it for it in known.values()}
    return {name: by_name[name] for name in crates_below(names)}


def lines_of(name, *endings):
    """Returns the count of lines of the crate's files with one of these endings."""
    total = 0
    for part in PARTS:
        for at, _, files in os.walk(folder_of(name, part)):
            for file in files:
                if file.endswith(endings):
                    with open(os.path.join(at, file), "rb") as it:
                        total += it.read().count(b"\n")
    return total


def memory_of(name):
    """Returns an upper bound in bytes of what a check of the crate takes, as the kit estimates it."""
    below = sum(lines_of(it, ".rt") for it in crates_below([name])[:-1])
    return 1_200_000_000 + 1_000_000 * lines_of(name, ".rt") + 200_000 * lines_of(name, ".antt") + 80_000 * below


def free_memory():
    with open("/proc/meminfo", encoding="utf-8") as file:
        return next(1024 * int(line.split()[1]) for line in file if line.startswith("MemAvailable"))


def processors():
    number = os.environ.get("RT_JOBS", "")
    return int(number) if number.isdigit() and int(number) else len(os.sched_getaffinity(0))


def in_lanes(names, call):
    """Calls `call(name, jobs)` for each name, a crate after those that it uses, the longest chain of crates first.

    As many run beside each other as there are processors and memory; processors that no crate waits for are given to
    those that run. Where a call returns False no other begins. Returns the names that were done.
    """
    uses = {name: set(crates_below([name])) & set(names) - {name} for name in names}
    behind = {name: 0 for name in names}
    for name in reversed(names):
        behind[name] += lines_of(name, ".rt") + lines_of(name, ".antt") // 4
        for other in uses[name]:
            behind[other] = max(behind[other], behind[name])
    left, running, done, failed = sorted(names, key=lambda it: -behind[it]), {}, set(), False
    lanes, memory = processors(), 0.85 * free_memory()
    # The kit's commands would set a handler of this signal, which no thread but the first may: so Ctrl-Z has no effect here.
    signal.signal(signal.SIGTSTP, signal.SIG_IGN)
    pool = ThreadPoolExecutor(lanes)
    try:
        while running or (left and not failed):
            ready = [] if failed else [it for it in left if uses[it] <= done]
            for name in ready:
                need = memory_of(name)
                idle = lanes - sum(jobs for _, jobs, _ in running.values())
                if idle > 0 and (not running or need + sum(it for _, _, it in running.values()) <= memory):
                    jobs = max(1, min(4, idle // max(1, len(ready) - ready.index(name))))
                    left.remove(name)
                    running[pool.submit(call, name, jobs)] = name, jobs, need
            for it in wait(running, return_when=FIRST_COMPLETED).done:
                name, _, _ = running.pop(it)
                if it.result():
                    done.add(name)
                else:
                    failed = True
    finally:
        # After an interruption nothing is waited for: the kit ends what still runs once this process has ended.
        pool.shutdown(wait=not running)
    return done


def sum_of_library(name):
    """Returns a sum of all files of the crate's library, or None where there is none."""
    top, found = folder_of(name, "out", "rlib", name + ".rlib"), hashlib.sha256()
    if not os.path.isdir(top):
        return None
    for at, folders, files in os.walk(top):
        folders.sort()
        for file in sorted(files):
            path = os.path.join(at, file)
            with open(path, "rb") as it:
                found.update(repr((os.path.relpath(path, top), it.read())).encode())
    return found.hexdigest()


def state_of_library(name):
    """Returns a sum of the names, sizes and times of the library's files, which costs less than the sum of what they hold."""
    top, found = folder_of(name, "out", "rlib", name + ".rlib"), hashlib.sha256()
    for at, folders, files in os.walk(top):
        folders.sort()
        for file in sorted(files):
            it = os.lstat(os.path.join(at, file))
            found.update(repr((os.path.relpath(os.path.join(at, file), top), it.st_size, it.st_mtime_ns)).encode())
    return found.hexdigest()


def note_sum(name):
    """Writes the sum and the state of the crate's library beside it, where the next build looks whether it is still the same."""
    with open(folder_of(name, "out", "rlib", "sum"), "w", encoding="utf-8") as file:
        file.write("%s %s" % (sum_of_library(name), state_of_library(name)))


def is_tampered(name):
    """Returns whether the crate's library has changed since it was built. One that the kit's own commands built has no sum yet."""
    try:
        with open(folder_of(name, "out", "rlib", "sum"), encoding="utf-8") as file:
            noted = file.read().split()
    except OSError:
        return False
    if noted[1:] == [state_of_library(name)]:
        return False
    if noted[:1] != [str(sum_of_library(name))]:
        return True
    note_sum(name)
    return False


def size_of(folder):
    """Returns the bytes of the files below the folder."""
    total = 0
    for at, _, files in os.walk(folder):
        for file in files:
            try:
                total += os.lstat(os.path.join(at, file)).st_size
            except OSError:
                pass  # removed meanwhile
    return total


def changed_at(name):
    """Returns when a source of the crate last changed."""
    times = [0.0]
    for part in PARTS:
        for at, _, files in os.walk(folder_of(name, part)):
            times += [os.lstat(os.path.join(at, file)).st_mtime for file in files]
    return max(times)


def bound_kept(names, busy=()):
    """Removes kept work until the folders out/ have at most MOST_KEPT bytes: first that of the crates that changed longest ago."""
    total = sum(size_of(folder_of(name, "out")) for name in crate_lines())
    for name in sorted(names, key=lambda it: (changed_at(it), it)):
        if total <= MOST_KEPT:
            return
        kept = folder_of(name, "out", "incremental")
        if name not in busy and os.path.isdir(kept):
            total -= size_of(kept)
            shutil.rmtree(kept, ignore_errors=True)
