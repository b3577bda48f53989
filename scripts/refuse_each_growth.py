#!/usr/bin/env python3
"""Refuses each request for memory in turn, of the tests and of the program, and looks at what comes of it.

Each test of a crate whose tests `rt ci` or `rt test` has built, and the program on each example, where it is built, is run with
its Nth request for memory refused, for N = 1, 2, .. until a run meets no refusal; past the first 2,000 requests only
some are refused, as is said then. With --rest all requests after the Nth are refused too. With names only those crates
and tests are run; `program` is the program.

A test has to pass, or to end with want of memory as its error: it hands on what its calls answer. A test of threads that
meet may also end because no other thread came: without memory for a thread its work is done on another. The program has to
write what it writes with ample memory, or nothing but `out of memory` on standard error, with status 2; a solve may say
`cannot write` there, which couldn't tell its names apart. The script ends with 0 where that is so of each run, and names
those of which it isn't. It needs a C compiler (cc, or what CC names) and the C library glibc.
"""
import argparse
import collections
import concurrent.futures
import os
import re
import signal
import subprocess
import sys
import tempfile

HERE = os.path.dirname(os.path.abspath(__file__))
TOP = os.path.dirname(HERE)
EXAMPLES = os.path.join(TOP, "examples")
EACH, FURTHER = 2000, 500
REFUSED = (2, "", "out of memory\n")
# what a solve says that can't tell two names apart, for want of memory too
UNTOLD = (2, "", "cannot write\n")
ENDED = re.compile(r"error: (\w+\()*(Memory|AllocError|AllocFailed \{ \.\. \})\)*")
ALONE = "no other thread came"
AS_EVER = "as with ample memory"

Run = collections.namedtuple("Run", "status out err made requests")


class Refuser:
    """Runs commands with one request for memory refused, each in a folder of its own."""

    def __init__(self, folder, rest, seconds):
        self.folder, self.rest, self.seconds = folder, rest, seconds
        self.library = os.path.join(folder, "refuse_growth.so")
        words = ["-O2", "-shared", "-fPIC", "-o", self.library, os.path.join(HERE, "refuse_growth.c")]
        compiler = os.environ.get("CC", "cc")
        subprocess.run([compiler, *words], check=True)

    def run(self, words, stdin="", at=0, makes=()):
        """What comes of a command whose request of this number is refused: 0 for none."""
        with tempfile.TemporaryDirectory(dir=self.folder) as room:
            counts = os.path.join(room, "requests")
            with open(counts, "wb") as file:
                file.write(bytes(8))
            told = {"LD_PRELOAD": self.library, "REFUSE_GROWTH_AT": str(at), "REFUSE_GROWTH_FILE": counts}
            told.update({"REFUSE_GROWTH_REST": "1"} if self.rest else {})
            try:
                how = {"cwd": room, "env": told, "capture_output": True, "text": True, "timeout": self.seconds}
                done = subprocess.run(words, input=stdin, check=False, **how)
                status, out, err = done.returncode, done.stdout, done.stderr
            except subprocess.TimeoutExpired:
                status, out, err = "no end", "", f"it had not ended after {self.seconds} seconds"
            with open(counts, "rb") as file:
                requests = int.from_bytes(file.read(), sys.byteorder)
            return Run(status, out, err, tuple(contents(os.path.join(room, name)) for name in makes), requests)


def contents(path):
    if not os.path.exists(path):
        return None
    with open(path, encoding="ascii") as file:
        return file.read()


class Subject:
    """What is run again and again: a test, or the program with some words."""

    def __init__(self, name, words, stdin="", makes=()):
        self.name, self.words, self.stdin, self.makes = name, words, stdin, makes

    def run(self, refuser, at=0):
        return refuser.run(self.words, self.stdin, at, self.makes)

    def outcome(self, refuser, run, ample):
        """Whether the run came to what it comes to with ample memory, or to want of memory; None for neither."""
        raise NotImplementedError


class Test(Subject):
    def outcome(self, refuser, run, ample):
        if run.status == 0 and run.out.endswith("test result: ok\n"):
            return AS_EVER
        error = run.err.partition("\n")[0] if run.status == 101 else ""
        if error == ALONE:
            return "on one thread" if run is not ample else None
        return "want of memory" if ENDED.fullmatch(error) else None


class Command(Subject):
    def outcome(self, refuser, run, ample):
        if run[:4] == ample[:4]:
            return AS_EVER
        is_refused = run[:3] == REFUSED and not any(run.made)
        return "want of memory" if is_refused else None


class Solve(Command):
    def outcome(self, refuser, run, ample):
        if run[:3] == UNTOLD and not any(run.made):
            return "names not told apart"
        return super().outcome(refuser, run, ample) or (AS_EVER if self.checks(refuser, run) else None)

    def checks(self, refuser, run):
        """Whether a list and a certificate were made that the program calls complete, and that the report is on."""
        if (run.status, run.err) != (0, "") or not all(run.made):
            return False
        count = run.made[0].splitlines()[1].split()[1]
        with open(self.words[2], encoding="ascii") as file:
            joined = file.read() + "".join(run.made)
        checked = refuser.run(self.words[:1], joined)
        return checked[:3] == (0, f"complete {count}\n", "") and run.out.startswith(f"found {count}\n")


def numbers(requests):
    """The requests that are refused: each of the first, then some, and one past the last."""
    step = max(1, (requests - EACH) // FURTHER)
    at = 1
    while True:
        yield at
        at += 1 if at < EACH else step


def said(run):
    """A run in one line."""
    is_killed = isinstance(run.status, int) and run.status < 0
    ended = f"signal {signal.Signals(-run.status).name}" if is_killed else f"status {run.status}"
    return f"{ended}, {run.out.splitlines()[:1]}, {run.err.splitlines()[:3]}"


def refuse_each(refuser, subject):
    """Runs it until no request is refused. Gives a line on it, and lines on what is wrong."""
    ample = subject.run(refuser)
    if subject.outcome(refuser, ample, ample) != AS_EVER or ample[:3] == REFUSED:
        return f"{subject.name}: wrong", [f"{subject.name} with ample memory: {said(ample)}"]
    seen, wrong = collections.Counter(), []
    for at in numbers(ample.requests):
        run = subject.run(refuser, at)
        outcome = subject.outcome(refuser, run, ample)
        if outcome is None:
            wrong.append(f"{subject.name}, request {at} refused: {said(run)}")
        if run.requests < at:
            break
        seen[outcome or "wrong"] += 1
    few = "" if ample.requests <= sum(seen.values()) else f", of which {sum(seen.values())} were refused"
    counts = ", ".join(f"{number} {outcome}" for outcome, number in sorted(seen.items()))
    return f"{subject.name}: {ample.requests} requests{few}: {counts or 'none refused'}", wrong


def tests_of(refuser, crate):
    """The tests of a crate, if they are built."""
    program = os.path.join(TOP, "crates", crate, "out", f"{crate}_tests")
    if not os.path.exists(program):
        return []
    listed = refuser.run([program, "--list"]).out.splitlines()
    names = [line.rpartition(": ")[0] for line in listed if line.endswith(": test")]
    return [Test(f"{crate}::{name}", [program, name]) for name in names]


def commands():
    """The program's commands on each example, and by themselves, if it is built."""
    program = os.path.join(TOP, "crates", "edgematch", "out", "edgematch")
    if not os.path.exists(program):
        return []
    found = []
    for words in ("tiles 3 2", "tiles 4 3", "tiles 4 5", "--version", "--help", "solve --help", "check", "tiles 5 x"):
        found.append(Command(f"program: {words}", [program, *words.split()]))
    for example in sorted(set(os.listdir(EXAMPLES)) - {"gallery"}):
        files = [os.path.join(EXAMPLES, example, it) for it in ("puzzle", "list", "certificate")]
        joined = "".join(map(contents, files))
        for words in ("", "explain", "count", "expand --orbits"):
            found.append(Command(f"program: {example}, joined {words}".rstrip(), [program, *words.split()], joined))
        found.append(Command(f"program: {example}, show -", [program, "show", "-"], contents(files[0])))
        for words in ("count", "count --workers 3", "count --most 3", "find --first 3", "find --orbits --first 3", "explain",
                      "symmetries"):
            command, *options = words.split()
            found.append(Command(f"program: {example}, {words} PUZZLE", [program, command, files[0], *options]))
        for words in ("check", "check --workers 3 --forks 2", "expand", "page"):
            command, *options = words.split()
            found.append(Command(f"program: {example}, {words}", [program, command, *files, *options]))
        for words in ("draw", "draw LIST 0 --numbers", "draw LIST 0 --first 2"):
            command, *options = words.replace("LIST", files[1]).split()
            found.append(Command(f"program: {example}, {words}", [program, command, files[0], *options]))
        for words in ("--depth 0", "--depth 1", "--depth 1 --workers 3"):
            made = ("list", "certificate")
            words_of_it = [program, "solve", files[0], *made, *words.split()]
            found.append(Solve(f"program: {example}, solve {words}", words_of_it, makes=made))
    return found


def is_named(subject, names):
    return not names or any(f"{subject.name}:".startswith(f"{it}:") for it in names)


def main():
    parser = argparse.ArgumentParser(description=__doc__, formatter_class=argparse.RawDescriptionHelpFormatter)
    parser.add_argument("--rest", action="store_true", help="refuse each further request too")
    parser.add_argument("--jobs", type=int, default=2, help="how many run at once")
    parser.add_argument("--seconds", type=int, default=120, help="how long a run may take")
    parser.add_argument("names", nargs="*", metavar="CRATE | CRATE::TEST | program")
    given = parser.parse_args()
    with tempfile.TemporaryDirectory() as folder:
        try:
            refuser = Refuser(folder, given.rest, given.seconds)
        except (OSError, subprocess.CalledProcessError) as error:
            parser.error(f"the C compiler: {error}")
        crates = sorted(os.listdir(os.path.join(TOP, "crates")))
        subjects = [it for crate in crates for it in tests_of(refuser, crate)] + commands()
        strange = [name for name in given.names if not any(is_named(it, [name]) for it in subjects)]
        if strange:
            parser.error(f"there is no {strange[0]}, or it isn't built")
        subjects = [it for it in subjects if is_named(it, given.names)]
        wrong = []
        with concurrent.futures.ThreadPoolExecutor(given.jobs) as pool:
            for line, faults in pool.map(lambda it: refuse_each(refuser, it), subjects):
                print(line, *faults[:5], sep="\n  ", flush=True)
                wrong += faults
    print(f"{len(subjects)} tests and commands, {len(wrong)} runs not as wanted")
    sys.exit(1 if wrong or not subjects else 0)


if __name__ == "__main__":
    main()
