#!/usr/bin/env python3
"""Runs the program under limits on its memory and on its stack, from nothing to ample, and looks at what comes of it.

Each puzzle is solved first; besides those that are given, rows of 100 and of 256 cells, whose trees have 101 and 257
levels. Then a check, an expansion and a solve of each, with one worker and with several, are run with a limit on memory
(addresses) that grows in steps of so many KB (1,024, unless given), and with one on the stack (4). A run has to give
what it gives without a limit, or nothing but `out of memory` on standard error, with status 2, and a solve leaves both
files empty then. Of several workers a solve may list in another order, so of those what is asked is that the list has
as many. Limits under which `true` or the program can't be loaded aren't tried, nor stacks of less than 20 KB, under
which the system may end a run by a signal before it begins. With --looks no puzzle is solved under a limit. The script
ends with 0 where all is so of each run, and names those of which it isn't. It needs Linux.
"""
import argparse
import concurrent.futures
import os
import resource
import subprocess
import tempfile

from check_cases import program_at

REFUSED = (2, "", "out of memory\n")
COLOURS = "0123456789abcdefghijklmnopqrstuvwxyz"
CREWS = [["--workers", "1"], ["--workers", "4"]]
KINDS = {"memory": resource.RLIMIT_AS, "stack": resource.RLIMIT_STACK}
# the least limit that is tried, in KB
LEAST = {"memory": 0, "stack": 20}
# the status with which the system's loader says that it can't load a program
NOT_LOADED = 127
# a limit that any run here is well under, in KB
AMPLE = 1 << 26
# how many runs that are as they should be show that a limit is ample
ENOUGH = 8


def row_of_cells(count):
    """A row of so many cells, each of which asks for one tile alone."""
    sides = [(COLOURS[cell // 36], COLOURS[cell % 36]) for cell in range(count)]
    rules = [list(both) for both in sides]
    rules[0].append("-")
    rules[-1].insert(1, "-")
    border = "border each " + " ".join(rule for cell in rules for rule in cell)
    tiles = [f"tile {north}0{south}0" for north, south in sides]
    board = ["match 2", f"board shape {count} 1", f"row {'#' * count}", "turns no", border, "mates"]
    return "\n".join([*board, f"tiles {count}", *tiles, "end", ""])


def limited(words, kind, kilobytes):
    """What comes of a command under a limit: its status (below 0 where a signal ended it), output and errors."""
    def limit():
        resource.setrlimit(kind, (1024 * kilobytes, resource.RLIM_INFINITY))

    try:
        done = subprocess.run(words, capture_output=True, text=True, check=False, preexec_fn=limit)
    except (OSError, subprocess.SubprocessError) as error:
        return None, "", str(error)
    return done.returncode, done.stdout, done.stderr


class Puzzle:
    """A puzzle with what a solve made of it."""

    def __init__(self, program, text, folder):
        self.program, self.folder = program, folder
        os.mkdir(folder)
        self.files = [os.path.join(folder, name) for name in ("puzzle", "list", "certificate")]
        with open(self.files[0], "w", encoding="ascii") as file:
            file.write(text)
        subprocess.run([program, "solve", *self.files], check=True, capture_output=True)
        self.bytes = sum(os.path.getsize(it) for it in self.files)

    def looks(self):
        """The commands that only read."""
        yield ["expand", *self.files]
        yield ["page", *self.files]
        yield ["find", self.files[0], "--first", "2"]
        for crew in CREWS:
            yield ["check", *self.files, *crew]
        yield ["check", *self.files, "--workers", "2", "--forks", "2"]

    def is_well_looked(self, words, kind, kilobytes):
        """Whether a command that only reads is as it should be, and whether it was refused nothing."""
        ended = limited([self.program, *words], kind, kilobytes)
        ample = limited([self.program, *words], kind, AMPLE)
        return ended in (ample, REFUSED), ended == ample, ended

    def is_well_solved(self, crew, kind, kilobytes):
        """The same of a solve."""
        with tempfile.TemporaryDirectory(dir=self.folder) as room:
            made = [os.path.join(room, name) for name in ("list", "certificate")]
            ended = limited([self.program, "solve", self.files[0], *made, *crew], kind, kilobytes)
            if ended == REFUSED:
                is_well = all(os.path.isfile(it) and not os.path.getsize(it) for it in made)
                # (a solve that can't begin makes no files)
                return is_well or not any(map(os.path.isfile, made)), False, ended
            found = f"found {self.listed()}\nlemmas "
            is_well = ended[0] == 0 and ended[1].startswith(found) and ended[2] == ""
            return is_well and os.path.getsize(made[0]) == os.path.getsize(self.files[1]), is_well, ended

    def listed(self):
        with open(self.files[1], encoding="ascii") as file:
            return file.readlines()[1].split()[1]


def sweep(name, run, kind, step):
    """Runs under growing limits until these are ample. Gives what was seen, and the runs that aren't as they should be."""
    limit, first, in_a_row, wrong, count = 0, None, 0, [], 0
    while in_a_row < ENOUGH:
        limit += step
        if limit < LEAST[kind] or limited(["true"], KINDS[kind], limit)[0] != 0:
            continue
        is_well, is_ample, ended = run(limit)
        if ended[0] == NOT_LOADED:
            continue
        count += 1
        in_a_row = in_a_row + 1 if is_ample else 0
        first = first or (limit if is_ample else None)
        if not is_well:
            wrong.append(f"{name}, {limit} KB: {ended[0]}, {ended[1][:60]!r}, {ended[2][:60]!r}")
    return f"{name}: {count} runs, from {first} KB on with its answer", wrong


def text_of(path):
    """The name of a puzzle's file, with its text."""
    try:
        with open(path, encoding="ascii") as file:
            return os.path.basename(path), file.read()
    except (OSError, ValueError) as error:
        raise argparse.ArgumentTypeError(f"{path}: {error}") from error


def main():
    parse = argparse.ArgumentParser(description=__doc__, formatter_class=argparse.RawDescriptionHelpFormatter)
    parse.add_argument("program", type=program_at, metavar="PROGRAM")
    parse.add_argument("puzzles", nargs="*", type=text_of, metavar="PUZZLE")
    parse.add_argument("--memory", type=int, default=1024, metavar="KB")
    parse.add_argument("--stack", type=int, default=4, metavar="KB")
    parse.add_argument("--looks", action="store_true")
    parse.add_argument("--jobs", type=int, default=os.cpu_count(), metavar="N")
    given = parse.parse_args()
    program, steps = given.program, {"memory": given.memory, "stack": given.stack}
    wrong = []
    with tempfile.TemporaryDirectory() as folder, concurrent.futures.ThreadPoolExecutor(given.jobs) as pool:
        texts = {f"row of {count} cells": row_of_cells(count) for count in (100, 256)}
        texts |= dict(given.puzzles)
        begun = []
        for number, (name, text) in enumerate(texts.items()):
            puzzle = Puzzle(program, text, os.path.join(folder, str(number)))
            print(f"{name}: {puzzle.bytes} bytes", flush=True)
            for kind, limit in KINDS.items():
                for words in puzzle.looks():
                    run = lambda at, words=words, puzzle=puzzle, limit=limit: puzzle.is_well_looked(words, limit, at)
                    shown = [words[0], *words[4:]]
                    begun.append(pool.submit(sweep, f"{name}, {kind}, {' '.join(shown)}", run, kind, steps[kind]))
                for crew in [] if given.looks else CREWS:
                    run = lambda at, crew=crew, puzzle=puzzle, limit=limit: puzzle.is_well_solved(crew, limit, at)
                    begun.append(pool.submit(sweep, f"{name}, {kind}, solve {' '.join(crew)}", run, kind, steps[kind]))
        for it in begun:
            said, faults = it.result()
            print(said, flush=True)
            wrong += faults
    for it in wrong:
        print("not as it should be:", it)
    raise SystemExit(1 if wrong else 0)


if __name__ == "__main__":
    main()
