#!/usr/bin/env python3
"""Holds the pictures of `docs/pictures` to what the program draws of the puzzles of `examples/gallery`, and of the
puzzle that docs/MAKING.md makes.

Each puzzle has a picture of the first arrangement of its list, or of itself where there is none. Some have a sheet of
their whole list too, or a picture of the empty board. A list is made by `solve` with the options of docs/GALLERY.md, but with one worker, since several list
in another order. What takes seconds to solve has that first arrangement stored beside its picture, as `NAME.list`. With
`--write` the pictures are written. It ends with 0 where all stand as they are drawn, and with 1 where one doesn't.
"""
import argparse
import os
import re
import subprocess
import sys
import tempfile

import gallery
from check_cases import program_at
from gallery import PUZZLES, TOP

PICTURES, MAKING = os.path.join(TOP, "docs/pictures"), os.path.join(TOP, "docs/MAKING.md")
# Puzzles whose tiles are numbered, those that have a sheet too, and those whose empty board is drawn, with its clues.
NUMBERED, ON_SHEETS = ("nine_cards",), ("nine_cards", "sixteen_cards", "squares_of_two_colours")
ON_EMPTY_BOARDS = ("bordered_6_by_6_clued",)
# The most arrangements of a sheet.
MOST = "100"


def said(*words):
    """What a run prints; what it says on standard error is seen."""
    return subprocess.run(words, stdout=subprocess.PIPE, check=True).stdout


def list_of(program, folder, name, options):
    """The file of a puzzle's list, which is made in the folder where none is stored."""
    stored = os.path.join(PICTURES, f"{name}.list")
    if os.path.exists(stored):
        return stored
    made = [os.path.join(folder, f"{name}.{document}") for document in ("list", "certificate")]
    said(program, "solve", os.path.join(PUZZLES, name), *made, *re.sub(r"--workers \d+", "", options).split())
    return made[0]


def has_none(path):
    """Whether nothing is listed."""
    with open(path, encoding="ascii") as file:
        return file.read().split("\n")[1] == "arrangements 0"


def drawn(program, folder, name, options):
    """The pictures of a puzzle, each with its name."""
    puzzle, listed = os.path.join(PUZZLES, name), list_of(program, folder, name, options)
    words = [] if has_none(listed) else [listed, *(["--numbers"] if name in NUMBERED else [])]
    yield name, said(program, "draw", puzzle, *words)
    if name in ON_SHEETS:
        yield f"{name}_sheet", said(program, "draw", puzzle, listed, "--first", MOST)
    if name in ON_EMPTY_BOARDS:
        yield f"{name}_puzzle", said(program, "draw", puzzle)


def made(program, folder):
    """The pictures of the puzzle that docs/MAKING.md makes by its first command, each with its name: of its board and
    its tiles, and of the arrangement that is found."""
    with open(MAKING, encoding="utf-8") as page:
        words = re.search(r"^edgematch (generate .*) > puzzle$", page.read(), re.MULTILINE)[1].split()
    puzzle, found = (os.path.join(folder, name) for name in ("making", "making.list"))
    for path, run in ((puzzle, words), (found, ["find", puzzle])):
        with open(path, "wb") as file:
            file.write(said(program, *run))
    yield "making_tiles", said(program, "draw", puzzle)
    yield "making_solution", said(program, "draw", puzzle, found)


def stored_pictures():
    """The pictures that stand there, by their names."""
    stored = {}
    for name in os.listdir(PICTURES):
        if name.endswith(".svg"):
            with open(os.path.join(PICTURES, name), "rb") as file:
                stored[name.removesuffix(".svg")] = file.read()
    return stored


def write(pictures):
    for name, text in pictures.items():
        with open(os.path.join(PICTURES, f"{name}.svg"), "wb") as file:
            file.write(text)


def main():
    parser = argparse.ArgumentParser(description=__doc__, formatter_class=argparse.RawDescriptionHelpFormatter)
    parser.add_argument("program", type=program_at, metavar="PROGRAM")
    parser.add_argument("--write", action="store_true")
    given = parser.parse_args()
    with tempfile.TemporaryDirectory() as folder:
        pictures = dict(it for name, words, *_ in gallery.page_rows() for it in drawn(given.program, folder, name, words))
        pictures.update(made(given.program, folder))
    if given.write:
        write(pictures)
    stored = stored_pictures()
    names = sorted({*pictures, *stored})
    wrong = [name for name in names if pictures.get(name) != stored.get(name)]
    for name in wrong:
        print(f"docs/pictures/{name}.svg: {'not as it is drawn' if name in pictures else 'nothing draws it'}")
    print(f"{len(names) - len(wrong)} passed, {len(wrong)} failed")
    return 1 if wrong else 0


if __name__ == "__main__":
    sys.exit(main())
