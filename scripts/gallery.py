#!/usr/bin/env python3
"""Solves, checks and counts the puzzles of docs/GALLERY.md, and shows what isn't as the page has it.

PUZZLE is the name of a file of `examples/gallery`; without any, all are tried, which takes minutes. Prints the row of
each as the page has it, with the bytes and the seconds of this run. It ends with 0 where the arrangements, the pictures
and the orbits are those of the page, and expand lists as many; with 1 where they aren't; and with 2 where a word is
wrong. With --texts it writes lists and certificates into the folder FOLDER, and checks them: of the puzzles that the
page solves with one worker, since several list in another order each time.
"""
import argparse
import os
import re
import subprocess
import sys
import tempfile
import time

from check_cases import arrangements_in, pictures_of, program_at

TOP = os.path.join(os.path.dirname(os.path.abspath(__file__)), "..")
PUZZLES = os.path.join(TOP, "examples/gallery")
ROW = re.compile(r"^\| \[(\w+)\]\(\S+\) \| `(.*?)` \| ([\d,]+) \| ([\d,]+) \| ([\d,]+) \|", re.MULTILINE)
MOST_EXPANDED = 1_000_000


def page_rows():
    """The rows of the page: a puzzle, the options of its solve, its arrangements, its pictures and its orbits."""
    with open(os.path.join(TOP, "docs/GALLERY.md"), encoding="utf-8") as file:
        return ROW.findall(file.read())


def timed(*words):
    """What a run prints, and the seconds that it took."""
    begun = time.monotonic()
    try:
        run = subprocess.run(words, capture_output=True, text=True, check=True)
    except (OSError, subprocess.CalledProcessError) as error:
        print(f"gallery: {' '.join(words)}: {getattr(error, 'stderr', None) or error}".strip(), file=sys.stderr)
        sys.exit(2)
    return run.stdout, time.monotonic() - begun


def numbers_of(text):
    """The numbers of lines of a word and a number."""
    return {word: f"{int(number):,}" for word, number in re.findall(r"^(\w+) (\d+)$", text, re.MULTILINE)}


def listed_counts(program, files, counted):
    """The numbers of a count, worked out from what expand lists; those of a count where that is too much."""
    firsts = arrangements_in(timed(program, "expand", "--orbits", *files)[0].encode("latin-1"))
    if int(counted["arrangements"].replace(",", "")) > MOST_EXPANDED:
        return {**counted, "orbits": f"{len(firsts):,}"}
    every = arrangements_in(timed(program, "expand", *files)[0].encode("latin-1"))
    with open(files[0], "rb") as file:
        pictures = pictures_of(file.read(), every)
    return {**counted, "arrangements": f"{len(every):,}", "pictures": f"{pictures:,}", "orbits": f"{len(firsts):,}"}


def row_of(program, name, options):
    """The row of a puzzle, and its arrangements, pictures and orbits."""
    with tempfile.TemporaryDirectory() as folder:
        files = [os.path.join(PUZZLES, name), os.path.join(folder, "list"), os.path.join(folder, "certificate")]
        report, solving = timed(program, "solve", *files, *options.split())
        workers = re.findall(r"--workers \d+", options)
        answer, checking = timed(program, "check", *files, *" ".join(workers).split())
        counted, counting = timed(program, "count", *files)
        all_of = numbers_of(counted)
        listed_too = listed_counts(program, files, all_of)
        listed, certified = (f"{os.path.getsize(file):,}" for file in files[1:])
    if not answer.startswith("complete "):
        return f"{name}: {answer}", None
    if listed_too != all_of:
        return f"{name}: count says {all_of}, and expand lists {listed_too}", None
    found = numbers_of(report)["found"]
    counts = all_of["arrangements"], all_of["pictures"], all_of["orbits"]
    cells = [f"[{name}](../examples/gallery/{name})", f"`{options}`", *counts, found, listed, certified,
             *(f"{seconds:.1f}" for seconds in (solving, checking, counting))]
    return "| " + " | ".join(cells) + " |", counts


def keep_texts(program, folder):
    """Writes the lists and certificates of the puzzles that one worker solves, and says of which they are."""
    for name, options, *_ in page_rows():
        if "--workers" not in options:
            made = [os.path.join(folder, f"{name}.{document}") for document in ("list", "certificate")]
            files = [os.path.join(PUZZLES, name), *made]
            timed(program, "solve", *files, *options.split())
            print(f"{name}: {timed(program, 'check', *files)[0]}", end="")


def main():
    parser = argparse.ArgumentParser(description=__doc__, formatter_class=argparse.RawDescriptionHelpFormatter)
    parser.add_argument("program", type=program_at, metavar="PROGRAM")
    parser.add_argument("puzzles", nargs="*", metavar="PUZZLE")
    parser.add_argument("--texts", metavar="FOLDER")
    given, rows = parser.parse_intermixed_args(), page_rows()
    strange = sorted(set(given.puzzles) - {name for name, *_ in rows})
    if strange:
        parser.error(f"there is no puzzle {strange[0]}")
    if given.texts is not None:
        if given.puzzles:
            parser.error("--texts takes no puzzles")
        if not os.path.isdir(given.texts):
            parser.error(f"there is no folder {given.texts}")
        keep_texts(given.program, given.texts)
        return 0
    failed = 0
    for name, options, *counts in rows:
        if given.puzzles and name not in given.puzzles:
            continue
        row, found = row_of(given.program, name, options)
        print(row, flush=True)
        if found != tuple(counts):
            failed += 1
            print(f"gallery: {name}: the page has {' '.join(counts)}", flush=True)
    return 1 if failed else 0


if __name__ == "__main__":
    sys.exit(main())
