#!/usr/bin/env python3
"""Tries `edgematch generate`: makes puzzles of all kinds, and looks at each in Python and by the other commands.

Some orders are written here, and others are drawn by chance, always the same. Of each puzzle that is made

- board, border, turns, mates, clues, colours and the number of tiles have to be as asked, and tiles different if asked,
- `explain` has to find no fault,
- there has to be an arrangement: a plain search in Python finds it where the puzzle is small, and `find` otherwise,
- if it is to be unique, `count` has to find no more arrangements than there are turns of the whole board, the plain search
  as many where the puzzle is small, and `find --orbits` just one,
- the same seed has to give the same text again, with --progress too, and another seed another one,
- the hardest of some has to have no less work, by `show`, than the easiest of them.

It also tries an output that is closed or full. It takes some 20 seconds on four processors. With --many N it draws N
orders, in place of those that it draws otherwise. It ends with 0 where all is as wanted, else with 1.
"""
import argparse
import functools
import multiprocessing
import os
import random
import re
import shlex
import subprocess
import sys
import tempfile

from check_cases import EXAMPLES, Outcome, Trial, arrangements_in, program_at
from plain_search import DIGITS, read_mates
from try_find import Puzzle

# How many orders are drawn, without --many.
DRAWN = 24
# The nodes of a plain search may be so many here, by the sides and the number of tiles.
MOST_PAIRS = 1_000_000
# The kinds and the borders of orders that are drawn, in turn: each pair of them comes in 20 orders.
KINDS = "rect", "triangle", "hexagon", "rect", "like"
BORDERS = "frame", "one", "free", "each"

# Each of these can be had in few tries, and an arrangement is found in little time. Of triangles on a large board, of about
# 20 colours, it isn't.
ORDERS = """
rect 4 4 --colours 7 --unique
rect 5 5 --colours 9 --different --unique
rect 6 6 --colours 8 --unique --different
rect 8 8 --colours 12 --unique
rect 5 5 --colours 8 --border free --turns no --unique
rect 7 7 --colours 12 --border each --unique
rect 10 10 --colours 20 --different
rect 10 10 --colours 5
rect 20 1 --colours 3 --border one
rect 4 4 --colours 4 --clues 3 --unique
rect 4 4 --colours 3 --border free --turns no --clues 6 --unique
rect 4 3 --colours 7 --mates --clues 2 --unique
rect 3 3 --colours 12 --border free --mates --unique
rect 3 3 --colours 30 --border free --spare 3 --unique
rect 3 3 --colours 6 --unique --hardest 10
rect 4 4 --colours 8 --unique --easiest 10
triangle 4 --colours 12 --unique
triangle 5 --colours 14 --spare 4 --different
hexagon 2 --colours 12 --unique
hexagon 2 --colours 5 --border one
--like heart --colours 10 --unique --different
--like ring_of_eight --colours 12 --unique
--like middle_in_advance --colours 9 --clues 1 --unique
--like heads_and_tails --colours 14 --unique --hardest 3
"""
HEART = """
match 2
board shape 7 6
row .##.##.
row #######
row #######
row .#####.
row ..###..
row ...#...
turns yes
border one 0
mates
tiles 27
"""
# The puzzles of `examples/` whose rules are taken too.
LIKE_EXAMPLES = (
    "bordered_rectangle", "heads_and_tails", "middle_in_advance", "ring_of_eight", "six_triangles", "small_triangle",
    "square_of_four", "twin_tiles",
)


# Orders


def sources():
    """The puzzles whose rules are taken, by their names."""
    texts = {"heart": HEART.lstrip() + 27 * "tile 1111\n" + "end\n"}
    for name in LIKE_EXAMPLES:
        with open(os.path.join(EXAMPLES, name, "puzzle"), encoding="ascii") as file:
            texts[name] = file.read()
    return texts


def parser_of_orders():
    """Reads the words of an order, but for the seed."""
    parser = argparse.ArgumentParser(add_help=False)
    parser.add_argument("board", nargs="*")
    parser.add_argument("--border", default="frame")
    parser.add_argument("--turns", default="yes")
    parser.add_argument("--like")
    for number in ("colours", "spare", "clues", "hardest", "easiest"):
        parser.add_argument(f"--{number}", type=int, default=0)
    for flag in ("mates", "different", "unique"):
        parser.add_argument(f"--{flag}", action="store_true")
    return parser


def drawn_board(draw, kind):
    """The words of a board of this kind, or of rules that are taken from a puzzle."""
    if kind == "like":
        return ["--like", draw.choice(("heart", *LIKE_EXAMPLES))]
    if kind == "rect":
        width, height = draw.randint(2, 4), draw.randint(2, 4)
        return [kind, *map(str, (width, height) if draw.random() < 0.8 else (width + 2, 1))]
    return [kind, str(draw.randint(2, 3) if kind == "triangle" else draw.choice((1, 1, 2)))]


def drawn_rules(draw, kind, border):
    """The words of rules on a plain board."""
    words = ["--border", border]
    if kind == "rect" and draw.random() < 0.3:
        words += ["--turns", "no"]
    if draw.random() < 0.3:
        words.append("--mates")
    return words


def drawn_colours(draw, words):
    """A number of colours with which there is such a puzzle; odd where 0 alone has no mate."""
    if "--unique" in words:
        colours = draw.randint(20, 30) if "--spare" in words or "free" in words else draw.randint(12, 20)
    else:
        colours = draw.randint(10, 20) if "--different" in words else draw.randint(6, 10)
    if "--mates" not in words:
        return colours
    return colours // 2 * 2 + ("frame" in words or "one" in words)


def drawn_order(number):
    """The words of an order that is made by chance."""
    draw = random.Random(number)
    kind, border = KINDS[number % len(KINDS)], BORDERS[number % len(BORDERS)]
    words = drawn_board(draw, kind)
    words += [] if kind == "like" else drawn_rules(draw, kind, border)
    for option in ("--spare", "--clues"):
        if draw.random() < 0.3:
            words += [option, str(draw.randint(1, 2))]
    words += [flag for flag in ("--different", "--unique") if draw.random() < 0.6]
    if "--unique" in words and draw.random() < 0.2:
        words += [draw.choice(("--hardest", "--easiest")), "4"]
    return [*words, "--colours", str(drawn_colours(draw, words))]


def orders(many):
    """The words of all orders."""
    written = [shlex.split(line) for line in ORDERS.strip().splitlines()]
    return written + [drawn_order(number) for number in range(many)]


# What is made


class Text:
    """What stands in the lines of a puzzle's text."""

    def __init__(self, text):
        lines = [line.split(" ") for line in text.splitlines()]
        first = {words[0]: words[1:] for words in reversed(lines)}
        self.version = first["match"][0]
        self.board, self.border, self.mates = first["board"], first["border"], first.get("mates", [])
        self.rows = [words[1] for words in lines if words[0] == "row"]
        self.turns = first["turns"] == ["yes"]
        self.clues = [words[1:] for words in lines if words[0] == "clue"]
        self.tiles = [words[1] for words in lines if words[0] == "tile"]

    def rules(self):
        """The rules that another puzzle may take over."""
        return self.board, self.rows, self.turns, self.border, read_mates(self.mates)


class Asked:
    """What an order asks for."""

    def __init__(self, words):
        self.words = words
        self.options = parser_of_orders().parse_args(words)
        self.source = Text(sources()[self.options.like]) if self.options.like else None

    def turns(self):
        return self.source.turns if self.source else self.options.turns == "yes"

    def version(self):
        """The version of the text."""
        if self.options.spare or self.options.clues:
            return "3"
        return "2" if self.options.mates or (self.source and (self.source.rows or self.source.mates)) else "1"

    def frame(self, puzzle):
        """The colour that all outer sides show, and no other, or `None`. A puzzle has such a frame if its tiles don't show
        the colour of its border more often."""
        if not self.source:
            return "0" if self.options.border == "frame" else None
        kind, *colours = self.source.border
        is_frame = kind == "one" and "".join(self.source.tiles).count(colours[0]) <= outer_sides(puzzle)
        return colours[0] if is_frame else None

    def mates(self):
        """The words of mates on a plain board: pairs, after a colour 0 that is its own where all outer sides show that."""
        if not self.options.mates:
            return []
        alone = int(self.options.border in ("frame", "one"))
        pairs = [[mate, mate - 1] for mate in range(alone + 1, self.options.colours, 2)]
        return [DIGITS[colour] for colour in [*range(alone), *sum(pairs, [])]]


def outer_sides(puzzle):
    """How many sides meet nothing."""
    return puzzle.cells * puzzle.sides - len(puzzle.meets)


def turned(puzzle, cell, first):
    """Where each cell goes if cell 0 goes to this one, and its side 0 to this side; `None` if the board doesn't stay. The
    board is connected."""
    goes, left = {0: cell}, [0]
    while left:
        here = left.pop()
        for side in range(puzzle.sides):
            met = puzzle.meets.get((here, side))
            image = puzzle.meets.get((goes[here], (first + side) % puzzle.sides))
            if met is None and image is None:
                continue
            if met is None or image is None or image[1] != (first + met[1]) % puzzle.sides:
                return None
            if met[0] not in goes:
                goes[met[0]] = image[0]
                left.append(met[0])
            elif goes[met[0]] != image[0]:
                return None
    return goes


def whole_turns(asked, puzzle):
    """How many turns of the whole board keep what is asked of its sides, and so make arrangements of one."""
    if not asked.turns() or asked.options.clues or (not asked.source and asked.options.border == "each"):
        return 1
    number = 0
    for cell in range(puzzle.cells):
        for first in range(puzzle.sides):
            goes = turned(puzzle, cell, first)
            number += goes is not None and all(
                puzzle.rules.get((goes[at], (first + side) % puzzle.sides)) == puzzle.rules.get((at, side))
                for at in range(puzzle.cells) for side in range(puzzle.sides)
            )
    return number


# What is wanted


def wants(trial, what, wanted, got):
    """The two are equal, written as text."""
    trial.wants("generate", what, f"{wanted}\n".encode(), f"{got}\n".encode())


def wants_plain_rules(trial, asked, text, puzzle):
    """Board, turns, border and mates are as the words say."""
    border = asked.options.border
    wants(trial, "the board", asked.options.board, text.board)
    wants(trial, "the turns", asked.turns(), text.turns)
    wants(trial, "the mates", asked.mates(), text.mates)
    if border == "each":
        wants(trial, "the border", ["each", outer_sides(puzzle)], [text.border[0], len(text.border) - 1])
        wants(trial, "colours of the border", "", strange_colours(asked, text.border[1:]))
    else:
        wants(trial, "the border", ["free"] if border == "free" else ["one", "0"], text.border)


def strange_colours(asked, words):
    """The colours of these words that are none of those asked for."""
    return "".join(sorted(set("".join(words)) - set(DIGITS[: asked.options.colours])))


def wants_rules(trial, asked, text, puzzle):
    """All but tiles and clues is as asked."""
    wants(trial, "the version", asked.version(), text.version)
    if asked.source:
        wants(trial, "the rules", asked.source.rules(), text.rules())
    else:
        wants_plain_rules(trial, asked, text, puzzle)


def wants_tiles(trial, asked, text, puzzle):
    """So many tiles and clues, with colours that are asked for, and different tiles if these are."""
    frame = asked.frame(puzzle)
    if frame is not None and not asked.options.spare:
        wants(trial, "sides that show the frame", outer_sides(puzzle), "".join(text.tiles).count(frame))
    wants(trial, "how many tiles", puzzle.cells + asked.options.spare, len(text.tiles))
    wants(trial, "how many clues", asked.options.clues, len(text.clues))
    words = [*text.tiles, *(word for _, word in text.clues)]
    wants(trial, "colours of tiles and clues", "", strange_colours(asked, words))
    wants(trial, "words of another length", [], [word for word in words if len(word) != puzzle.sides])
    if asked.options.different:
        turns = [[word[turn:] + word[:turn] for turn in range(puzzle.sides)] for word in text.tiles]
        wants(trial, "tiles that are their own turns", [], [of[0] for of in turns if len(set(of)) < puzzle.sides])
        least = {min(of) if asked.turns() else of[0] for of in turns}
        wants(trial, "how many different tiles", len(text.tiles), len(least))


def find(trial, puzzle, *options):
    """The lines that are found, each of which is an arrangement."""
    got = trial.run(["find", trial.path("made"), *options])
    trial.wants_status("find", 0, got.status)
    lines = arrangements_in(got.stdout)
    wants(trial, "what is found and is no arrangement", [], [it for it in lines if not puzzle.is_arrangement(it)])
    return lines


def wants_arrangement(trial, puzzle):
    """There is an arrangement, and `explain` knows nothing to the contrary."""
    got = trial.run(["explain", trial.path("made")])
    trial.wants_outcome("explain", Outcome(0, b"puzzle: no fault\n", b""), got)
    found = puzzle.every if puzzle.every is not None else find(trial, puzzle)
    if not found:
        trial.differences.append("there is no arrangement\n")


def wants_unique(trial, asked, puzzle):
    """There is one arrangement, and no other but what comes of it by turns of the whole board."""
    most = whole_turns(asked, puzzle)
    got = trial.run(["count", trial.path("made"), "--most", str(most)])
    trial.wants_status("count", 0, got.status)
    wants(trial, "how many arrangements by count", f"arrangements {most}", got.stdout.decode().strip())
    if puzzle.every is not None:
        wants(trial, "how many arrangements by the plain search", most, len(puzzle.every))
    wants(trial, "how many are no images of each other", 1, len(find(trial, puzzle, "--orbits", "--first", "2")))


def ordered(trial, words, seed, *options):
    """A run of the order with a seed."""
    words = [trial.path("like") if before == "--like" else word for before, word in zip(["", *words], words)]
    return trial.run(["generate", *words, "--seed", str(seed), *options])


def wants_seeds(trial, words, seed, made):
    """The same text comes again, also where progress is told, and another one by another seed."""
    trial.wants("generate", "another run", made, ordered(trial, words, seed).stdout)
    told = ordered(trial, words, seed, "--progress")
    trial.wants("generate --progress", "standard output", made, told.stdout)
    counts = r"\d+ s, counts a puzzle's arrangements: \d+ of \d+ subtrees, \d+ arrangements"
    form = rf"generate: (try \d+ of 100, \S|{counts})"
    strange = [it for it in told.stderr.decode().splitlines() if not re.match(form, it)]
    wants(trial, "lines of progress", [], strange)
    if ordered(trial, words, seed + 1).stdout == made:
        trial.differences.append("another seed gives the same text\n")


def work_of(trial, text):
    """The work that `show` guesses."""
    trial.put("chosen", text)
    got = trial.run(["show", trial.path("chosen")])
    return float(re.search(rb"^work (\S+)$", got.stdout, re.M)[1])


def wants_choice(trial, words, seed):
    """The hardest of some has no less work than the easiest of them."""
    turned_round = {"--hardest": "--easiest", "--easiest": "--hardest"}
    both = [words, [turned_round.get(it, it) for it in words]]
    if "--easiest" in words:
        both.reverse()
    hardest, easiest = (work_of(trial, ordered(trial, it, seed).stdout) for it in both)
    if hardest < easiest:
        trial.differences.append(f"the hardest has work {hardest}, and the easiest {easiest}\n")


def try_order(trial, words, seed):
    """All runs of an order."""
    asked = Asked(words)
    got = ordered(trial, words, seed)
    trial.wants_outcome("generate", Outcome(0, got.stdout, b""), got)
    if got.status:
        return
    trial.put("made", got.stdout)
    text = Text(got.stdout.decode("ascii"))
    puzzle = Puzzle(got.stdout.decode("ascii"), MOST_PAIRS // len("".join(text.tiles)) // len(text.tiles))
    wants_rules(trial, asked, text, puzzle)
    wants_tiles(trial, asked, text, puzzle)
    wants_arrangement(trial, puzzle)
    if asked.options.unique:
        wants_unique(trial, asked, puzzle)
    wants_seeds(trial, words, seed, got.stdout)
    if asked.options.hardest or asked.options.easiest:
        wants_choice(trial, words, seed)


def try_streams(trial, words, seed):
    """What can't be written is a fault, and a closed standard error keeps nothing back."""
    made = ordered(trial, words, seed).stdout
    line = shlex.join([trial.program, "generate", *words, "--seed", str(seed), "--progress"])
    for streams, wanted in (
        ("2>&-", Outcome(0, made, b"")),
        (">&-", Outcome(2, b"", b"cannot write\n")),
        (">/dev/full", Outcome(2, b"", b"cannot write\n")),
        (">/dev/full 2>&-", Outcome(2, b"", b"")),
    ):
        done = subprocess.run(["sh", "-c", f"{line} {streams}"], capture_output=True, check=False)
        told = b"".join(it for it in done.stderr.splitlines(True) if not it.startswith(b"generate: "))
        trial.wants_outcome(f"generate {streams}", wanted, Outcome(done.returncode, done.stdout, told))


def tried(program, work):
    """The words of an order, with how its runs differ from what is wanted."""
    way, words, seed = work
    with tempfile.TemporaryDirectory() as folder:
        like = sources().get(Asked(words).options.like, "")
        trial = Trial(program, folder, {"like": like.encode("ascii")})
        try:
            way(trial, words, seed)
        except subprocess.TimeoutExpired as slow:
            trial.differences.append(f"{slow}\n")
        except (ValueError, LookupError, TypeError) as error:
            trial.differences.append(f"what is printed isn't of the form: {error}\n")
        return shlex.join([*words, "--seed", str(seed)]), trial.differences


def natural(word):
    """The number that a word is, as argparse wants its type: none below 0."""
    if not word.isdecimal():
        raise ValueError
    return int(word)


def main():
    parser = argparse.ArgumentParser(description=__doc__, formatter_class=argparse.RawDescriptionHelpFormatter)
    parser.add_argument("program", type=program_at, metavar="PROGRAM")
    parser.add_argument("--many", type=natural, default=DRAWN, metavar="N")
    given = parser.parse_args()
    works = [(try_order, words, seed) for seed, words in enumerate(orders(given.many))]
    works.append((try_streams, ["rect", "4", "4", "--colours", "7", "--unique"], 1))
    failed = 0
    with multiprocessing.Pool() as pool:
        for order, differences in pool.imap_unordered(functools.partial(tried, given.program), works):
            if differences:
                failed += 1
                print(f"== generate {order}\n{''.join(differences)}", end="", flush=True)
    print(f"{len(works) - failed} passed, {failed} failed")
    sys.exit(failed > 0)


if __name__ == "__main__":
    main()
