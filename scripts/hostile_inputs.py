#!/usr/bin/env python3
"""Runs the program on inputs that are made to be dear, and prints what each costs a byte.

Each function below that is named in INPUTS makes one: words, a puzzle, a list and a certificate, together of about N
bytes (1,000,000, unless given). A line says how many bytes it had, the seconds of processor time that the program took
(user and system), the nanoseconds a byte, the most memory in MB (what is below this script's own isn't seen), and the
answer. With --doublings each input is made again, each time twice as large, which shows whether the cost grows as the
bytes do. --members bounds how many arrangements the expansions have (2,000, unless given; 1,000,000 is what there may
be, and takes long). Names pick inputs.
"""
import argparse
import itertools
import math
import os
import random
import resource
import subprocess
import tempfile

from check_cases import program_at

COLOURS = "0123456789abcdefghijklmnopqrstuvwxyz"
CHECK, EXPAND = ["check"], ["expand"]


def puzzle(board, turns, border, tiles, mates=None):
    """Of version 2 where a list of mates is given."""
    lines = [f"match {1 if mates is None else 2}", f"board {board}", f"turns {turns}", f"border {border}"]
    lines += [] if mates is None else [" ".join(["mates", *mates])]
    return "\n".join(lines + [f"tiles {len(tiles)}"] + [f"tile {tile}" for tile in tiles] + ["end", ""])


def listing(rows):
    return "\n".join(["list 1", f"arrangements {len(rows)}", *rows, "end", ""])


def certificate(symmetries, lemmas, version=1):
    """Of lines of symmetries, and of lemmas, each a prefix and a tree."""
    lines = [f"certificate {version}", f"symmetries {len(symmetries)}", *symmetries, f"lemmas {len(lemmas)}"]
    for number, (prefix, tree) in enumerate(lemmas):
        lines.append(" ".join(["lemma", str(number), "prefix", *prefix, "tree", tree]))
    return "\n".join(lines + ["end", ""])


def exchange(tiles, colours):
    """The line of an exchange of tiles on a hundred cells."""
    cells, colours, images = (" ".join(map(str, them)) for them in (range(100), COLOURS[:colours], tiles))
    return f"symmetry 0 + cells {cells} colours {colours} tiles {images}"


def placed(cells):
    """Pairs that put each tile unturned at the cell of its number."""
    return [f"{cell}:{cell}.0" for cell in cells]


def branches(cells, count, step, leaf):
    """A branch on each of these cells in turn, of so many children at the first and `step` fewer at each further."""
    if not cells:
        return leaf
    below = branches(cells[1:], count - step, step, leaf)
    return f"c {cells[0]} {count} " + " ".join([below] * count)


def row(tiles):
    """The arrangement of these tiles, none of which is turned."""
    return " ".join(f"{tile}.0" for tile in tiles)


def ruled_row(kinds):
    """A row of 100 cells that each ask for tiles of one kind, of a tile for each; there are at most 100 kinds."""
    sides = [(COLOURS[kind // 10], COLOURS[kind % 10]) for kind in kinds]
    rules = [[north, south] for north, south in sides]
    rules[0].append("-")
    rules[-1].insert(1, "-")
    border = "each " + " ".join(itertools.chain(*rules))
    return puzzle(ROW, "no", border, [f"{north}0{south}0" for north, south in sides])


def repeated(size, lemma):
    """As many lemmas as this one as the bytes have room for."""
    prefix, tree = lemma
    length = len(" ".join(prefix)) + len(tree) + 30
    return [lemma] * max(1, size // length)


# In one row of 100 cells each cell has two outer sides, so that what fits there is asked from the start.
ROW = "rect 100 1"
# The last of them asks for a colour that no tile has, so that each lemma may end there.
NO_LAST = "each " + " ".join(["-"] * 199 + ["z"] + ["-"] * 2)


def plain_tree(size):
    """What the others are measured by: a search for two colours in a row, as a solver writes it."""
    tree = branches([50, 20], 400, 4, "d 99")
    return CHECK, puzzle(ROW, "yes", NO_LAST, ["1020"] * 100), listing([]), certificate([], repeated(size, ([], tree)))


def dead_tiles(size):
    """A dead tile is four bytes, and each of 100 cells is looked at for it."""
    tree = branches([50, 20], 198, 2, "e 0")
    tiles = ["1111"] + ["0102"] * 99
    return CHECK, puzzle(ROW, "yes", "one 0", tiles), listing([]), certificate([], repeated(size, ([], tree)))


def dead_tiles_of_a_shape(size):
    """The same of 256 cells."""
    board = "\n".join(["shape 256 1", "row " + "#" * 256])
    tree = branches([50, 20], 510, 2, "e 0")
    tiles = ["1111"] + ["0102"] * 255
    return CHECK, puzzle(board, "yes", "one 0", tiles, []), listing([]), certificate([], repeated(size, ([], tree)), 2)


def tile_branches(size):
    """A branch on a tile with one child is as dear as a dead tile, and its child is placed too."""
    tree = " ".join([f"t {tile} 1" for tile in range(100)] + ["f 0"])
    return CHECK, ruled_row(range(100)), listing([row(range(100))]), certificate([], repeated(size, ([], tree)))


def citations(size, node):
    """A citation is four bytes, or six of an image, and each of 90 pairs of the lemma's prefix is looked for."""
    prefix = placed(range(90))
    tree = branches(range(90, 94), 10, 1, node)
    lemmas = [(prefix, "d 99"), *repeated(size, (prefix, tree)), ([], "d 99")]
    text = certificate([exchange(range(100), 36)], lemmas)
    return CHECK, puzzle(ROW, "no", NO_LAST, ["0000"] * 100), listing([]), text


def same_citations(size):
    return citations(size, "s 0")


def image_citations(size):
    return citations(size, "i 0 0")


def found(size):
    """A found arrangement is five bytes, and each of 100 cells is compared. The root is wrong, and comes last."""
    rows, numbers = [], itertools.count()

    def tree(cells, tiles):
        if not cells:
            rows.append(" ".join([row(range(96)), *chosen]))
            return f"f {next(numbers)}"
        children = []
        for tile, turn in itertools.product(tiles, (0, 2)):
            chosen.append(f"{tile}.{turn}")
            children.append(tree(cells[1:], [other for other in tiles if other != tile]))
            chosen.pop()
        return f"c {cells[0]} {len(children)} " + " ".join(children)

    chosen = []
    lemma = (placed(range(96)), tree([96, 97, 98, 99], [96, 97, 98, 99]))
    lemmas = repeated(size - 500 * len(rows), lemma) + [([], "d 0")]
    return CHECK, puzzle(ROW, "yes", "free", ["1020"] * 100), listing(rows), certificate([], lemmas)


def symmetries(size):
    """A symmetry of 640 bytes is compared turn by turn and side by side for each of 100 tiles."""
    lines = [exchange(random.sample(range(100), 100), 2) for _ in range(min(1024, size // 640))]
    tiles = ["0001"] * 100
    return CHECK, puzzle("rect 10 10", "yes", "free", tiles), listing([]), certificate(lines, [([], "d 0")])


def mated_symmetries(size):
    """The same with 36 colours, each of which has another as its mate; the mate of each is compared too."""
    words, _, listed, text = symmetries(size)
    lines = text.replace(" colours 0 1 tiles", f" colours {' '.join(COLOURS)} tiles")
    return words, puzzle("rect 10 10", "yes", "free", ["0001"] * 100, reversed(COLOURS)), listed, lines


def long_mates(size):
    """A line of mates far past the most that there may be."""
    return CHECK, puzzle("rect 1 1", "no", "free", ["0000"], "0" * (size // 2)), "", ""


def short_lemmas(size):
    """Each lemma of 30 bytes is a job, for which a worker takes memory."""
    text = certificate([], repeated(size, ([], "d 99")))
    return [*CHECK, "--workers", "4"], puzzle(ROW, "no", NO_LAST, ["0000"] * 100), listing([]), text


def forked(size):
    """With six forks a lemma of more than 10,000 nodes starts 63 threads, at each branch of two children one."""
    ruled = COLOURS[:29]
    border = "each 0 0 - " + " ".join(f"{colour} {colour}" for colour in ruled[1:]) + " z - -"
    tiles = [f"{colour}x{colour}y" for colour in ruled] + ["xxxx"]
    tree = branches(range(0, 26, 2), 2, 0, "d 29")
    text = certificate([], repeated(size, ([], tree)))
    return [*CHECK, "--forks", "6"], puzzle("rect 30 1", "yes", border, tiles), listing([]), text


def falling_list(size, cells=15):
    """Arrangements that agree at first and fall, so that each comparison while they are sorted goes to the end."""
    orders = itertools.islice(itertools.permutations(range(cells - 1, cells - 9, -1)), size // (5 * cells))
    rows = [row([*range(cells - 8), *order]) for order in orders]
    text = certificate([], [([], "d 0")])
    return CHECK, puzzle(f"rect {cells} 1", "no", "free", ["0000"] * cells), listing(rows), text


def long_falling_list(size):
    return falling_list(size, 100)


def late_fault(size):
    """The last line is wrong."""
    words, board, listed, text = plain_tree(size)
    return words, board, listed, text[:-1] + " "


def long_number(size):
    """A number of a million digits."""
    return CHECK, puzzle("rect 1 1", "no", "free", ["0000"]).replace("1 1", "1 " + "1" * size), "", ""


def empty_words(size):
    """A line of spaces alone."""
    text = certificate([], [([], " " * size)])
    return CHECK, puzzle("rect 1 1", "no", "free", ["0000"]), listing([]), text


def group_sizes(members):
    """Sizes of groups of equal tiles whose orders are together at most so many, and nearly that."""
    sizes = []
    for size in (4, 3, 2):
        while math.factorial(size) <= members:
            members //= math.factorial(size)
            sizes.append(size)
    return sizes


def orbit(members, count):
    """A hundred tiles that fit in one way but for exchanges of equal ones, and so many of these exchanges."""
    groups, classes = [], []
    for size in group_sizes(members):
        groups.append(range(len(classes), len(classes) + size))
        classes += [len(groups) - 1] * size
    last = len(classes)
    classes += range(len(groups), len(groups) + 100 - last)
    tiles, lines, numbers = range(100), [], {}
    for group in groups:
        for pair in itertools.combinations(group, 2):
            numbers[pair] = len(lines)
            lines.append(exchanged(tiles, [pair]))
    while len(lines) < count:
        lines.append(exchanged(tiles, [random.sample(random.choice(groups), 2) for _ in range(30)]))
    forced = [f"c {cell} 1" for cell in range(100)]
    lemmas = [(placed(range(last)), " ".join(forced[last:] + ["f 0"]))]
    for cell in reversed(range(last)):
        others = [tile for tile in range(cell + 1, last) if classes[tile] == classes[cell]]
        cited = [f"i {len(lemmas) - 1} {numbers[cell, tile]}" for tile in others]
        lemmas.append((placed(range(cell)), " ".join([f"c {cell} {len(others) + 1} s {len(lemmas) - 1}", *cited])))
    text = certificate([exchange(line, 10) for line in lines], lemmas)
    return EXPAND, ruled_row(classes), listing([row(tiles)]), text


def exchanged(tiles, pairs):
    images = list(tiles)
    for one, other in pairs:
        images[one], images[other] = images[other], images[one]
    return images


def expansion(size):
    """Each member's image under each of 1,024 symmetries is made and looked up, and nearly all are known."""
    return orbit(OPTIONS.members, min(1024, size // 640))


INPUTS = [plain_tree, dead_tiles, dead_tiles_of_a_shape, tile_branches, same_citations, image_citations, found,
          symmetries, mated_symmetries, short_lemmas, forked, falling_list, long_falling_list, late_fault, long_number,
          long_mates, empty_words, expansion]


def run(program, words, texts):
    """The answer, and the seconds and the memory that it took."""
    with tempfile.TemporaryDirectory() as folder:
        files = [os.path.join(folder, name) for name in ("puzzle", "list", "certificate")]
        for name, text in zip(files, texts):
            with open(name, "w", encoding="ascii") as file:
                file.write(text)
        with open(os.path.join(folder, "answer"), "w+b") as output:
            start = resource.getrusage(resource.RUSAGE_CHILDREN)
            subprocess.run([program, words[0], *files, *words[1:]], stdout=output, stderr=output, check=False)
            end = resource.getrusage(resource.RUSAGE_CHILDREN)
            output.seek(0)
            answer = output.read(100).decode("ascii").splitlines()
    seconds = end.ru_utime + end.ru_stime - start.ru_utime - start.ru_stime
    return seconds, end.ru_maxrss / 1024, " ".join(answer[:2])


def report(program, make, size):
    words, *texts = make(size)
    count = sum(map(len, texts))
    seconds, memory, answer = run(program, words, texts)
    print(f"{make.__name__:18} {count:>10,} bytes {seconds:>8.2f} s {1e9 * seconds / count:>9.1f} ns/byte "
          f"{memory:>6.0f} MB  {answer[:50]}", flush=True)


def options():
    parser = argparse.ArgumentParser(description=__doc__, formatter_class=argparse.RawDescriptionHelpFormatter)
    parser.add_argument("program", type=program_at, metavar="PROGRAM")
    parser.add_argument("names", nargs="*", metavar="NAME")
    parser.add_argument("--bytes", type=int, default=1_000_000, metavar="N")
    parser.add_argument("--doublings", type=int, default=0, metavar="N")
    parser.add_argument("--members", type=int, default=2_000, metavar="N")
    given = parser.parse_intermixed_args()
    strange = sorted({*given.names} - {make.__name__ for make in INPUTS})
    if strange:
        parser.error(f"there is no input {strange[0]}")
    return given


OPTIONS = options()
random.seed(1)
for make in INPUTS:
    if not OPTIONS.names or make.__name__ in OPTIONS.names:
        for doubling in range(OPTIONS.doublings + 1):
            report(OPTIONS.program, make, OPTIONS.bytes << doubling)
