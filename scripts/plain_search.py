#!/usr/bin/env python3
"""Writes a list of all arrangements of a puzzle, and a certificate, by a plain search.

Reads the puzzle's text from the file PUZZLE, and writes the other two. At each node the cell with the fewest fitting
placements is filled, the least number at a tie; a cell that nothing fits ends a branch. Nodes with DEPTH pairs (0,
unless given) are lemmas of their own, which the root cites. After MOST nodes (no bound, unless given) it gives up. With
--items a branch is on the cell or tile with the fewest fitting pairs, a cell at a tie, as `edgematch solve --depth 0`
has it, which then writes the same. Where there are more tiles than cells it is on a cell alone, since a tile may be
left over. Nobody has to trust it: `edgematch check` reads what it wrote. It ends with 0 where both are written, and
with 2 and a line on standard error where they aren't.
"""
import argparse
import os
import sys

DIGITS = "0123456789abcdefghijklmnopqrstuvwxyz"


class GaveUp(Exception):
    pass


def fault(why):
    print(f"{os.path.basename(sys.argv[0])}: {why}", file=sys.stderr)
    sys.exit(2)


def rectangle(width, height):
    """The side that each (cell, side) meets."""
    meets = {}
    for row in range(height):
        for column in range(width):
            cell = row * width + column
            if column + 1 < width:
                meets[cell, 1], meets[cell + 1, 3] = (cell + 1, 3), (cell, 1)
            if row + 1 < height:
                meets[cell, 2], meets[cell + width, 0] = (cell + width, 0), (cell, 2)
    return width * height, 4, meets


def triangles(rows):
    """The same of rows of triangles: (how many, whether the first points up, how far right the one below stands)."""
    meets, starts, cell = {}, [], 0
    for length, _, _ in rows:
        starts.append(cell)
        cell += length
    for row, (length, begins_up, below) in enumerate(rows):
        for place in range(length):
            here, up = starts[row] + place, (place % 2 == 0) == begins_up
            if place + 1 < length:
                side = 0 if up else 2
                meets[here, side], meets[here + 1, side] = (here + 1, side), (here, side)
            if up and row + 1 < len(rows):
                there = starts[row + 1] + place + below
                meets[here, 1], meets[there, 1] = (there, 1), (here, 1)
    return cell, 3, meets


def shape(rows):
    """The same of the squares that are marked `#` in these rows."""
    marked = [(row, column) for row, marks in enumerate(rows) for column, mark in enumerate(marks) if mark == "#"]
    numbers, meets = {place: cell for cell, place in enumerate(marked)}, {}
    for (row, column), cell in numbers.items():
        for side, back, there in ((1, 3, (row, column + 1)), (2, 0, (row + 1, column))):
            if there in numbers:
                meets[cell, side], meets[numbers[there], back] = (numbers[there], back), (cell, side)
    return len(marked), 4, meets


def board(words, rows):
    kind, numbers = words[0], [int(word) for word in words[1:]]
    if kind == "shape":
        return shape(rows)
    if kind == "rect":
        return rectangle(*numbers)
    size = numbers[0]
    if kind == "triangle":
        return triangles([(2 * row + 1, True, 1) for row in range(size)])
    upper = [(2 * size + 1 + 2 * row, True, 1 if row + 1 < size else 0) for row in range(size)]
    lower = [(2 * size + 1 + 2 * row, False, -1) for row in reversed(range(size))]
    return triangles(upper + lower)


def read_mates(words):
    """The mate of each colour, by the list of versions 2 and 3: one behind the list's end is its own."""
    mates = list(range(len(DIGITS)))
    mates[: len(words)] = [DIGITS.index(word) for word in words]
    return mates


def read_puzzle(text):
    lines = [line.split(" ") for line in text.splitlines()]
    rows = [lines.pop(2)[1] for _ in range(int(lines[1][3]) if lines[1][1] == "shape" else 0)]
    version = int(lines[0][1])
    mates = read_mates(lines.pop(4)[1:] if version > 1 else [])
    clues = [lines.pop(4)[1:] for _ in range(int(lines.pop(4)[1]))] if version > 2 else []
    cells, sides, meets = board(lines[1][1:], rows)
    turns = lines[2][1] == "yes"
    pairs = [(cell, side) for cell in range(cells) for side in range(sides) if (cell, side) not in meets]
    rules, border = {}, lines[3]
    if border[1] == "one":
        rules = {pair: DIGITS.index(border[2]) for pair in pairs}
    elif border[1] == "each":
        rules = {pair: DIGITS.index(word) for pair, word in zip(pairs, border[2:]) if word != "-"}
    for cell, word in clues:
        rules.update({(int(cell), side): DIGITS.index(letter) for side, letter in enumerate(word) if letter != "-"})
    shown = []
    for (word,) in (line[1:] for line in lines[5:-1]):
        colours = [DIGITS.index(letter) for letter in word]
        faces = []
        for turn in range(sides if turns else 1):
            face = tuple(colours[(side + turn) % sides] for side in range(sides))
            if face in faces:
                break
            faces.append(face)
        shown.append(faces)
    return cells, sides, meets, rules, mates, shown


def list_text(arrangements):
    """The text of a list of these arrangements, in version 1 where that has the numbers for it."""
    rows = [[int(placement.split(".")[0]) for placement in row.split(" ")] for row in arrangements]
    version = 2 if any(len(row) > 100 or max(row) > 99 for row in rows) else 1
    lines = "".join(f"{row}\n" for row in arrangements)
    return f"list {version}\narrangements {len(arrangements)}\n{lines}end\n"


class Search:
    def __init__(self, puzzle, depth, most):
        self.cells, self.sides, self.meets, self.rules, self.mates, self.shown = puzzle
        self.depth, self.most, self.nodes, self.branches = depth, most, 0, 0
        self.version = 1  # of the certificate: 2 where a number or a level passes the ranges of version 1
        self.at = [None] * self.cells
        self.free = list(range(len(self.shown)))
        self.listed, self.lemmas = [], []

    def fitting(self, cell):
        asked = []
        for side in range(self.sides):
            if (cell, side) in self.rules:
                asked.append((side, self.rules[cell, side]))
            if (cell, side) in self.meets:
                other, other_side = self.meets[cell, side]
                if self.at[other] is not None:
                    tile, turn = self.at[other]
                    asked.append((side, self.mates[self.shown[tile][turn][other_side]]))
        return [
            (tile, turn)
            for tile in self.free
            for turn, face in enumerate(self.shown[tile])
            if all(face[side] == colour for side, colour in asked)
        ]

    def item(self):
        """The words of a branch and of a dead end there, and the pairs that fit: of the cell with the fewest."""
        best = None
        for cell in range(self.cells):
            if self.at[cell] is None:
                fits = [(cell, placement) for placement in self.fitting(cell)]
                if best is None or len(fits) < len(best[2]):
                    best = f"c {cell}", f"d {cell}", fits
                if not fits:
                    break
        return best

    def node(self, out, placed):
        self.nodes += 1
        if self.nodes > self.most:
            raise GaveUp
        best = self.item()
        if best is None:
            self.listed.append(list(self.at))
            out.append(f"f {len(self.listed) - 1}")
            return
        branch, dead, fits = best
        level = placed - self.depth + 1 if 0 < self.depth <= placed else placed + 1
        if int(branch.split(" ")[1]) > 99 or len(fits) > 400 or level + bool(fits) > 101:
            self.version = 2
        if not fits:
            out.append(dead)
            return
        self.branches += 1
        out.append(f"{branch} {len(fits)}")
        for cell, placement in fits:
            self.at[cell] = placement
            self.free.remove(placement[0])
            self.child(out, placed + 1)
            self.free.append(placement[0])
            self.free.sort()
            self.at[cell] = None

    def child(self, out, placed):
        if placed != self.depth:
            self.node(out, placed)
            return
        prefix = " ".join(f"{cell}:{at[0]}.{at[1]}" for cell, at in enumerate(self.at) if at)
        if any(at and max(cell, at[0]) > 99 for cell, at in enumerate(self.at)):
            self.version = 2
        tree = []
        self.node(tree, placed)
        out.append(f"s {len(self.lemmas)}")
        self.lemmas.append(f"{prefix} tree {' '.join(tree)}")

    def run(self):
        root = []
        self.node(root, 0)
        self.lemmas.append(f"tree {' '.join(root)}")

    def list_text(self):
        return list_text([" ".join(f"{tile}.{turn}" for tile, turn in row) for row in self.listed])

    def certificate_text(self):
        lemmas = (f"lemma {number} prefix {lemma}\n" for number, lemma in enumerate(self.lemmas))
        return f"certificate {self.version}\nsymmetries 0\nlemmas {len(self.lemmas)}\n" + "".join(lemmas) + "end\n"


class ItemSearch(Search):
    """The same, where a branch may be on a tile too, if there are as many tiles as cells."""

    def item(self):
        if None not in self.at:
            return None
        pairs = [
            (cell, placement)
            for cell in range(self.cells)
            if self.at[cell] is None
            for placement in self.fitting(cell)
        ]
        cells = [cell for cell in range(self.cells) if self.at[cell] is None]
        items = [(f"c {cell}", f"d {cell}", [it for it in pairs if it[0] == cell]) for cell in cells]
        if len(self.shown) == self.cells:
            items += [(f"t {tile}", f"e {tile}", [it for it in pairs if it[1][0] == tile]) for tile in self.free]
        return min(items, key=lambda it: len(it[2]))


def puzzle_in(name):
    """The puzzle of a file; a text that is none needn't be told, since `edgematch show` tells it better."""
    try:
        with open(name, encoding="ascii") as file:
            return read_puzzle(file.read())
    except OSError as error:
        fault(f"{name}: {error.strerror}")
    except (ValueError, IndexError, TypeError):
        fault(f"{name}: that is no puzzle; edgematch show says why")


def write(name, text):
    try:
        with open(name, "w", encoding="ascii") as file:
            file.write(text)
    except OSError as error:
        fault(f"{name}: {error.strerror}")


def natural(word):
    """The number that a word is, as argparse wants its type: none below 0."""
    if not word.isdecimal():
        raise ValueError
    return int(word)


def main():
    parser = argparse.ArgumentParser(description=__doc__, formatter_class=argparse.RawDescriptionHelpFormatter)
    parser.add_argument("--items", action="store_true")
    for name in ("PUZZLE", "LIST", "CERTIFICATE"):
        parser.add_argument(name.lower(), metavar=name)
    parser.add_argument("depth", nargs="?", type=natural, default=0, metavar="DEPTH")
    parser.add_argument("most", nargs="?", type=natural, default=sys.maxsize, metavar="MOST")
    given = parser.parse_args()
    if os.path.realpath(given.puzzle) in map(os.path.realpath, (given.list, given.certificate)):
        parser.error(f"{given.puzzle}: it is the puzzle, and stays")
    search = (ItemSearch if given.items else Search)(puzzle_in(given.puzzle), given.depth, given.most)
    sys.setrecursionlimit(10_000)
    try:
        search.run()
    except GaveUp:
        fault(f"gave up after {given.most} nodes; nothing is written")
    write(given.list, search.list_text())
    write(given.certificate, search.certificate_text())
    print(f"found {len(search.listed)}, {search.nodes} nodes, {len(search.lemmas)} lemmas")


if __name__ == "__main__":
    main()
