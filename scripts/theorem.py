#!/usr/bin/env python3
"""Holds docs/THEOREM.md to the definitions that it quotes, and counts them.

The page quotes all that its statements rest on, which is found by following what each definition names: each once, as
its file has it, behind those that it names. A block begins with its file, as `-- match_board/specs/Board.antt`. With
--write quotations and numbers are made anew; to add a definition to a block, write its first line there. The script
ends with 0 where the page is right, and with 1 where it isn't, and says where.
"""
import argparse
import functools
import glob
import os
import re
import sys
import textwrap

TOP = os.path.join(os.path.dirname(os.path.abspath(__file__)), "..")
PAGE, README = "docs/THEOREM.md", "README.md"

COMPLETE = "puzzle_symmetry/specs/Complete.antt", "IsCompleteList"
# The law by which each listed arrangement has every tile.
PLACED = "match_puzzle/specs/Arrangement.antt", "AllTilesArePlaced"
LINE = "match_report/specs/AnswerText.antt", "answer_line"
HAS = "match_puzzle/specs/Arrangement.antt", "HasArrangements"
COUNT = [
    HAS,
    ("symmetry_orbits/specs/Pictures.antt", "HasPictures"),
    ("symmetry_orbits/specs/Orbits.antt", "IsCount"),
    ("match_report/specs/CompleteLists.antt", "count_text"),
]
SEARCH = [HAS, ("match_puzzle/specs/Numbers.antt", "AreMoreThan")]
SPELLED = "command_runs/specs/Checking.antt", "SpellCompleteList"
# The rows of the page's table, with the definitions that say it. The README has the numbers of the first.
ROWS = {
    "a list is complete": [COMPLETE],
    "its arrangements have every tile": [PLACED],
    "the line `complete N` says so": [COMPLETE, LINE],
    "what `count` prints": COUNT,
    "a count by a search": SEARCH,
    "the line says so of the bytes of three files": [SPELLED, LINE],
}
QUOTED = [COMPLETE, PLACED, LINE, *COUNT, *SEARCH]
# What binds these to the program is quoted too, but not what that rests on beside.
CARRIERS = [
    ("cert_check/specs/Answer.antt", "IsSound"),
    SPELLED,
    ("match_report/specs/CompleteLists.antt", "IsCountOf"),
]
# Of this definition only the clause of a complete list is quoted and followed: the other is the line of a refusal.
CLAUSES = {LINE: "answer_line Complete "}

ITEM = r"(?:pub(?:\(crate\))? )?(?:struct|enum|const) "
HEAD = re.compile(r" *(?:(?:abbrev|unfoldable) )?pub (?:record |data |struct |enum |const )?([^\s:<]+)")
KIND = r"(?m)^ +{} : "
COMMENT = re.compile(r" *(?:--|//)")
NAME = re.compile(r"(?<![\w.'-])([A-Za-z_][\w']*)((?:\.[A-Za-z_][\w']*)?)")
BOUND = re.compile(r"[({]([^(){}:]+) : |λ ([^.]+)\.|^ +pub (\S+) :|(\w+) ←", re.M)
USE = re.compile(r"^ *use Rattle\.([\w.]+?)(?:\.\{(.*)\}| as (\w+))$", re.M)
RUST_USE = re.compile(r"^use (\w+)::(?:\w+::)*(\{[^}]*\}|\w+);", re.M)
BLOCK = re.compile(r"^```\n(?:--|//) (\S+)\n(.*?)^```$", re.M | re.S)
SHORT = re.compile(r"\d+ definitions, \d+ lines")


@functools.cache
def text_of(path):
    with open(os.path.join(TOP, path), encoding="utf-8") as file:
        return file.read()


# ---- definitions: each is known by its file, below crates, and its name


@functools.cache
def declared(path):
    """The definitions of a file by name: the lines of each, with the comment above it."""
    text = text_of(f"crates/{path}").strip()
    if path.endswith(".rt"):
        return {name: code_lines(text.split("\n"), name) for name in re.findall(rf"^{ITEM}(\w+)", text, re.M)}
    found = {}
    for part in re.split(r"\n\s*\n", text):
        lines = [line for line in part.split("\n") if not re.match(r" *(?:use|infixl|module|mutual)\b", line)]
        if head := HEAD.match(next((line for line in lines if not COMMENT.match(line)), "")):
            found[head[1]] = lines
    return found


def code_lines(lines, name):
    """A declaration of the code, and what contracts see of it where that isn't its fields."""
    item = item_lines(lines, rf"{ITEM}{name}\b") + item_lines(lines, rf"impl\S* Model for {name}\b")
    return [line for line in item if line and not re.match(r" *(?:#\[|ghost use)", line)]


def item_lines(lines, begins):
    """The lines of an item from the comment above it to its end, or none where there is no such item."""
    first = next((place for place, line in enumerate(lines) if re.match(begins, line)), None)
    if first is None:
        return []
    above = next(place for place in range(first, -1, -1) if not lines[place - 1].startswith(("///", "#[")))
    last = first if lines[first].endswith(";") else lines.index("}", first)
    return lines[above:last + 1]


def lines_of(key):
    """The lines of a definition, or of the part of it that is quoted."""
    lines, part = declared(key[0])[key[1]], CLAUSES.get(key, "")
    return [line for line in lines if not part or HEAD.match(line) or COMMENT.match(line) or line.startswith(part)]


def code_of(key):
    """The lines of a definition without comments."""
    return [line for line in lines_of(key) if not COMMENT.match(line)]


# ---- what a definition names


def is_ours(module):
    """Whether a module is of one of the crates here, and not of the kit."""
    return os.path.isdir(os.path.join(TOP, "crates", module.split(".")[0]))


def owner(path, name):
    """The definition of a file that makes a name: the one called so, or the kinds among which it stands."""
    found = declared(path)
    return name if name in found else next(of for of in found if re.search(KIND.format(name), "\n".join(found[of])))


def definition(module, name):
    """The definition that a module of ours has by a name."""
    crate, _, *places = module.split(".")
    if places[0] != "declared":
        path = f"{crate}/specs/{'/'.join(places)}.antt"
        return path, owner(path, name)
    places = [place for place in places[1:] if place != "TheVariants"]
    name = name if places[-1] == "TheConstants" else places[-1]
    return f"{crate}/src/{'/'.join(places[:-1]) or 'lib'}.rt", name


@functools.cache
def imported(path):
    """What a file of definitions takes from elsewhere: by each name the module and the name there, or by an alias the
    module and nothing."""
    found = {}
    for module, names, alias in USE.findall(text_of(f"crates/{path}")):
        pairs = (name.split(" as ") for name in names.split(", "))
        found |= {alias: (module, None)} if alias else {pair[-1]: (module, pair[0]) for pair in pairs}
    return found


@functools.cache
def local(path):
    """The names that a file's definitions make, those of kinds too, with the definition of each."""
    kinds = re.findall(KIND.format(r"(\w+)"), text_of(f"crates/{path}"))
    return {name: (path, owner(path, name)) for name in [*declared(path), *kinds]}


@functools.cache
def known_to_code(path):
    """What a declaration of the code may name: what is declared in its file, or taken from another."""
    found = {name: (path, name) for name in declared(path)}
    for crate, names in RUST_USE.findall(text_of(f"crates/{path}")):
        crate = path.split("/")[0] if crate == "crate" else crate
        for place in glob.glob(f"{crate}/src/**/*.rt", root_dir=os.path.join(TOP, "crates"), recursive=True):
            found |= {name: (place, name) for name in re.findall(r"\w+", names) if name in declared(place)}
    return found


def parts_of(key):
    """A definition in the parts in which names are bound: its type, and each clause of it."""
    parts = []
    for line in code_of(key):
        if not parts or re.match(rf" *{re.escape(key[1])}\s", line):
            parts.append("")
        parts[-1] += line + "\n"
    return parts[1:] if key in CLAUSES else parts


def bound_in(part, name):
    """The names that a part binds: those of a clause's left side, of binders, and of a record's facts."""
    found = {word for groups in BOUND.findall(part) for word in " ".join(groups).split()}
    if clause := re.match(rf" *{re.escape(name)}\b(.*?) =(?:\s|$)", part, re.S):
        found |= {word for word, _ in NAME.findall(clause[1])}
    return found


def has_sign(word, code):
    """Whether an operator, as `◌+◌`, stands there; the arrow of steps stands for one."""
    signs = [sign for sign in word.split("◌") if sign]
    stand = all(re.search(rf"(?<!\S){re.escape(sign)}(?!\S)", code) for sign in signs)
    return stand or word == "◌>>=◌" and "←" in code


@functools.cache
def named(key):
    """The definitions that a definition names."""
    path, name = key
    if path.endswith(".rt"):
        known = known_to_code(path)
        return {known[word] for word, _ in NAME.findall("\n".join(code_of(key))) if word in known} - {key}
    taken = {word: source for word, source in imported(path).items() if is_ours(source[0])}
    found = set()
    for part in parts_of(key):
        bound = bound_in(part, name)
        free = {(word, of[1:]) for word, of in NAME.findall(part) if word not in bound}
        found |= {definition(taken[word][0], taken[word][1] or of) for word, of in free if word in taken}
        found |= {local(path)[word] for word, _ in free if word in local(path) and word not in imported(path)}
        found |= {definition(*source) for word, source in taken.items() if "◌" in word and has_sign(word, part)}
    return found - {key}


def closure(roots):
    """All definitions that these rest on, themselves too."""
    found, left = set(), list(roots)
    while left:
        key = left.pop()
        if key not in found:
            found.add(key)
            left += named(key)
    return found


def kit_words(key):
    """The words and signs of the kit that stand in a definition."""
    code = "\n".join(code_of(key))
    words = imported(key[0]).items() if key[0].endswith(".antt") else ()
    ofkit = [word for word, (module, _) in words if not is_ours(module)]
    stands = {word: re.search(rf"(?<![\w.]){re.escape(word)}(?!\w)", code) for word in ofkit}
    return {word for word in ofkit if (has_sign(word, code) if "◌" in word else stands[word])}


# ---- the page


def blocks_of(page):
    """The blocks of the page: each with its file, the definitions in it that the file has, and all that it says."""
    for path, said in BLOCK.findall(page):
        heads = [HEAD.match(line) for line in said.split("\n") if not line.startswith(" ")]
        there = declared(path) if os.path.exists(os.path.join(TOP, "crates", path)) else {}
        yield path, [(path, head[1]) for head in heads if head and head[1] in there], said


def quotation(keys):
    """What a block has to say: its definitions, an empty line between each two."""
    return "\n\n".join(textwrap.dedent("\n".join(lines_of(key))) for key in keys) + "\n"


def counted(keys):
    """How many definitions these are, and in how many lines without comments."""
    return len(keys), sum(len(code_of(key)) for key in keys)


def row(label):
    """A row of the page's table: how much this rests on, and how much of it no row above has."""
    above = [root for other in list(ROWS)[:list(ROWS).index(label)] for root in ROWS[other]]
    found = closure(ROWS[label])
    return "| " + " | ".join(map(str, [label, *counted(found), *counted(found - closure(above))])) + " |"


def in_short():
    """The numbers of the first row, as the page and the README have them in a sentence."""
    return "{} definitions, {} lines".format(*counted(closure([COMPLETE])))


def made_anew(page):
    """The page with its quotations, its table and its numbers as they have to be."""
    for path, keys, said in list(blocks_of(page)):
        page = page.replace(f" {path}\n{said}```\n", f" {path}\n{quotation(keys)}```\n")
    for label in ROWS:
        page = re.sub(rf"^\| {re.escape(label)} \|.*$", row(label), page, flags=re.M)
    return SHORT.sub(in_short(), page)


def quotation_faults(page):
    for path, keys, said in blocks_of(page):
        if said != quotation(keys):
            yield f"{path}: the block of {', '.join(name for _, name in keys)} isn't as the file has these"


def order_faults(page):
    """What is wanting, stands twice or needn't be there, and what stands before something that it names."""
    quoted = [key for _, keys, _ in blocks_of(page) for key in keys]
    wanted = closure(QUOTED) | {*CARRIERS}
    yield from (f"{name} of {path} is wanting" for path, name in sorted(wanted - {*quoted}))
    yield from (f"{name} of {path} needn't be there" for path, name in sorted({*quoted} - wanted))
    for place, key in enumerate(quoted):
        if key in quoted[:place]:
            yield f"{key[1]} of {key[0]} stands twice"
        later = named(key).intersection(quoted[place + 1:])
        yield from (f"{key[1]} stands before {name}, which it names" for _, name in sorted(later))


def word_faults(page):
    """The definitions and the words of the kit of which the page says nothing."""
    told = " ".join(re.findall(r"`([^`\n]+)`", BLOCK.sub("", page))).replace("(", " ").replace(")", " ").split()
    words = {word for key in closure(QUOTED) for word in kit_words(key)}
    untold = {word for word in words if {*word.split("◌")} - {"", *told}}
    untold |= {key[1] for key in closure(QUOTED) if not COMMENT.match(lines_of(key)[0])}
    yield from (f"nothing is said of {word}" for word in sorted(untold))


def number_faults(page):
    lines = page.split("\n")
    yield from (f"there has to be the row {row(label)}" for label in ROWS if row(label) not in lines)
    for path, text in ((PAGE, page), (README, text_of(README))):
        if {*SHORT.findall(text)} != {in_short()}:
            yield f"{path} doesn't say: {in_short()}"


def write():
    made = {PAGE: made_anew(text_of(PAGE)), README: SHORT.sub(in_short(), text_of(README))}
    for path, text in made.items():
        with open(os.path.join(TOP, path), "w", encoding="utf-8") as file:
            file.write(text)
    text_of.cache_clear()


def main():
    parser = argparse.ArgumentParser(description=__doc__, formatter_class=argparse.RawDescriptionHelpFormatter)
    parser.add_argument("--write", action="store_true")
    if parser.parse_args().write:
        write()
    page = text_of(PAGE)
    parts = quotation_faults, order_faults, word_faults, number_faults
    failed = 0
    for faults in parts:
        found = list(faults(page))
        failed += bool(found)
        for fault in found:
            print(f"{PAGE}: {fault}")
    print(f"{len(parts) - failed} passed, {failed} failed")
    return 1 if failed else 0


if __name__ == "__main__":
    sys.exit(main())
