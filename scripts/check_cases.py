#!/usr/bin/env python3
"""Runs the built program on each case of `cases/` and each example of `examples/`, and shows what isn't as wanted.

CASE is the name of a case, of a file of `cases/` (without its ending) or of a folder of `examples/`; without any, all
are run. cases/README.md says how a case is written. It ends with 0 where each case passes, with 1 where one fails, and
with 2 where a case can't be read. Cases run side by side, as many as there are processors.
"""
import argparse
import difflib
import hashlib
import multiprocessing
import os
import re
import subprocess
import sys
import tempfile
import time
import tomllib
from dataclasses import dataclass, field

import plain_search
from plain_orbits import orbits_of
from plain_search import ItemSearch, Search, read_puzzle

TOP = os.path.join(os.path.dirname(os.path.abspath(__file__)), "..")
CASES, EXAMPLES = os.path.join(TOP, "cases"), os.path.join(TOP, "examples")
# The folder of `examples/` that has puzzles alone.
GALLERY = "gallery"
DOCUMENTS = ("puzzle", "list", "certificate")
WORKERS, FORKS, DEPTHS = (1, 2, 7, 64), (0, 3, 6), (0, 1, 2, 3)
# Of how many parts a count by a search is added up.
PARTS = 3
# The seconds that one run of the program may take.
LONGEST = 300
# The bytes of the longest path that the system takes, and of a name in it.
LONGEST_PATH, LONGEST_NAME = 4096, 250

# A word of a case that stands for a path: a document's file, or a folder's, with what stands behind its name.
NAMES = re.compile(r"(\./)?(PUZZLE|LIST|CERTIFICATE|FOLDER)((?:[./].*)?)$")

# What a table of a case may have, by what it is.
TEXTS = {"like", "change", *DOCUMENTS}
CHECKED = {"answer", "fault", "hint", "joined", "rows", "explanations", "explanation", "expansion", "arrangements", "too_large", "cut"}
STREAMED = {f"{stream}{end}" for stream in ("stdout", "stderr") for end in ("", "_begins", "_has")}
ORDERED = {"words", "beside", "deep", "stdin", "status", "files", "files_have", "kept", "left", "stdout_lines", *STREAMED}
SOLVED = {"solve", "orbits"}
WANTED = {"answer", "fault", "rows", "explanations", "expansion", "arrangements", "words", "solve", "orbits"}


class Unreadable(Exception):
    """A case that isn't written as it should be."""


@dataclass
class Case:
    """A case: its documents, and the keys of its table that say what is run and wanted."""

    name: str
    documents: dict
    keys: dict = field(default_factory=dict)


@dataclass
class Outcome:
    """What a run came to."""

    status: int
    stdout: bytes
    stderr: bytes


# Reading cases


def text_of(value):
    """A text as a case has it: a string, or a list of parts. A part is a text, or a text and how often it stands, with
    `{}` in it for which time that is, from 0."""
    if isinstance(value, str):
        return value.encode("latin-1")
    if len(value) == 2 and isinstance(value[1], int):
        text = text_of(value[0])
        return b"".join(text.replace(b"{}", b"%d" % number) for number in range(value[1]))
    return b"".join(text_of(it) for it in value)


def example_documents(name):
    """The documents of a folder of `examples/`."""
    documents = {}
    for document in DOCUMENTS:
        with open(os.path.join(EXAMPLES, name, document), "rb") as file:
            documents[document] = file.read()
    return documents


def changed(name, text, changes):
    """The text with each old part, which stands in it just once, replaced by its new one."""
    for old, new in changes:
        old, new = text_of(old), text_of(new)
        if text.count(old) != 1:
            raise Unreadable(f"{name}: {old!r} stands {text.count(old)} times in the text, and not once")
        text = text.replace(old, new)
    return text


def documents_of(name, table, earlier):
    """The documents of a case, which may be those of an earlier one or of an example, changed."""
    like, documents = table.get("like"), {}
    if like in earlier:
        documents = dict(earlier[like].documents)
    elif like is not None:
        if not os.path.isdir(os.path.join(EXAMPLES, like)):
            raise Unreadable(f"{name}: there is no earlier case and no example {like}")
        documents = example_documents(like)
    documents.update({it: text_of(table[it]) for it in DOCUMENTS if it in table})
    for document, changes in table.get("change", {}).items():
        if document not in documents:
            raise Unreadable(f"{name}: there is no {document} to change")
        documents[document] = changed(f"{name}, {document}", documents[document], changes)
    return documents


def rows_of(case):
    """The cases of a table of rows: each row's text takes the place of the one `@` in the documents."""
    marked = [it for it in case.documents if b"@" in case.documents[it]]
    if len(marked) != 1 or case.documents[marked[0]].count(b"@") != 1:
        raise Unreadable(f"{case.name}: one '@' stands in its documents, where a row's text goes")
    rows = [(text, answer, joined[0] if joined else case.keys.get("joined"), None)
            for text, answer, *joined in case.keys.get("rows", ())]
    rows += [(text, answer, None, why) for text, answer, why in case.keys.get("explanations", ())]
    for text, answer, joined, why in rows:
        text = text_of(text)
        documents = dict(case.documents)
        documents[marked[0]] = documents[marked[0]].replace(b"@", text)
        shown = repr(text[:60].decode("latin-1"))
        keys = {"answer": answer, "joined": joined, "explanation": why}
        yield Case(f"{case.name}[{shown}]", documents, {it: keys[it] for it in keys if keys[it] is not None})


def cases_of(path):
    """The cases of a file, in their order."""
    stem = os.path.splitext(os.path.basename(path))[0]
    with open(path, "rb") as file:
        tables = tomllib.load(file)
    earlier = {}
    for key, table in tables.items():
        name = f"{stem}/{key}"
        strange = set(table) - TEXTS - CHECKED - ORDERED - SOLVED
        if strange or not set(table) & WANTED:
            why = f"has no key {', '.join(sorted(strange))}" if strange else "wants nothing"
            raise Unreadable(f"{name}: a case {why}")
        case = Case(name, documents_of(name, table, earlier), {it: table[it] for it in table if it not in TEXTS})
        earlier[key] = case
        if "rows" in table or "explanations" in table:
            yield from rows_of(case)
        else:
            yield case


# Running them


class Trial:
    """The runs of one case in a folder of its own, and how those that aren't as wanted differ."""

    def __init__(self, program, folder, documents):
        self.program, self.folder, self.runs, self.differences = program, folder, 0, []
        for document, text in documents.items():
            self.put(document, text)

    def path(self, document):
        return os.path.join(self.folder, document)

    def put(self, document, text):
        with open(self.path(document), "wb") as file:
            file.write(text)

    def paths(self):
        return [self.path(it) for it in DOCUMENTS]

    def word(self, word):
        """A word of a case: what begins with a name of `NAMES` is a path, by `./` where that stands before it."""
        named = NAMES.match(word)
        if not named:
            return word
        before, name, behind = named.groups(default="")
        return os.path.join(self.folder, before, name.lower() + behind)

    def go_deep(self, documents):
        """Goes on in a folder whose path is longer than the system takes, with the documents there by their names."""
        os.chdir(self.folder)
        for _ in range(1 + LONGEST_PATH // LONGEST_NAME):
            os.mkdir("d" * LONGEST_NAME)
            os.chdir("d" * LONGEST_NAME)
        self.folder = ""
        for document, text in documents.items():
            self.put(document, text)

    def contents(self, document):
        try:
            with open(self.path(document), "rb") as file:
                return file.read()
        except FileNotFoundError:
            return b"(no file)"

    def names(self):
        """The names of all files that are there, in order."""
        return sorted(os.listdir(self.folder or "."))

    def standing(self):
        """What stands in the folder: each name, with what its file holds, or none where it is a folder."""
        return {it: None if os.path.isdir(self.path(it)) else self.contents(it) for it in self.names()}

    def wants_kept(self, way, before):
        """What stood in the folder before stands there, and nothing else."""
        after = self.standing()
        self.wants(way, "the files that are left", " ".join(before).encode(), " ".join(after).encode())
        for name, text in before.items():
            self.wants(way, f"the file {name}", text or b"", after.get(name) or b"")

    def run(self, words, stdin=b""):
        self.runs += 1
        how = {"input": stdin, "capture_output": True, "timeout": LONGEST, "check": False, "close_fds": False}
        done = subprocess.run([self.program, *words], **how)
        return Outcome(done.returncode, done.stdout, done.stderr)

    def differs(self, way, what, wanted, got):
        """Notes a difference, line by line."""
        wanted, got = wanted.decode("latin-1"), got.decode("latin-1")
        lines = difflib.unified_diff(wanted.splitlines(True), got.splitlines(True), "wanted", "got", n=1)
        shown = "".join(it if it.endswith("\n") else f"{it}\n\\ no line end\n" for it in lines)
        self.differences.append(f"{way}: {what}\n{shown}")

    def wants(self, way, what, wanted, got):
        if wanted != got:
            self.differs(way, what, wanted, got)

    def wants_status(self, way, wanted, got):
        if wanted != got:
            self.differences.append(f"{way}: exit status {got}, and not {wanted}\n")

    def wants_outcome(self, way, wanted, got):
        self.wants_status(way, wanted.status, got.status)
        self.wants(way, "standard output", wanted.stdout, got.stdout)
        self.wants(way, "standard error", wanted.stderr, got.stderr)


def outcome_of(line):
    """What a check comes to that answers this line, or that tells this fault."""
    text = line.encode("latin-1") + b"\n"
    if line.startswith("complete "):
        return Outcome(0, text, b"")
    if line.startswith("refused "):
        return Outcome(1, text, b"")
    return Outcome(2, b"", text)


def ways_of(wanted):
    """The options that a check is run with: all, where the documents are read, and otherwise some."""
    if wanted.status == 2:
        return [[], ["--workers", "3", "--forks", "2"]]
    numbers = [["--workers", str(it), "--forks", str(forks)] for it in WORKERS for forks in FORKS]
    return [[], ["--workers", "all"], *numbers]


def check(trial, case):
    """A check of the documents in every way that they can come."""
    line = case.keys.get("answer", case.keys.get("fault"))
    wanted = outcome_of(line)
    for options in ways_of(wanted):
        way = " ".join(["check", *options])
        trial.wants_outcome(way, wanted, trial.run(["check", *trial.paths(), *options]))
    joined = case.keys.get("joined", line)
    if joined is not False:
        stdin = b"".join(case.documents[it] for it in DOCUMENTS)
        trial.wants_outcome("joined", outcome_of(joined), trial.run([], stdin))
    explain(trial, wanted, case.keys.get("explanation", ""))
    explain_puzzle(trial, wanted)
    if "hint" in case.keys:
        hint(trial, wanted, text_of(case.keys["hint"]) + b"\n")


def explain(trial, wanted, why):
    """An explanation: what a check comes to, and below a refusal why, which begins with these lines."""
    got = trial.run(["explain", *trial.paths()])
    line, below = got.stdout[: len(wanted.stdout)], got.stdout[len(wanted.stdout) :]
    fault = b"".join(got.stderr.splitlines(True)[:1])
    trial.wants_outcome("explain", wanted, Outcome(got.status, line, fault))
    why = why.encode("latin-1")
    trial.wants("explain", "what stands below", why, below[: len(why)])
    if (wanted.status == 1) != (below != b""):
        trial.differs("explain", "what stands below, and should only below a refusal", b"", below)


def explain_puzzle(trial, wanted):
    """An explanation of the puzzle alone: its fault, or that it has none, and reasons only where nothing is listed."""
    got = trial.run(["explain", trial.path("puzzle")])
    if wanted.stderr.startswith(b"puzzle: "):
        fault = b"".join(got.stderr.splitlines(True)[:1])
        trial.wants_outcome("explain PUZZLE", wanted, Outcome(got.status, got.stdout, fault))
    else:
        reasons = got.stdout.removeprefix(b"puzzle: no fault\n")
        trial.wants_outcome("explain PUZZLE", Outcome(0, b"puzzle: no fault\n" + reasons, b""), got)
        if any(not line.startswith(b"no arrangement: ") for line in reasons.splitlines()):
            trial.differs("explain PUZZLE", "what stands below, which is no reason", b"", reasons)
        if wanted.status == 0 and reasons and b"complete 0" not in wanted.stdout:
            trial.differs("explain PUZZLE", "what stands below, where there is an arrangement", b"", reasons)


def hint(trial, wanted, told):
    """What is told beside the fault of a text: always by commands for people, and by the others where it is asked for."""
    paths, puzzle = trial.paths(), trial.path("puzzle")
    always = [["explain", *paths], ["count", *paths]]
    asked = [["check", *paths], ["check", *paths, "--workers", "3"], ["expand", *paths]]
    if wanted.stderr.startswith(b"puzzle: "):
        always += [[it, puzzle] for it in ("explain", "show", "count", "symmetries", "draw")]
        asked.append(["solve", *paths])
    elif wanted.stderr.startswith(b"list: "):
        always += [[it, *paths[:2]] for it in ("show", "draw")]
    both = Outcome(wanted.status, wanted.stdout, wanted.stderr + told)
    for words, outcome in [
        *((words, both) for words in always),
        *((words, wanted) for words in asked),
        *(([*words, "--hints"], both) for words in asked),
    ]:
        trial.wants_outcome(" ".join(words), outcome, trial.run(words))


def list_text(arrangements):
    """The text of a list of these arrangements."""
    return plain_search.list_text(arrangements).encode("latin-1")


def arrangements_in(text):
    """The arrangements of a list's text, in its order."""
    return [it.decode("latin-1") for it in text.splitlines()[2:-1]]


def expand(trial, case):
    """The expansion of the documents: the very list, or how many are on it."""
    got = trial.run(["expand", *trial.paths()])
    if "expansion" in case.keys:
        trial.wants_outcome("expand", Outcome(0, list_text(case.keys["expansion"]), b""), got)
    if "arrangements" in case.keys:
        trial.wants_status("expand", 0, got.status)
        wanted = f"arrangements {case.keys['arrangements']}".encode("latin-1")
        trial.wants("expand", "the list's second line", wanted, b"".join(got.stdout.splitlines()[1:2]))
    count(trial, "count", got)
    if case.keys.get("too_large"):
        trial.wants_outcome("count PUZZLE", Outcome(3, b"", b"too many options\n"), trial.run(["count", trial.path("puzzle")]))
    elif got.status == 0:
        count_by_search(trial, case.keys.get("arrangements", len(case.keys.get("expansion", ()))))


def pictures_of(puzzle, arrangements):
    """How many of the arrangements differ in what they show: at each cell the tile's word, turned."""
    tiles = [line.split()[1].decode("latin-1") for line in puzzle.splitlines() if line.startswith(b"tile ")]

    def shown(placement):
        tile, turn = (int(number) for number in placement.split("."))
        return tiles[tile][turn:] + tiles[tile][:turn]

    return len({" ".join(shown(it) for it in arrangement.split()) for arrangement in arrangements})


def count(trial, way, expanded):
    """A count of the documents: it says how many the expansion lists, how many of these differ in what they show, how
    many are listed of each orbit one, and how many symmetries the certificate names; or what the expansion says of a
    refusal."""
    got = trial.run(["count", *trial.paths()])
    if expanded.status != 0:
        trial.wants_outcome(way, expanded, got)
        return
    every = arrangements_in(expanded.stdout)
    firsts = arrangements_in(trial.run(["expand", "--orbits", *trial.paths()]).stdout)
    listed = arrangements_in(trial.contents("list"))
    place_of = {it: place for place, it in enumerate(listed)}
    places = [place_of[it] for it in firsts if it in place_of]
    if len(places) != len(firsts) or places != sorted(set(places)):
        trial.differs(f"{way}, expand --orbits", "what is listed, in its order", list_text(listed), list_text(firsts))
    pictures = pictures_of(trial.contents("puzzle"), every)
    symmetries = int(trial.contents("certificate").splitlines()[1].split()[1])
    numbers = {"arrangements": len(every), "pictures": pictures, "orbits": len(firsts), "symmetries": symmetries}
    lines = "".join(f"{word} {number}\n" for word, number in numbers.items())
    trial.wants_outcome(way, Outcome(0, lines.encode("latin-1"), b""), got)


def count_by_search(trial, number):
    """Counts of the puzzle by a search: so many, by one worker and by several; no more than so many, and more than one
    less; and as the sum of the parts of one split."""
    all_of = b"arrangements %d\n" % number
    for options in ([], ["--workers", "3"], ["--workers", "all"], ["--most", str(number)], ["--most", str(2**64 - 1)]):
        got = trial.run(["count", trial.path("puzzle"), *options])
        trial.wants_outcome(" ".join(["count PUZZLE", *options]), Outcome(0, all_of, b""), got)
    if number > 0:
        got = trial.run(["count", trial.path("puzzle"), "--most", str(number - 1)])
        more = b"arrangements more than %d\n" % (number - 1)
        trial.wants_outcome(f"count PUZZLE --most {number - 1}", Outcome(0, more, b""), got)
    count_by_parts(trial, number)


def count_by_parts(trial, number):
    """Counts of all parts of one split: of the puzzle by its SHA-256, and added up by `total`, which takes a part twice and
    refuses it with another number, and refuses the parts without one of them and with a line of another puzzle, of
    another split and of another number of parts."""
    digest = hashlib.sha256(trial.contents("puzzle")).hexdigest().encode()
    told = []
    for part in range(1, PARTS + 1):
        way = f"count PUZZLE --part {part}/{PARTS}"
        got = trial.run(["count", trial.path("puzzle"), "--part", f"{part}/{PARTS}"])
        trial.wants_status(way, 0, got.status)
        lines = re.fullmatch(rb"puzzle %s\nsplit \d+ \d+\npart %d/%d arrangements (\d+)\n" % (digest, part, PARTS), got.stdout)
        if lines is None:
            trial.differs(way, "standard output", b"puzzle %s ..split ..part .." % digest, got.stdout)
            return
        told.append(got.stdout)
    all_of, first, last = b"".join(told), told[0], int(lines[1])
    more = b"part %d/%d arrangements %d\n" % (PARTS, PARTS, last + 1)
    line = all_of.count(b"\n") + 1
    for way, text, fault in (
        ("all parts", all_of, b""),
        ("a part twice", all_of + first, b""),
        ("a part with another number", all_of + more, b"line %d: part %d/%d was %d before" % (line, PARTS, PARTS, last)),
        ("a part that is missing", b"".join(told[1:]), b"part 1/%d is missing" % PARTS),
        ("another puzzle", all_of + b"puzzle " + b"0" * 64 + b"\n", b"line %d: another puzzle" % line),
        ("another split", all_of + b"split 0 0\n", b"line %d: another split" % line),
        ("other parts", all_of + b"part 1/9 arrangements 0\n", b"line %d: of 9 parts, and of %d before" % (line, PARTS)),
    ):
        wanted = Outcome(2, b"", b"parts: %s\n" % fault) if fault else Outcome(0, b"arrangements %d\n" % number, b"")
        trial.wants_outcome(f"total of {way}", wanted, trial.run(["total", "-"], text))


def order(trial, case):
    """The words of a case, with what it wants of their run."""
    keys, way = case.keys, " ".join(case.keys["words"])
    if keys.get("deep"):
        trial.go_deep(case.documents)
    for name, text in keys.get("beside", {}).items():
        trial.put(name, text_of(text))
    if "FOLDER" in keys["words"]:
        os.mkdir(trial.path("folder"))
    before = trial.standing() if keys.get("kept") else None
    got = trial.run([trial.word(it) for it in keys["words"]], text_of(keys.get("stdin", "")))
    trial.wants_status(way, keys.get("status", 0), got.status)
    for stream, text in (("stdout", got.stdout), ("stderr", got.stderr)):
        begins, has = keys.get(f"{stream}_begins"), keys.get(f"{stream}_has")
        if begins is not None:
            begins = text_of(begins)
            trial.wants(way, f"{stream}, its begin", begins, text[: len(begins)])
        if has is not None and text_of(has) not in text:
            trial.differs(way, f"{stream}, a part of it", text_of(has), text)
        lines = keys.get("stdout_lines") if stream == "stdout" else None
        if lines is not None:
            trial.wants(way, f"{stream}, its lines", b"%d" % lines, b"%d" % text.count(b"\n"))
        if begins is None and has is None and lines is None:
            trial.wants(way, stream, text_of(keys.get(stream, "")), text)
    for document, text in keys.get("files", {}).items():
        trial.wants(way, f"the file {document}", text_of(text), trial.contents(document))
    for document, text in keys.get("files_have", {}).items():
        if text_of(text) not in trial.contents(document):
            trial.differs(way, f"the file {document}, a part of it", text_of(text), trial.contents(document))
    if "left" in keys:
        trial.wants(way, "the files that are left", " ".join(keys["left"]).encode(), " ".join(trial.names()).encode())
    if before is not None:
        trial.wants_kept(way, before)


def solve(trial, options, number, every=None):
    """A solve: what it writes is complete by a check, and expands to all arrangements, so many or these."""
    way = " ".join(["solve", *options])
    report = trial.run(["solve", *trial.paths(), *options])
    listed = len(arrangements_in(trial.contents("list")))
    trial.wants_status(way, 0, report.status)
    begins = f"found {listed}\nlemmas ".encode("latin-1")
    trial.wants(way, "its report's begin", begins, report.stdout[: len(begins)])
    trial.wants(way, "standard error", b"", report.stderr)
    checked = trial.run(["check", *trial.paths(), "--workers", "3", "--forks", "2"])
    trial.wants_outcome(f"{way}, its check", outcome_of(f"complete {listed}"), checked)
    expansion = trial.run(["expand", *trial.paths()])
    expanded = sorted(arrangements_in(expansion.stdout))
    trial.wants(f"{way}, its expansion", "how many", str(number).encode(), str(len(expanded)).encode())
    count(trial, f"{way}, its count", expansion)
    if every is not None:
        trial.wants(f"{way}, its expansion", "which", list_text(every), list_text(expanded))


def searched(trial, kind):
    """A plain search of the puzzle that has found all."""
    search = kind(read_puzzle(trial.contents("puzzle").decode("latin-1")), 0, sys.maxsize)
    search.run()
    return search


def solve_in_one_lemma(trial):
    """A solve without symmetries by one worker: what a plain search of its kind comes to, and just the fuel of that."""
    plain = searched(trial, ItemSearch)
    texts = [it.encode("latin-1") for it in (plain.list_text(), plain.certificate_text())]
    for fuel in sorted({1, 2, 5, 20, plain.branches - 1, plain.branches, 100_000}):
        if fuel < 1:
            continue
        way, before = f"solve --depth 0 --fuel {fuel}", trial.standing()
        got = trial.run(["solve", *trial.paths(), "--depth", "0", "--fuel", str(fuel)])
        if fuel < plain.branches:
            trial.wants_outcome(way, Outcome(3, b"", b"gave up\n"), got)
            trial.wants_kept(way, before)
            continue
        begins = f"found {len(plain.listed)}\nlemmas 1\nworker 0 took 0\n".encode("latin-1")
        trial.wants(way, "its report's begin", begins, got.stdout[: len(begins)])
        for document, text in zip(DOCUMENTS[1:], texts):
            trial.wants(way, f"the {document}", text, trial.contents(document))


def solves(trial, count, every=None):
    """Solves of the puzzle at each depth and by several numbers of workers."""
    solve(trial, [], count, every)
    count_by_search(trial, count)
    for depth in DEPTHS:
        for workers in WORKERS:
            solve(trial, ["--depth", str(depth), "--workers", str(workers)], count, every)
    solve(trial, ["--depth", "auto", "--workers", "all"], count, every)


def leaves_colours(line):
    """Whether a certificate's line of a symmetry says that each colour goes to itself."""
    words = line.decode("latin-1").split(" ")
    colours = words[words.index("colours") + 1 : words.index("tiles")]
    return colours == list(plain_search.DIGITS[: len(colours)])


def solve_by_choice(trial, wanted):
    """Solves that name all symmetries that are found, or those of the board alone: each is complete, and a count finds so
    many orbits, which a plain search finds too. Without a choice all are named, and with depth 0 none."""
    puzzle = trial.contents("puzzle").decode("latin-1")
    reckoned = orbits_of(read_puzzle(puzzle))
    for which, number in wanted.items():
        trial.wants(f"a plain count by {which}", "orbits", b"%d" % number, b"%d" % reckoned[which])
        for options in (["--depth", "0"], *(["--depth", f"{depth}", "--workers", "3"] for depth in DEPTHS), []):
            options = ["--symmetries", which, *options]
            solve(trial, options, reckoned["arrangements"])
            way, certificate = " ".join(["solve", *options]), trial.contents("certificate").splitlines()
            lines = [line for line in certificate if line.startswith(b"symmetry ")]
            if which == "board" and not all(map(leaves_colours, lines)):
                trial.differs(way, "its symmetries", b"none that changes a colour", b"\n".join(lines))
            orbits = b"%d" % (reckoned["arrangements"] if "0" in options else number)
            got = trial.run(["count", *trial.paths()]).stdout.split()
            trial.wants(f"{way}, its count", "orbits", orbits, got[got.index(b"orbits") + 1])
        if which == "all":
            texts = [trial.contents(it) for it in DOCUMENTS]
            trial.run(["solve", *trial.paths()])
            for document, text in zip(DOCUMENTS, texts):
                trial.wants("solve without a choice", f"the {document}", text, trial.contents(document))


def cut(trial, documents, document):
    """The document cut at every byte: the end is missing on the last line that there is."""
    text = documents[document]
    for length in range(len(text)):
        trial.put(document, text[:length])
        line = text.count(b"\n", 0, length) + 1
        wanted = outcome_of(f"{document}: line {line}: ends")
        trial.wants_outcome(f"{document} of {length} bytes", wanted, trial.run(["check", *trial.paths()]))
    trial.put(document, text)


def run_case(trial, case):
    """All runs of a case of a file."""
    keys = case.keys
    if "answer" in keys or "fault" in keys:
        check(trial, case)
    if "expansion" in keys or "arrangements" in keys:
        expand(trial, case)
    if "words" in keys:
        order(trial, case)
    if "solve" in keys:
        count, every = keys["solve"]["arrangements"], None
        if keys["solve"].get("plainly"):
            every = sorted(arrangements_in(searched(trial, Search).list_text().encode("latin-1")))
            solve_in_one_lemma(trial)
        solves(trial, count, every)
    if "orbits" in keys:
        solve_by_choice(trial, keys["orbits"])
    for document in keys.get("cut", ()):
        cut(trial, case.documents, document)


def run_example(trial, case):
    """An example: its list is complete in every way, and expands and is solved as a plain search finds it."""
    paths = trial.paths()
    listed = len(arrangements_in(case.documents["list"]))
    check(trial, Case(case.name, case.documents, {"answer": f"complete {listed}"}))
    expansion = trial.run(["expand", *paths])
    count(trial, "count", expansion)
    expanded = arrangements_in(expansion.stdout)
    for place, document in enumerate(DOCUMENTS):
        missing = [trial.path("missing") if it == place else paths[it] for it in range(len(DOCUMENTS))]
        wanted = outcome_of(f"cannot read {document}")
        trial.wants_outcome(f"no {document}", wanted, trial.run(["check", *missing]))
    plain = searched(trial, Search)
    every = sorted(arrangements_in(plain.list_text().encode("latin-1")))
    trial.wants("expand", "which", list_text(every), list_text(sorted(expanded)))
    trial.put("list", plain.list_text().encode("latin-1"))
    trial.put("certificate", plain.certificate_text().encode("latin-1"))
    alone = outcome_of(f"complete {len(every)}")
    trial.wants_outcome("the plain search's check", alone, trial.run(["check", *paths]))
    solve_in_one_lemma(trial)
    solves(trial, len(every), every)


def run_cut(trial, case):
    """An example one of whose documents is cut at every byte."""
    cut(trial, case.documents, case.keys["document"])


HOW = {"case": run_case, "example": run_example, "cut": run_cut}


def tried(work):
    """The runs of one case, with how they differ from what is wanted."""
    program, kind, case = work
    here = os.getcwd()
    with tempfile.TemporaryDirectory() as folder:
        trial = Trial(program, folder, case.documents)
        try:
            HOW[kind](trial, case)
        except subprocess.TimeoutExpired as slow:
            trial.differences.append(f"{slow}\n")
        except OSError as error:
            trial.differences.append(f"it can't be run: {error}\n")
        os.chdir(here)
        return case.name, trial.runs, trial.differences


def every_case():
    """Each kind of work with its case, the dearest first."""
    for name in sorted(os.listdir(EXAMPLES)):
        if name == GALLERY:
            continue
        documents = example_documents(name)
        yield "example", Case(f"examples/{name}", documents)
        for document in DOCUMENTS:
            yield "cut", Case(f"examples/{name}/{document}, cut", documents, {"document": document})
    for name in sorted(os.listdir(CASES)):
        if name.endswith(".toml"):
            for case in cases_of(os.path.join(CASES, name)):
                yield "case", case


def is_named(name, wanted):
    """Whether one of these words names the case, the table that it is a row of, or the file or folder that it is of."""
    whole = name.split("[")[0].split(",")[0]
    parts = whole.split("/")
    return any(it in (name, whole, *parts) for it in wanted)


def program_at(path):
    """The whole path of the program that a word of a command line names, as argparse wants its type."""
    path = os.path.abspath(path)
    try:
        said = subprocess.run([path, "--version"], stdin=subprocess.DEVNULL, capture_output=True, check=False).stdout
    except OSError as error:
        raise argparse.ArgumentTypeError(f"{path}: {error.strerror}") from error
    if not said.startswith(b"edgematch "):
        raise argparse.ArgumentTypeError(f"{path} isn't edgematch")
    return path


def main():
    parser = argparse.ArgumentParser(description=__doc__, formatter_class=argparse.RawDescriptionHelpFormatter)
    parser.add_argument("program", type=program_at, metavar="PROGRAM")
    parser.add_argument("cases", nargs="*", metavar="CASE")
    given = parser.parse_args()
    begun = time.monotonic()
    try:
        works = [(given.program, kind, case) for kind, case in every_case()
                 if not given.cases or is_named(case.name, given.cases)]
    except (Unreadable, tomllib.TOMLDecodeError, OSError) as error:
        parser.error(error)
    if not works:
        parser.error(f"there is no case {' '.join(given.cases)}")
    runs, failed = 0, 0
    with multiprocessing.Pool() as pool:
        for name, count, differences in pool.imap_unordered(tried, works):
            runs += count
            if differences:
                failed += 1
                print(f"== {name}")
                print("".join(differences), end="", flush=True)
    print(f"{len(works)} cases, {runs} runs, {time.monotonic() - begun:.1f} s")
    print(f"{len(works) - failed} passed, {failed} failed")
    return 1 if failed else 0


if __name__ == "__main__":
    sys.exit(main())
