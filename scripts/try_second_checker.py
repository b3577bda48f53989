#!/usr/bin/env python3
"""Tries the second checker, web/check.js, which node runs.

It has to answer as each case of `cases/` and each example wants it, with the three texts apart and joined, and with
texts cut at every byte. On texts that are generated, most of them faulty, it has to answer as the program does: N of
them, 300 unless given, each the texts of an example or a case with some words or bytes changed. The command line,
web/cli.js, has to give the same lines on the same streams with the same status, for files that aren't there too. The
page's pictures, web/draw.js, have to be those of docs/pictures and of cases, byte for byte. With --mutants wrong
checkers are made, each by one change of check.js that scripts/wrong_checkers.toml has, and one of the cases has to
notice each.

Where there is no node on the path it says so, and tries nothing. It ends with 0 where all is as wanted, else with 1. It
takes some seconds.
"""
import argparse
import json
import os
import random
import re
import shutil
import subprocess
import sys
import tempfile
import tomllib
from dataclasses import dataclass

import check_cases
from check_cases import DOCUMENTS, EXAMPLES, GALLERY, TOP, Outcome, outcome_of, program_at
from pictures import NUMBERED
from plain_search import ItemSearch, Search, read_puzzle

WEB = os.path.join(TOP, "web")
CHECKER, COMMAND = os.path.join(WEB, "check.js"), os.path.join(WEB, "cli.js")
WRONG, PICTURES = os.path.join(TOP, "scripts/wrong_checkers.toml"), os.path.join(TOP, "docs/pictures")
# The most bytes of a case's texts that are changed, and of one's that wrong checkers are tried on.
MOST_CHANGED, MOST_TRIED = 4_000, 100_000
# The characters that texts have, and some that they haven't.
CHARACTERS = "0123456789abcdefghijklmnopqrstuvwxyz .:-+#\n\t\r~\x00\u00ff"
# What node does with each line of its input, a JSON list of three texts or of one joined: it prints status and answer.
# With a file of changed checkers it prints for each the number of the first line on which it answers otherwise than the
# first checker, or null.
DRIVER = r"""
const fs = require("fs");
const checkerOf = (source) => {
  const module = { exports: {} };
  new Function("module", "globalThis", source)(module, {});
  return module.exports;
};
const bytes = (text) => new Uint8Array(Buffer.from(text, "latin1"));
const [checker, changed] = process.argv.slice(1), source = fs.readFileSync(checker, "utf8");
const trials = fs.readFileSync(0, "utf8").split("\n").slice(0, -1).map((it) => JSON.parse(it).map(bytes));
const answer = ({ edgematchCheck, edgematchCut }, texts) => {
  try {
    const { line, status } = edgematchCheck(...(texts.length === 1 ? edgematchCut(texts[0]) : texts));
    return `${status} ${line}`;
  } catch (why) {
    return `failed: ${String(why).split("\n")[0]}`;
  }
};
const own = checkerOf(source), answers = trials.map((it) => answer(own, it));
if (changed === undefined) process.stdout.write(answers.map((it) => `${it}\n`).join(""));
else {
  for (const other of JSON.parse(fs.readFileSync(changed, "utf8"))) {
    const wrong = checkerOf(other), found = trials.findIndex((it, i) => answer(wrong, it) !== answers[i]);
    process.stdout.write(`${found < 0 ? null : found}\n`);
  }
}
"""

# It draws arrangements: each line of its input is a JSON list of a puzzle, the line of a list, its number there, and
# whether tiles have numbers.
DRAWER = r"""
const fs = require("fs"), path = require("path"), folder = process.argv[1];
const { edgematchPuzzle } = require(path.join(folder, "check.js"));
const { edgematchPicture } = require(path.join(folder, "draw.js"));
for (const it of fs.readFileSync(0, "utf8").split("\n").slice(0, -1)) {
  const [text, row, number, numbers] = JSON.parse(it), puzzle = edgematchPuzzle(new Uint8Array(Buffer.from(text)));
  process.stdout.write(`${JSON.stringify(edgematchPicture(puzzle, row, number, true, numbers))}\n`);
}
"""


@dataclass
class Trial:
    """Texts, three or one of joined ones, and the line that is wanted of them. Trials with one name count once."""

    name: str
    texts: list
    line: str

    def wanted(self):
        return f"{outcome_of(self.line).status} {self.line}"


# Trials of cases


def checked(name, texts, line, joined=None):
    """A check of texts, apart and, unless that is left out, joined."""
    yield Trial(name, texts, line)
    if joined is not False:
        yield Trial(f"{name}, joined", [b"".join(texts)], joined or line)


def cut(name, documents, document):
    """A text cut at every byte: the line end is missing on the last line that there is."""
    text = documents[document]
    for length in range(len(text)):
        texts = [text[:length] if it == document else documents[it] for it in DOCUMENTS]
        number = 1 + text.count(b"\n", 0, length)
        yield Trial(f"{name}, {document} cut", texts, f"{document}: line {number}: ends")


def line_of_order(keys):
    """The line that a case's run of `check` wants, if it is one of the three texts."""
    words = keys.get("words", ())
    if words[:1] == ["check"] and {it.upper() for it in DOCUMENTS} <= {*words} and "--progress" not in words:
        said = check_cases.text_of(keys.get("stdout", "") or keys.get("stderr", "")).decode("latin-1")
        return (said.splitlines() or [None])[0]
    return None


def of_case(kind, case):
    """The trials that a case comes to; none, where it is no check."""
    if any(it not in case.documents for it in DOCUMENTS):
        return
    keys, texts = case.keys, [case.documents[it] for it in DOCUMENTS]
    listed = f"complete {len(check_cases.arrangements_in(texts[1]))}"
    if kind == "cut":
        yield from cut(case.name, case.documents, keys["document"])
    elif kind == "example" or "expansion" in keys or "arrangements" in keys:
        yield from checked(case.name, texts, listed)
    line = keys.get("answer", keys.get("fault"))
    if line is not None:
        yield from checked(case.name, texts, line, keys.get("joined"))
    for document in keys.get("cut", ()):
        yield from cut(case.name, case.documents, document)
    line = line_of_order(keys)
    if line is not None:
        yield Trial(case.name, texts, line)


# Texts that are generated


def contents(path):
    with open(path, "rb") as file:
        return file.read()


def searched(puzzle):
    """A puzzle with the lists and certificates that two plain searches make."""
    for kind in (Search, ItemSearch):
        search = kind(read_puzzle(puzzle.decode("latin-1")), 0, sys.maxsize)
        search.run()
        yield [puzzle, search.list_text().encode("latin-1"), search.certificate_text().encode("latin-1")]


def seeds(trials):
    """Texts that are right or nearly so: those of searches of the examples, and of cases that are answered."""
    for trial in trials:
        if len(trial.texts) == 3 and outcome_of(trial.line).status < 2 and sum(map(len, trial.texts)) < MOST_CHANGED:
            yield trial.texts
            if re.fullmatch(r"examples/\w+", trial.name):
                yield from searched(trial.texts[0])


def other_number(rng, word):
    """A word with one of its numbers a little greater or less."""
    parts = re.findall(r"\d+|\D+", word)
    places = [place for place, part in enumerate(parts) if part.isdigit()]
    if places:
        place = rng.choice(places)
        parts[place] = str(max(0, int(parts[place]) + rng.choice((-2, -1, 1, 1, 2, 9))))
    return "".join(parts)


def other_words(rng, words):
    """The words of a line, changed: a number, a letter of a node, two words exchanged, one left out or doubled."""
    place, way = rng.randrange(len(words)), rng.random()
    nodes = [it for it, word in enumerate(words) if word in tuple("ctdesf")]
    if way < 0.15 and nodes:
        place = rng.choice(nodes)
        words[place] = {"c": "t", "t": "c", "d": "e", "e": "d", "f": "s", "s": "f"}[words[place]]
    elif way < 0.3:
        other = rng.randrange(len(words))
        words[place], words[other] = words[other], words[place]
    elif way < 0.4:
        words[place:place + 1] = rng.choice(([], [words[place]] * 2))
    else:
        numbers = [it for it, word in enumerate(words) if re.search(r"\d", word)]
        place = rng.choice(numbers or [place])
        words[place] = other_number(rng, words[place])
    return words


def other_text(rng, text):
    """A text with one place changed: some words of a line, a line, or a byte."""
    lines, way = text.decode("latin-1").split("\n"), rng.random()
    place, other = rng.randrange(len(lines)), rng.randrange(len(lines))
    if way < 0.7:
        lines[place] = " ".join(other_words(rng, lines[place].split(" ")))
    elif way < 0.8:
        lines[place], lines[other] = lines[other], lines[place]
    elif way < 0.85:
        lines[place:place + 1] = rng.choice(([], [lines[place]] * 2))
    else:
        whole = "\n".join(lines)
        at = rng.randrange(len(whole))
        return (whole[:at] + rng.choice(CHARACTERS) + whole[at + rng.randrange(2):]).encode("latin-1")
    return "\n".join(lines).encode("latin-1")


def generated(program, folder, trials, count):
    """So many texts that are changed, each with what the program answers."""
    rng, kept = random.Random("second checker"), list(seeds(trials))
    paths = [os.path.join(folder, it) for it in DOCUMENTS]
    for number in range(count):
        texts = list(rng.choice(kept))
        if rng.random() < 0.05:
            texts[rng.randrange(3)] = rng.choice(kept)[rng.randrange(3)]
        for _ in range(rng.choice((1, 1, 2))):
            which = rng.choices(range(3), (3, 3, 10))[0]
            texts[which] = other_text(rng, texts[which])
        for path, text in zip(paths, texts):
            with open(path, "wb") as file:
                file.write(text)
        got = run([program, "check", *paths])
        yield Trial(f"generated {number}", texts, (got.stdout + got.stderr).decode("latin-1").removesuffix("\n"))


# Running them


def run(words, stdin=b""):
    done = subprocess.run(words, input=stdin, capture_output=True, check=False)
    return Outcome(done.returncode, done.stdout, done.stderr)


def node(node_path, trials, *words):
    """The lines that the driver prints of these trials."""
    lines = "".join(json.dumps([it.decode("latin-1") for it in trial.texts]) + "\n" for trial in trials)
    words = [node_path, "-e", DRIVER, CHECKER, *words]
    done = subprocess.run(words, input=lines.encode(), stdout=subprocess.PIPE, check=True)
    return done.stdout.decode("latin-1").split("\n")[:-1]


def differences(node_path, trials):
    """The names of the trials, each with how the checker's answers differ from those that are wanted."""
    found = {trial.name: [] for trial in trials}
    for trial, got in zip(trials, node(node_path, trials), strict=True):
        if got != trial.wanted():
            found[trial.name].append(f"wanted {trial.wanted()}\ngot    {got}")
    return found


def of_command(node_path, folder, trials):
    """What the command line answers otherwise than wanted: of examples, apart and joined, of files that can't be read, and
    of an answer that can't be written."""
    paths = [os.path.join(folder, it) for it in DOCUMENTS]
    calls = []
    for trial in trials:
        if trial.name.startswith("examples/") and ", " not in trial.name.removesuffix(", joined"):
            calls.append((trial.name, trial.texts, trial.line))
    for place, document in enumerate(DOCUMENTS):
        texts = [None if it == place else b"" for it in range(3)]
        calls.append((f"no {document}", texts, f"cannot read {document}"))
    calls.append(("empty texts", [b"", b"", b""], "puzzle: line 1: ends"))
    found = {}
    for name, texts, line in calls:
        for path, text in zip(paths, texts):
            if text is None:
                os.remove(path)
            else:
                with open(path, "wb") as file:
                    file.write(text)
        apart = len(texts) == 3
        got = run([node_path, COMMAND, *(paths if apart else [])], b"" if apart else texts[0])
        wanted = outcome_of(line)
        found[f"{name}, by cli.js"] = [] if got == wanted else [f"wanted {wanted}\ngot    {got}"]
    got = run([node_path, COMMAND, paths[0]])
    right = (got.status, got.stdout) == (2, b"") and got.stderr.startswith(b"usage: ")
    found["one word, by cli.js"] = [] if right else [f"got    {got}"]
    with open("/dev/full", "wb") as full:
        done = subprocess.run([node_path, COMMAND, *(os.path.join(EXAMPLES, "square_of_four", it) for it in DOCUMENTS)],
                              stdout=full, stderr=subprocess.PIPE, check=False)
    got = done.returncode, done.stderr
    found["a full disk, by cli.js"] = [] if got == (2, b"cannot write\n") else [f"got    {got}"]
    return found


def gallery_pictures():
    """The pictures of docs/pictures that are of an arrangement: the name of each, with it and what it is drawn of."""
    for name in sorted(os.listdir(os.path.join(EXAMPLES, GALLERY))):
        picture = contents(os.path.join(PICTURES, f"{name}.svg")).decode("ascii")
        said = re.search(r"By cell the tile, its turns and its colours: (.*)</desc>", picture)
        if said:
            row = " ".join(it.split(" ")[0] for it in said[1].split(", "))
            puzzle = contents(os.path.join(EXAMPLES, GALLERY, name)).decode("ascii")
            yield f"the picture of {name}", picture, [puzzle, row, 0, name in NUMBERED]


def case_pictures():
    """The pictures of arrangements that cases want as a whole."""
    for _, case in check_cases.every_case():
        words, wanted = case.keys.get("words", ()), case.keys.get("stdout", "")
        if [*words[:3]] == ["draw", "PUZZLE", "LIST"] and "--first" not in words and wanted:
            number = int(next(filter(str.isdigit, words[3:]), "0"))
            row = case.documents["list"].decode("ascii").splitlines()[2 + number]
            picture = check_cases.text_of(wanted).decode("ascii").removeprefix("\n")
            yield f"the picture of {case.name}", picture, [case.documents["puzzle"].decode("ascii"), row, number,
                                                           "--numbers" in words]


def of_pictures(node_path):
    """The pictures of docs/pictures and of cases that the page draws otherwise."""
    drawn = [*gallery_pictures(), *case_pictures()]
    lines = "".join(json.dumps(asked) + "\n" for _, _, asked in drawn)
    words = [node_path, "-e", DRAWER, WEB]
    done = subprocess.run(words, input=lines.encode(), stdout=subprocess.PIPE, check=True)
    got = [json.loads(it) for it in done.stdout.decode().split("\n")[:-1]]
    return {name: [] if one == picture else ["it is another than the one that is stored"]
            for (name, picture, _), one in zip(drawn, got, strict=True)}


def is_small(trial):
    """Whether a wrong checker is tried on it: a cut text shows no more than another one, and a long one is dear."""
    return not trial.name.endswith(" cut") and sum(map(len, trial.texts)) < MOST_TRIED


def of_mutants(node_path, folder, trials):
    """The wrong checkers, each with what is said where no case notices it."""
    source, wrong = contents(CHECKER).decode("utf-8"), tomllib.loads(contents(WRONG).decode("utf-8"))
    path = os.path.join(folder, "changed.json")
    with open(path, "w", encoding="utf-8") as file:
        json.dump([source.replace(it["old"], it["new"], 1) for it in wrong.values()], file)
    found = {}
    for (name, change), noticed in zip(wrong.items(), node(node_path, trials, path), strict=True):
        count = source.count(change["old"])
        faults = [] if count == 1 else [f"its text stands {count} times in check.js, and not once"]
        found[f"a wrong checker: {name}"] = faults + ["no case notices it"] * (noticed == "null")
    return found


def main():
    parser = argparse.ArgumentParser(description=__doc__, formatter_class=argparse.RawDescriptionHelpFormatter)
    parser.add_argument("program", type=program_at, metavar="PROGRAM")
    parser.add_argument("--generated", type=int, default=300, metavar="N")
    parser.add_argument("--mutants", action="store_true")
    given = parser.parse_args()
    node_path = shutil.which("node")
    if node_path is None:
        print("node isn't on the path: the second checker was not tried\n0 passed, 0 failed")
        return 0
    trials = [trial for kind, case in check_cases.every_case() for trial in of_case(kind, case)]
    with tempfile.TemporaryDirectory() as folder:
        found = differences(node_path, trials + list(generated(given.program, folder, trials, given.generated)))
        found |= of_command(node_path, folder, trials) | of_pictures(node_path)
        if given.mutants:
            small = list(filter(is_small, trials))
            # In this order most wrong checkers are noticed soon.
            random.Random("wrong checkers").shuffle(small)
            found |= of_mutants(node_path, folder, small)
    for name, faults in found.items():
        if faults:
            print(f"== {name}", *faults[:3], sep="\n")
    failed = sum(map(bool, found.values()))
    print(f"{len(found) - failed} passed, {failed} failed")
    return 1 if failed else 0


if __name__ == "__main__":
    sys.exit(main())
