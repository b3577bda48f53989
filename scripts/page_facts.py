#!/usr/bin/env python3
"""Holds the pages to the files that they speak of: crates, calls, counts, commands, limits, links, names, quotations,
keys of cases, numbers that two pages have, and the libraries that are trusted.

The pages are README.md, CONTRIBUTING.md, CHANGELOG.md, those of docs/, and a README.md in cases/, in web/ and in the
folder of each crate. It also looks at how long lines of prose are, whether a sentence stands twice, and whether two empty lines
follow each other. With --write the counts are made anew. It takes a second or two, and ends with 0 where all pages are
right, and with 1 where one isn't, and says where. A quotation of the code begins with its file and the function that
has it, as `// match_board/src/boards.rt, meets`; `..` in a line of its own stands for lines that are left out.
"""
import argparse
import collections
import functools
import glob
import operator
import os
import re
import sys
import textwrap
import tomllib

from check_cases import CHECKED, ORDERED, SOLVED, TEXTS
from try_further_edits import MOST_IN_THE_GATE, edits_in

TOP = os.path.join(os.path.dirname(os.path.abspath(__file__)), "..")
README, CONTRIBUTING, ARCHITECTURE = "README.md", "CONTRIBUTING.md", "docs/ARCHITECTURE.md"
MANUAL, PROVED, GATE = "docs/edgematch.1", "docs/PROVED.md", ".ci/run"
MEASURED, DECISIONS = "docs/MEASURED.md", "docs/DECISIONS.md"
# The most characters of a line of prose.
MOST_CHARACTERS = 120
# A sentence of so many words is to stand in one place.
LONG = 12
# What stands on a page by the limits of the code and of scripts. A number stands there as text, with commas.
LIMITS = {
    README: [
        "{MOST_PLAIN_CELLS} cells in a rectangle, a triangle or a hexagon",
        "{MOST_CELLS} in a board of another shape",
        "{MOST_COLOURS} colours, {MOST_ARRANGEMENTS} listed arrangements, {MOST_SYMMETRIES} symmetries",
        "{MOST_LEMMAS} lemmas",
    ],
    "docs/FORMATS.md": [
        "| cells and tiles, each numbered from 0 | up to {MOST_PLAIN_CELLS} | up to {MOST_CELLS} |",
        "| entries of `border each` | 400 | {MOST_RULES} |",
        "| children of a branch | 400 | {MOST_CHILDREN} |",
        "| levels of a tree | 101 | {MOST_LEVELS} |",
        "{MOST_COLOURS} colours, one character each",
        "at most {MOST_PLACES} places and {MOST_CELLS} cells",
        "0 to {MOST_SYMMETRIES}, and M lines `lemma`, 0 to {MOST_LEMMAS}",
        "(over {MOST_BYTES} bytes)",
        "`items N of {MOST_ENTRIES:d}`",
    ],
    CONTRIBUTING: [
        "Lines have at most {MOST_CHARACTERS} characters",
        "So there are at most {MOST_IN_THE_GATE} in",
    ],
    DECISIONS: ["At most {MOST_IN_THE_GATE} must-fail edits stand in the gate"],
    PROVED: ["1 to {MOST_WORKERS} workers and 0 to {MOST_FORKS} forks", "over {MOST_ENTRIES} items"],
    "docs/MACHINE.md": ["1 to {MOST_WORKERS} workers and 1 to {MOST_WORKERS} queues"],
    "docs/SOLVING.md": ["(over {MOST_ENTRIES} items)", "(over {MOST_ARRANGEMENTS} to be listed)"],
    "crates/match_limits/README.md": ["`MOST_CELLS` ({MOST_CELLS})", "`MOST_PLAIN_CELLS` ({MOST_PLAIN_CELLS})"],
    "crates/giving_crew/README.md": ["At most {MOST_GIVEN} jobs are given by a job"],
    "crates/system_files/README.md": ["tried {MOST_TRIES} times"],
    "crates/cert_check/README.md": ["a tree of under {LEAST_FORKED} nodes"],
    "crates/cert_text/README.md": ["Below {LEAST_NODES} nodes the caller"],
    "crates/count_search/README.md": ["at most {MOST_BRANCHES} branches"],
    "crates/solver/README.md": [
        "at most {MOST_PLANNED} branches",
        "At most {MOST_PLANS} items",
        "under {FEW_NODES} nodes",
        "after {LONG} children",
    ],
}
# What two places say: whether only roughly, and of each the page and a pattern of the number.
TOLD_TWICE = [
    (True, (CONTRIBUTING, r"it took (\d+) minutes of"), (README, r"takes some ([\w ]+) of processor time, or")),
    (True, (CONTRIBUTING, r"time and (\d+) of wall time"), (README, r"somewhat over ([\w ]+) on four processors")),
    (True, (CONTRIBUTING, r"\| proofs \| (\d+) \|"), (README, r"first time it takes some ([\w ]+) of processor time")),
    (False, (CONTRIBUTING, r"Each takes up to (\d+) GB"), (README, r"each takes up to (\d+) GB")),
    (False, (CONTRIBUTING, r"Each takes up to (\d+) GB"), ("Makefile", r"Each takes up to (\d+) GB")),
    (False, (CONTRIBUTING, r"some (\d+) seconds of processor time for"), (DECISIONS, r"some (\d+) seconds to prove")),
    (False, (MEASURED, r"at most ([\d.]+) microseconds"), (README, r"A check takes ([\d.]+) microseconds")),
    (False, (MEASURED, r"microseconds, or ([\d.]+) on 256"), (README, r"at worst, or ([\d.]+) on 256")),
    (False, (MEASURED, r"at most (\d+) bytes"), (README, r"of memory a byte, and (\d+) at worst")),
    (False, ("docs/GALLERY.md", r"macmahon_squares\) \| `[^`]*` \| ([\d,]+)"), (README, r"There are ([\d,]+) ways")),
]
TIMES = {"half an hour": 30, "an hour": 60, "two hours": 120, "three hours": 180}
# Where paths begin that are looked at, beside crates.
FOLDERS = ["src", "specs", "proofs", "crates", "scripts", "cases", "docs", "web"]
# What is of the kit alone.
OF_THE_KIT = {"atomic_blocks", "crossbeam_queue", "RandomState"}
# The pages whose names are those of the code, beside those of the crates.
OF_THE_CODE = [ARCHITECTURE, DECISIONS, PROVED, "docs/MACHINE.md"]

# The heading of the calls that the program doesn't make.
TEST_CALLS = "Calls that only tests make"
KINDS = "must-fail", "further-edits"
CONSTANT = re.compile(r"^(?:pub(?:\(crate\))? )?const (\w+): \w+ = ([\w ]+(?: [-+*<]+ [\w ]+)?);$", re.M)
SIGNS = {"+": operator.add, "-": operator.sub, "*": operator.mul, "<<": operator.lshift}
LINK = re.compile(r"\]\(([^)\s]+)\)|(?:src|href)=\"([^\"]+)\"")
FENCED = re.compile(r"^```.*?^```$", re.M | re.S)
QUOTED = re.compile(r"^```\n// (\S+), (\w+)\n(.*?)^```$", re.M | re.S)
SPAN = re.compile(r"`([^`\n]+(?:\n[^`\n]+)?)`")
CALL = re.compile(r"(?:^|[ /(])edgematch ([a-z]+)((?: [^\s`|>)]+)*)")
PATH = re.compile(r"[\w.-]+(?:/[\w.-]+)+|[\w-]+\.(?:rt|antt|py|toml|md|txt)")
WORD = re.compile(r"[A-Za-z_][A-Za-z0-9_']*")
COUNTS = re.compile(r"\d+ crates, \d+ cases, \d+ edits in the gate and \d+ beside it")
END = re.compile(r"(?<=[.!?])[\"'*)]*\s+(?=[\"'*(\[]*[A-Z0-9`])")


@functools.cache
def text_of(path):
    with open(os.path.join(TOP, path), encoding="utf-8") as file:
        return file.read()


def is_there(path):
    return os.path.exists(os.path.join(TOP, path))


def found(pattern):
    """The files that a pattern names, by their paths from the top."""
    return sorted(glob.glob(pattern, root_dir=TOP, recursive=True, include_hidden=True))


@functools.cache
def all_below():
    """The crates in the order of crates.txt, each with all that it stands on, libraries of the kit too."""
    lines = [line.split("#")[0].split(":") for line in text_of("crates.txt").splitlines()]
    return {of.split()[0]: "".join(on).split() for of, *on in lines if of.strip()}


@functools.cache
def crates():
    """The same, each with those that it stands on of the project alone."""
    return {name: [it for it in on if it in all_below()] for name, on in all_below().items()}


def libraries():
    """The libraries of the kit that crates stand on."""
    return {it for on in all_below().values() for it in on} - {*crates()}


def below(crate):
    """All crates that a crate stands on, also by others."""
    return {under for it in crates()[crate] for under in {it} | below(it)}


def page_of(crate):
    return f"crates/{crate}/README.md"


@functools.cache
def pages():
    named = [README, CONTRIBUTING, "CHANGELOG.md", "cases/README.md", "web/README.md", *found("docs/*.md")]
    return [*named, *filter(is_there, map(page_of, crates()))]


def plain(text):
    """A text in one line, without the marks of a quotation."""
    return " ".join(re.sub(r"^> ?", "", text, flags=re.M).split())


# ---- crates


def page_faults():
    """What is wrong with a crate's page: it is missing, lacks its name, or names a crate that this one doesn't use."""
    for crate in crates():
        if not is_there(page_of(crate)):
            yield f"crates/{crate} has no README.md"
            continue
        lines = text_of(page_of(crate)).splitlines()
        if lines[0] != f"# `{crate}`":
            yield f"{page_of(crate)} begins with another line than # `{crate}`"
        named = set(SPAN.findall(text_of(page_of(crate)).split("\n## ")[0])) & {*crates()}
        yield from (f"{page_of(crate)}: it doesn't stand on {it}" for it in sorted(named - below(crate) - {crate}))


def layer_faults():
    """What the picture and the table of the layers say otherwise than crates.txt."""
    page = text_of(ARCHITECTURE)
    rows = [line.split() for line in page.split("```")[1].splitlines() if re.match(r" +\d ", line)]
    row_of = {crate: int(row[0]) for row in rows for crate in row[1:]}
    for crate, row in row_of.items():
        lower = [it for it in crates().get(crate, []) if row_of.get(it, row) < row]
        yield from (f"{crate} stands no higher than {it}" for it in crates().get(crate, []) if it not in lower)
    told = re.findall(r"\[`(\w+)`\]\(\.\./crates/\1/README\.md\)", page)
    yield from (f"the page has {it} {told.count(it)} times" for it in crates() if told.count(it) not in (1, 2))
    drawn = {*row_of} - {*crates()} | {it for it in re.findall(r"^\| \[`(\w+)`", page, re.M)} ^ {*row_of}
    yield from (f"{it} stands in the picture or in the table alone" for it in sorted(drawn))


def trust_faults():
    """The libraries of the kit that the page leaves out of what is trusted."""
    named = {*SPAN.findall(section_of(PROVED, "What is trusted"))}
    yield from (f"{PROVED}: what is trusted leaves out {it}" for it in sorted(libraries() - named))


# ---- calls


def section_of(page, heading):
    """What stands on a page below a heading."""
    return text_of(page).split(f"\n## {heading}\n")[1].split("\n## ")[0]


@functools.cache
def code_of(crate):
    """The code of a crate, without its comments."""
    return "\n".join(re.sub(r"//.*", "", text_of(it)) for it in found(f"crates/{crate}/src/**/*.rt"))


def carrier_faults():
    """The runs of which the page promises something and that the program doesn't make, and those that it leaves out."""
    told = {it for it in SPAN.findall(text_of(PROVED).replace("::", "` `")) if it.startswith("run_")}
    runs = {it for it in SPAN.findall(section_of(PROVED, "Runs")) if it.startswith("run_")}
    made = {*re.findall(r"\brun_\w+", code_of("command_orders"))}
    yield from (f"{PROVED}: the program makes no {it}" for it in sorted(runs - made))
    yield from (f"{PROVED} leaves out {it}" for it in sorted(made - told))


def test_call_faults():
    """The calls that only tests make by the page and that the program makes, and those that the page leaves out; of
    names that one function alone has."""
    code = {crate: code_of(crate) for crate in crates() if not crate.startswith("test_")}
    defined = collections.Counter(name for it in code.values() for name in re.findall(r"\bfn (\w+)", it))
    told = {*SPAN.findall(section_of(ARCHITECTURE, TEST_CALLS))} - {*crates(), "read_line"}
    told = {it for it in told if "::" in it or defined[it] == 1}
    for crate, text in code.items():
        called = {*re.findall(r"(?<!fn )\b((?:\w+::)?\w+)\(", text)}
        yield from (f"{ARCHITECTURE}: {crate} calls {it}" for it in sorted(told & (called | {*plain_names(called)})))
    # What has no result is a law.
    whole = re.sub(r"\buse [^;]*;", "", "\n".join(code.values()))
    public = re.findall(r"\bpub fn (\w+)[^{;]*?\) ->", whole)
    named = collections.Counter(re.findall(r"\w+", whole))
    told = {*re.findall(r"\w+", section_of(ARCHITECTURE, TEST_CALLS))}
    left = (it for it in public if named[it] == 1 and it not in told)
    yield from (f"{ARCHITECTURE}: nothing calls {it}, and the page leaves it out" for it in sorted(left))


def plain_names(called):
    """Of calls those without what stands before `::`."""
    return (it.split("::")[-1] for it in called)


# ---- quotations and names


def item_of(path, name):
    """The lines of a function of a file, laid out from its own margin."""
    begins = re.compile(rf"^( *)(?:pub(?:\(\w+\))? )?fn {name}\b.*?^\1\}}$", re.M | re.S)
    item = begins.search(text_of(path))
    return item and re.sub(rf"^{item[1]}", "", item[0], flags=re.M)


def stands_in(lines, item):
    """Whether the lines stand in an item, one behind the other, but for what `..` stands for."""
    at = 0
    for part in "\n".join(lines).split("\n..\n"):
        margins = {len(it) - len(it.lstrip()) for it in item.split("\n")}
        places = [item.find("\n" + textwrap.indent(part, " " * margin) + "\n", at) for margin in sorted(margins)]
        at = min((place for place in places if place >= 0), default=-1)
        if at < 0:
            return False
    return True


def quotation_faults():
    """The quotations that don't stand in their functions."""
    for page in pages():
        for file, name, said in QUOTED.findall(text_of(page)):
            item = item_of(f"crates/{file}", name) if is_there(f"crates/{file}") else None
            if not item or not stands_in(said.rstrip("\n").split("\n"), item):
                yield f"{page}: {name} of {file} has no such lines"


@functools.cache
def known_words():
    """The words of the code, of its definitions and proofs, and of cases, with the names of all files."""
    files = [it for kind in ("src", "specs", "proofs") for it in found(f"crates/*/{kind}/**/*.*")]
    files += found("cases/*.toml") + ["crates.txt", MANUAL]
    words = {word for it in files for word in re.findall(r"[\w']+", text_of(it))}
    named = files + [it for kind in ("crates/*/*", "scripts/*", "examples/*", "docs/*", "*") for it in found(kind)]
    return words | OF_THE_KIT | {os.path.splitext(part)[0] for it in named for part in it.split("/")}


def spans_of(page):
    """What a page has between backticks, in one line each."""
    return {plain(it) for it in SPAN.findall(FENCED.sub("", text_of(page)))}


def name_faults():
    """The names of the code that there aren't."""
    for page in [*OF_THE_CODE, *filter(is_there, map(page_of, crates()))]:
        for span in sorted(spans_of(page)):
            words = {it for it in WORD.findall(PATH.sub("", span)) if len(it) > 2}
            yield from (f"{page}: there is no {it}, as in `{span}`" for it in sorted(words - known_words()))


def path_faults():
    """The paths that lead nowhere: from the top, from crates, or in a crate."""
    for page in pages():
        folders = ["", "crates/", page.removesuffix("README.md")]
        for path in sorted({it for span in spans_of(page) for it in PATH.findall(span)}):
            # What stands in a folder out/ was built, and isn't there in a fresh checkout.
            if path.split("/")[0] not in {*FOLDERS, *crates()} or re.search("NAME|MODULE|/out/", path):
                continue
            if not any(is_there(folder + path) for folder in folders) and not found(f"crates/*/{path}"):
                yield f"{page}: there is no {path}"


# ---- commands, limits, links


@functools.cache
def manual():
    """The commands of the manual page, each with its options. It is made from the program's help."""
    text = text_of(MANUAL).replace("\\-", "-").split(".SH COMMANDS\n")[1].split("\n.SH ")[0]
    parts = re.split(r"^\.SS (\w+)\n", text, flags=re.M)[1:]
    return {name: re.findall(r"^\.TP\n\\fB(--\w+)", part, re.M) for name, part in zip(parts[::2], parts[1::2])}


def command_faults():
    """The commands and options that a page calls and that there aren't, and those that the README leaves out."""
    for page in pages():
        code = [*spans_of(page), *(line for it in FENCED.findall(text_of(page)) for line in it.split("\n"))]
        for command, words in sorted({call for it in code for call in CALL.findall(it)}):
            options = [it.split("=")[0] for it in words.split() if it.startswith("--") and it != "--help"]
            if command not in manual():
                yield f"{page}: there is no command {command}"
            else:
                yield from (f"{page}: {command} has no {it}" for it in options if it not in manual()[command])
    table = text_of(README).split("| Command | ")[1].split("\n\n")[0]
    differ = {*re.findall(r"^\| `([a-z]+)[ `]", table, re.M)} ^ {*manual()} - {"help"}
    yield from (f"{README}: its table of commands and {MANUAL} differ in {it}" for it in sorted(differ))


@functools.cache
def constants(folder):
    """The numbers that the code below a folder declares as constants, by their names."""
    values = {}
    for name, said in (constant for path in found(f"{folder}/**/*.rt") for constant in CONSTANT.findall(text_of(path))):
        words = re.sub(r" as \w+", "", said).split()
        if all(word in values or word[0].isdigit() for word in words[::2]):
            numbers = [values[word] if word in values else int(word, 0) for word in words[::2]]
            values[name] = SIGNS[words[1]](*numbers) if words[1:] else numbers[0]
    return values


def limits(page):
    """The limits of the code and of scripts, and for a crate's page the numbers of the crate, by their names."""
    of_scripts = {name: value for name, value in globals().items() if name.startswith("MOST_")}
    return of_scripts | constants("crates/match_limits/src") | constants(os.path.join(os.path.dirname(page), "src"))


def limit_faults():
    """The sentences on limits that don't stand on their pages."""
    for page, sentences in LIMITS.items():
        for sentence in sentences:
            wanted = re.sub(r"\{(\w+)\}", r"{\1:,}", sentence).format(**limits(page))
            if wanted not in plain(text_of(page)):
                yield f"{page} doesn't say: {wanted}"


def anchors(path):
    """What a link into a page may name: its headings."""
    heads = re.findall(r"^#+ (.*)$", FENCED.sub("", text_of(path)), re.M)
    return {re.sub(r"[^\w -]", "", it.lower()).replace(" ", "-") for it in heads}


def link_faults():
    """The links that lead nowhere, and the pages to which the README doesn't lead."""
    for page in pages():
        for link in {"".join(it) for it in LINK.findall(text_of(page))}:
            path, _, anchor = link.partition("#")
            whole = os.path.normpath(os.path.join(os.path.dirname(page), path)) if path else page
            if "://" not in link and (not is_there(whole) or anchor and anchor not in anchors(whole)):
                yield f"{page} leads to {link}, which isn't there"
    led = {README, *(it[0] for it in LINK.findall(text_of(README)))}
    left = (it for it in pages() if it not in led and not it.startswith("crates/"))
    yield from (f"{README} doesn't lead to {it}" for it in left)


# ---- counts and sizes


def counts():
    """The sentence of CONTRIBUTING.md that counts."""
    cases = sum(len(tomllib.loads(text_of(it))) for it in found("cases/*.toml"))
    gate, beside = (sum(len(edits_in(os.path.join(TOP, it))) for it in found(f"crates/*/{kind}")) for kind in KINDS)
    return f"{len(crates())} crates, {cases} cases, {gate} edits in the gate and {beside} beside it"


def count_faults():
    """The counts that are stale, the parts of the gate that the page leaves out, and the line of the kit."""
    page = text_of(CONTRIBUTING)
    if counts() not in plain(page):
        yield f"{CONTRIBUTING} doesn't say: {counts()}"
    parts = re.findall(r'^part "([^"]+)"', text_of(GATE), re.M)
    table = re.findall(r"^\| ([^|]+) \|", page.split("| Part | ")[1].split("\n\n")[0], re.M)
    if table != parts:
        yield f"{CONTRIBUTING} has the parts {table}, and the gate {parts}"
    kit = re.search(r"rattle-kit-\w+ logic \w+", text_of("crates/command_words/src/commands.rt"))
    for path in (README, PROVED):
        if not kit or kit[0] not in plain(text_of(path)):
            yield f"{path} doesn't name the kit of --version, {kit and kit[0]}"
    puzzles = len(found("examples/gallery/*"))
    rows = len(re.findall(r"^\| \[", text_of("docs/GALLERY.md"), re.M))
    if rows != puzzles or f"{puzzles - 1} puzzles more" not in plain(text_of(README)):
        yield f"docs/GALLERY.md has {rows} rows for {puzzles} puzzles, or {README} not: {puzzles - 1} puzzles more"


def number_in(page, pattern):
    """The number that a pattern finds on a page, in minutes where it is a time; None where there is none."""
    said = re.search(pattern, plain(text_of(page)))
    return said and (TIMES.get(said[1]) or float(said[1].replace(",", "").removesuffix(" minutes")))


def agreement_faults():
    """The numbers that two places say and that differ, and the parts of the gate's time that aren't its sum."""
    for roughly, *places in TOLD_TWICE:
        one, other = (number_in(*it) for it in places)
        if None in (one, other) or abs(one - other) > (one / 6 if roughly else 0):
            yield f"{places[0][0]} has {one}, and {places[1][0]} {other}: {places[1][1]}"
    table = text_of(CONTRIBUTING).split("| Of the ")[1].split("\n\n")[0]
    minutes = sum(map(int, re.findall(r"\| (\d+) \|$", table, re.M)))
    if not table.startswith(f"{minutes} ") or f"it took {minutes} minutes" not in plain(text_of(CONTRIBUTING)):
        yield f"{CONTRIBUTING}: the parts of the gate's time are {minutes} minutes"


def key_faults():
    """The keys of cases that the page leaves out, and those that there aren't."""
    page = text_of("cases/README.md")
    told = {it for row in re.findall(r"^\| (`.*?) \|", page, re.M) for it in re.findall(r"`([\w.]+)`", row)}
    keys = TEXTS | CHECKED | ORDERED | SOLVED
    yield from (f"cases/README.md: there is no key {it}" for it in sorted(told - keys))
    ends = {f"..{it}" for it in re.findall(r"`\.\.(_\w+)`", page)}
    left = keys - {span.split()[0] for span in SPAN.findall(page)}
    left = (it for it in left if re.sub(r"^std(?:out|err)(?=_)", "..", it) not in ends)
    yield from (f"cases/README.md leaves out the key {it}" for it in sorted(left))


# ---- prose


def layout_faults():
    """The lines of prose that are too long, and where two empty lines follow each other."""
    for page in pages():
        lines = FENCED.sub("```", text_of(page)).split("\n")
        for before, line in zip(lines, lines[1:]):
            if not before and not line:
                yield f"{page}: two empty lines follow each other"
            if len(line) > MOST_CHARACTERS and not line.startswith(("|", "<")):
                yield f"{page}: {len(line)} characters: {line[:90]}"


def blocks_of(page):
    """The paragraphs, members of lists and cells of tables of a page."""
    text = re.sub(r"<[^>]*>", "", FENCED.sub("", text_of(page)))
    text = re.sub(r"\[([^\]]*)\]\([^)\s]*\)", r"\1", re.sub(r"^> ?", "", text, flags=re.M))
    for part in re.split(r"\n\s*\n|\n(?=\s*(?:[-*]|\d+\.) )|\n(?=[|#])", text):
        if part.startswith("|"):
            yield from part.replace("\\|", " ").split("|")
        elif not part.startswith("#"):
            yield re.sub(r"^\s*(?:[-*]|\d+\.) ", "", part)


def sentences_of(page):
    """The sentences of a page, each in one line."""
    for block in blocks_of(page):
        yield from filter(None, END.split(plain(block)))


def words_of(sentence):
    """How many words a sentence has. What stands between backticks is one."""
    return sum(any(map(str.isalnum, it)) for it in SPAN.sub("code", sentence).split())


def repetition_faults():
    """The long sentences that stand in two places."""
    places = collections.defaultdict(list)
    for page in pages():
        for sentence in sentences_of(page):
            if words_of(sentence) >= LONG:
                places[re.sub(r"\W+", " ", sentence.lower())].append(page)
    yield from (f"{', '.join(of)}: twice: {said[:90]}" for said, of in places.items() if len(of) > 1)


PARTS = [
    page_faults, layer_faults, trust_faults, carrier_faults, test_call_faults, quotation_faults, name_faults,
    path_faults, command_faults, limit_faults, link_faults, count_faults, agreement_faults, key_faults, layout_faults,
    repetition_faults,
]


def write():
    made = COUNTS.sub(counts(), text_of(CONTRIBUTING))
    with open(os.path.join(TOP, CONTRIBUTING), "w", encoding="utf-8") as file:
        file.write(made)
    text_of.cache_clear()


def main():
    parser = argparse.ArgumentParser(description=__doc__, formatter_class=argparse.RawDescriptionHelpFormatter)
    parser.add_argument("--write", action="store_true")
    if parser.parse_args().write:
        write()
    failed = 0
    for part in PARTS:
        faults = list(part())
        failed += bool(faults)
        for it in faults:
            print(it)
    print(f"{len(PARTS) - failed} passed, {failed} failed")
    return 1 if failed else 0


if __name__ == "__main__":
    sys.exit(main())
