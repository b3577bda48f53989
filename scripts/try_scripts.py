#!/usr/bin/env python3
"""Tries the scripts and the Makefile as somebody calls them who doesn't know them: for help, with wrong words, and from
another folder.

It needs no program: a copy of the project installs and packs a stand-in. Each link of a page of the archive has to lead
to a file of it, each target has to say what it misses, and what is wrong with a page has to be told. It takes seconds,
and ends with 0 where all is as wanted, else with 1.
"""
import argparse
import concurrent.futures
import filecmp
import os
import re
import shutil
import subprocess
import sys
import tempfile

HERE = os.path.dirname(os.path.abspath(__file__))
TOP = os.path.dirname(HERE)
PROGRAM = "crates/edgematch/out/edgematch"
WEB_FILES = ["check.html", "check.js", "cli.js"]
TARGETS = ["build", "run", "test", "docs", "install", "uninstall", "package", "help"]
LINK = re.compile(r"\]\(([^)\s#]+)[^)\s]*\)|(?:src|href)=\"([^\"#]+)")
# A stand-in for the program: its version, and empty texts of a solve.
STAND_IN = """#!/bin/sh
case $1 in
  --version) echo "edgematch 0.0.0" ;;
  solve) : >"$3" && : >"$4" ;;
esac
"""
AGAIN = "This sentence has more than a dozen words, and stands in two places for no reason."
# What is done to a page, or to what it speaks of: a text in the place of another, or behind all; and what is told then.
WRONG_PAGES = [
    ("crates/match_report/README.md", "# `match_report`", "# `match_reports`", "begins with another line"),
    ("docs/ARCHITECTURE.md", "\n  9  ", "\n  0  ", "edgematch stands no higher than command_orders"),
    ("docs/PROVED.md", "`sha2`", "`sha3`", "docs/PROVED.md: what is trusted leaves out sha2"),
    ("docs/PROVED.md", "(`run_tiles`)", "(`run_check`)", "docs/PROVED.md: the program makes no run_check"),
    ("docs/ARCHITECTURE.md", "`SearchOver::run`", "`SearchOver::new`", "solver calls SearchOver::new"),
    ("crates/match_text/README.md", "let list = ", "let lists = ", "list_again of test_samples/src/writings.rt"),
    ("crates/show_text/README.md", "`write_facts`", "`write_fax`", "there is no write_fax, "),
    ("docs/ARCHITECTURE.md", "`cert_tree/src/nodes.rt`", "`cert_tree/src/node.rt`", "no cert_tree/src/node.rt"),
    ("README.md", "| `symmetries PUZZLE`", "| `symmetry PUZZLE`", "differ in symmetry"),
    ("crates/match_limits/src/lib.rt", "MOST_COLOURS: u8 = 36", "MOST_COLOURS: u8 = 35", "doesn't say: 35 colours"),
    ("README.md", "(docs/LARGE.md)", "(docs/LARGER.md)", "leads to docs/LARGER.md, which isn't there"),
    (".ci/run", 'part "pages"', 'part "leaves"', "CONTRIBUTING.md has the parts"),
    ("docs/MEASURED.md", "at most 20 bytes", "at most 21 bytes", "docs/MEASURED.md has 21.0, and README.md 20.0"),
    ("cases/README.md", "| `deep` |", "| `deeps` |", "cases/README.md: there is no key deeps"),
    ("docs/BY_HAND.md", None, f"\n\n{121 * 'w'}\n", "empty lines follow each other\ndocs/BY_HAND.md: 121 characters"),
    ("docs/LARGE.md", None, f"\n{AGAIN}\n\n{AGAIN}\n", "docs/LARGE.md, docs/LARGE.md: twice: this sentence"),
]


def scripts():
    """The scripts, by their names."""
    names = (it for it in os.listdir(HERE) if os.path.isfile(os.path.join(HERE, it)))
    return sorted(it for it in names if it.endswith((".py", ".sh")))


def called(folder, path, *words):
    """What comes of a script that is called in this folder."""
    start = [sys.executable, path] if path.endswith(".py") else [path]
    return subprocess.run([*start, *words], cwd=folder, capture_output=True, text=True, check=False)


def helps(name):
    """What isn't as wanted where a script is asked for help, and where its words are wrong."""
    path = os.path.join(HERE, name)
    run = called("/", path, "--help")
    if (run.returncode, run.stderr) != (0, "") or "usage: " not in run.stdout:
        yield f"--help: status {run.returncode}, {run.stdout[-80:]!r} {run.stderr[-80:]!r}"
    run = called("/", path, "--no-such-word")
    if (run.returncode, run.stdout) != (2, "") or not run.stderr or "Traceback" in run.stderr:
        yield f"--no-such-word: status {run.returncode}, {run.stdout[-80:]!r} {run.stderr[-80:]!r}"


def copy_of_the_top(folder):
    """A copy of what is installed and packed, with a stand-in for the program."""
    top = os.path.join(folder, "the top")
    for name in ("scripts", "docs", "completions", "examples", "web"):
        shutil.copytree(os.path.join(TOP, name), os.path.join(top, name))
    for name in ("CHANGELOG.md", "Makefile"):
        shutil.copy(os.path.join(TOP, name), top)
    program = os.path.join(top, PROGRAM)
    os.makedirs(os.path.dirname(program))
    with open(program, "w", encoding="ascii") as file:
        file.write(STAND_IN)
    os.chmod(program, 0o755)
    return top


def made(top, *words, path=os.environ["PATH"]):
    """What comes of a make in the folder of a copy that is called from another one."""
    names = {name: value for name, value in os.environ.items() if name not in ("MAKEFLAGS", "MAKELEVEL")}
    start = [shutil.which("make") or "make", "--no-print-directory", "-C", top, *words]
    return subprocess.run(start, cwd="/", env=names | {"PATH": path}, capture_output=True, text=True, check=False)


def files_in(folder):
    return sorted(os.path.join(where, it) for where, _, names in os.walk(folder) for it in names)


def changed(path, old, new):
    """Puts a text in the place of another one in a file, or behind all."""
    with open(path, encoding="utf-8") as file:
        text = file.read()
    with open(path, "w", encoding="utf-8") as file:
        file.write(text + new if old is None else text.replace(old, new, 1))


def tells_what_is_wrong(_, folder):
    """What isn't told of pages that are wrong in each way."""
    top = os.path.join(folder, "wrong pages")
    shutil.copytree(TOP, top, ignore=shutil.ignore_patterns(".git", "out", "__pycache__"))
    for path, old, new, _ in WRONG_PAGES:
        changed(os.path.join(top, path), old, new)
    run = called("/", os.path.join(top, "scripts/page_facts.py"))
    if run.returncode != 1 or not run.stdout.endswith(f"\n0 passed, {len(WRONG_PAGES)} failed\n"):
        yield f"wrong pages: status {run.returncode}, {run.stdout[-80:]!r} {run.stderr[-80:]!r}"
    yield from (f"it isn't told: {said}" for _, _, _, said in WRONG_PAGES if said not in run.stdout)


def installs(top, folder):
    """What isn't as wanted of a program that is installed over an old one, and taken away."""
    where = [f"DESTDIR={folder}/for another", "PREFIX=/to here"]
    root = os.path.join(folder, "for another/to here")
    os.makedirs(os.path.join(root, "bin"))
    for name in ("own", "edgematch"):
        with open(os.path.join(root, "bin", name), "w", encoding="ascii"):
            pass
    run = made(top, "install", *where)
    modes = {os.path.relpath(it, root): os.stat(it).st_mode & 0o777 for it in files_in(root)}
    executable = [it for it, mode in modes.items() if mode == 0o755]
    if run.returncode != 0 or len(modes) != 8 or executable != ["bin/edgematch"]:
        yield f"install: status {run.returncode}, {modes} {run.stderr}"
    run = made(top, "uninstall", *where)
    left = [os.path.relpath(it, root) for it in files_in(root)]
    if (run.returncode, left) != (0, ["bin/own"]) or os.path.exists(os.path.join(root, "share/doc/edgematch")):
        yield f"uninstall: status {run.returncode}, {left} are left {run.stderr}"


def misses(top, folder):
    """The targets that don't say in a line what they miss: `rt` on the path, a program, a folder."""
    tools = os.path.join(folder, "tools")
    os.mkdir(tools)
    os.symlink(shutil.which("bash"), os.path.join(tools, "bash"))
    bare = os.path.join(folder, "nothing built")
    os.mkdir(bare)
    shutil.copy(os.path.join(TOP, "Makefile"), bare)
    tried = [(bare, [name], tools, "rt isn't on the path") for name in ("build", "run", "test")]
    tried += [(bare, [name], os.environ["PATH"], f"there is no {PROGRAM}") for name in ("docs", "install", "package")]
    tried += [(top, ["package", f"FOLDER={folder}/none"], os.environ["PATH"], "there is no folder")]
    for where, words, path, said in tried:
        run = made(where, *words, path=path)
        if run.returncode != 2 or run.stdout or not run.stderr.startswith(f"make {words[0]}: {said}"):
            yield f"{' '.join(words)}: status {run.returncode}, {run.stdout!r} {run.stderr!r}"
    told = re.findall(r"^make (\w+)  ", made(bare, "help").stdout, re.MULTILINE)
    if told != TARGETS:
        yield f"help: {told}"


def packs(top, folder):
    """What isn't as wanted of an archive, and the links of its pages that lead nowhere."""
    os.mkdir(os.path.join(folder, "in here"))
    run = made(top, "package", f"FOLDER={folder}/in here")
    found = files_in(os.path.join(folder, "in here"))
    if run.returncode != 0 or len(found) != 1 or os.path.basename(found[0]) not in run.stdout:
        yield f"package: status {run.returncode}, {found} {run.stdout} {run.stderr}"
        return
    unpacked = os.path.join(folder, "unpacked")
    os.mkdir(unpacked)
    subprocess.run(["tar", "-xzf", found[0], "-C", unpacked], check=True)
    for page in files_in(unpacked):
        if page.endswith(".md"):
            yield from (f"{os.path.basename(page)} leads to {link}, which isn't there" for link in dead_links(page))
    (root,) = os.listdir(unpacked)
    yield from second_checker_in(os.path.join(unpacked, root))


def second_checker_in(root):
    """What isn't as wanted of an archive for who can't run the program: its README begins with the page, which is there
    as the sources have it, beside the checker for node; and where there is node, that checks an example."""
    with open(os.path.join(root, "README.md"), encoding="utf-8") as file:
        text = file.read()
    if not 0 < text.find("`web/check.html`") < text.find("bin/edgematch"):
        yield "the README of the archive doesn't begin with web/check.html"
    web = os.path.join(root, "web")
    if (names := [os.path.relpath(it, web) for it in files_in(web)]) != ["README.md", *WEB_FILES]:
        yield f"web has {names}"
        return
    for name in WEB_FILES:
        if not filecmp.cmp(os.path.join(web, name), os.path.join(TOP, "web", name), shallow=False):
            yield f"web/{name} isn't that of the sources"
    example = [os.path.join(root, "examples/square_of_four", it) for it in ("puzzle", "list", "certificate")]
    if node := shutil.which("node"):
        run = subprocess.run([node, os.path.join(web, "cli.js"), *example], capture_output=True, text=True, check=False)
        if (run.returncode, run.stdout, run.stderr) != (0, "complete 1\n", ""):
            yield f"web/cli.js: status {run.returncode}, {run.stdout!r} {run.stderr!r}"


def dead_links(page):
    """The links of a page to files that aren't there."""
    with open(page, encoding="utf-8") as file:
        links = ("".join(both) for both in LINK.findall(file.read()))
    whole = {it: os.path.join(os.path.dirname(page), it) for it in links if "://" not in it}
    return [link for link, path in whole.items() if not os.path.exists(path)]


def main():
    argparse.ArgumentParser(description=__doc__, formatter_class=argparse.RawDescriptionHelpFormatter).parse_args()
    with tempfile.TemporaryDirectory() as folder, concurrent.futures.ThreadPoolExecutor() as pool:
        top = copy_of_the_top(folder)
        tried = [pool.submit(list, helps(name)) for name in scripts()]
        tried += [pool.submit(list, kind(top, folder)) for kind in (installs, misses, packs, tells_what_is_wrong)]
        names, wrong = [*scripts(), *3 * ["Makefile"], "page_facts.py"], [it.result() for it in tried]
    for name, faults in zip(names, wrong):
        for fault in faults:
            print(f"{name}: {fault}")
    failed = sum(map(bool, wrong))
    print(f"{len(wrong) - failed} passed, {failed} failed")
    return 1 if failed else 0


if __name__ == "__main__":
    sys.exit(main())
