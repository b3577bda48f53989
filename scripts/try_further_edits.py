#!/usr/bin/env python3
"""The further must-fail edits: those in `crates/NAME/further-edits/`, which `rt ci` doesn't read.

By itself it proves nothing: it says which edits no longer apply, the further ones and those of the gate, since each old
text has to stand just once in its file. With names of crates, or with --all, it also tries their further edits: each
has to be refused by the prover. That is done on a copy, by `rt must-fail`, with the edits in the place of those of the
gate, one after the other, and over the libraries that were built here (by `make`, say): what isn't built is built
first, which takes long. An edit takes half a minute to two minutes of processor time. It ends with 0 where all is as it
should be.
"""
import argparse
import os
import re
import shutil
import subprocess
import sys
import tempfile

TOP = os.path.join(os.path.dirname(os.path.abspath(__file__)), "..")
CRATES = os.path.join(TOP, "crates")
# The most edits that the gate tries: each takes half a minute or more.
MOST_IN_THE_GATE = 70


def edits_in(folder):
    """The edits in a folder, by their names."""
    if not os.path.isdir(folder):
        return []
    return sorted(os.path.join(folder, it) for it in os.listdir(folder) if it.endswith(".edit"))


def wrong_with(edit, crate):
    """Why an edit of a crate doesn't apply, or None where it does."""
    path, old, texts = None, None, {}
    with open(edit, encoding="utf-8") as file:
        lines = file.read().splitlines()
    for line in lines:
        kind, _, text = line.partition(": ")
        if kind == "file":
            path = os.path.join(CRATES, crate, text.strip())
            if not os.path.isfile(path):
                return f"there is no file {text.strip()}"
        elif kind == "old":
            old = text
        elif kind == "new" or line == "new:":
            if path is None or old is None:
                return "a line 'new:' stands before any 'file:' or 'old:'"
            if path not in texts:
                with open(path, encoding="utf-8") as file:
                    texts[path] = file.read()
            if texts[path].count(old) != 1:
                return f"{old!r} stands {texts[path].count(old)} times in its file, and not once"
            texts[path], old = texts[path].replace(old, text), None
    return None if texts else "it changes nothing"


def crates():
    return sorted(it for it in os.listdir(CRATES) if os.path.isdir(os.path.join(CRATES, it, "src")))


def look_at_all():
    """Says which edits don't apply, and whether the gate has too many; gives how many of them are wrong."""
    wrong, counts = [], {"must-fail": 0, "further-edits": 0}
    for crate in crates():
        names = []
        for kind in counts:
            for edit in edits_in(os.path.join(CRATES, crate, kind)):
                counts[kind] += 1
                name, why = os.path.basename(edit), wrong_with(edit, crate)
                if why:
                    wrong.append(f"{crate}/{kind}/{name}: {why}")
                if name in names:
                    wrong.append(f"{crate}/{kind}/{name}: there are two edits of this name")
                names.append(name)
    if counts["must-fail"] > MOST_IN_THE_GATE:
        wrong.append(f"the gate has {counts['must-fail']} edits, and {MOST_IN_THE_GATE} at most are to stand there")
    for line in wrong:
        print(line)
    print(f"{counts['must-fail']} edits in the gate, {counts['further-edits']} further ones, {len(wrong)} wrong")
    return len(wrong)


def link_or_copy(source, to):
    """Links a file, or copies it where the copy is on another disk."""
    try:
        os.link(source, to)
    except OSError:
        shutil.copy2(source, to)


def try_all(names):
    """Tries the further edits of these crates, and gives the exit status of that."""
    with tempfile.TemporaryDirectory() as copy:
        # Of what was built only the libraries are needed, and links to them do.
        ignored = shutil.ignore_patterns("must-fail", "incremental")
        shutil.copytree(CRATES, os.path.join(copy, "crates"), ignore=ignored, copy_function=link_or_copy)
        for file in ("crates.txt", "HANDLES"):
            shutil.copy(os.path.join(TOP, file), copy)
        os.mkdir(os.path.join(copy, ".git"))
        for name in names:
            folder = os.path.join(copy, "crates", name, "further-edits")
            if os.path.isdir(folder):
                os.rename(folder, os.path.join(copy, "crates", name, "must-fail"))
        ran = subprocess.Popen(["rt", "must-fail", *names], cwd=copy, stdout=subprocess.PIPE, text=True, errors="replace")
        for line in ran.stdout:
            if re.match(r"rt: (must-fail |.*(NOT PROVED|trying))|\d+ passed", line):
                print(line, end="", flush=True)
        return ran.wait()


def main():
    parser = argparse.ArgumentParser(description=__doc__, formatter_class=argparse.RawDescriptionHelpFormatter)
    parser.add_argument("names", nargs="*", metavar="NAME")
    parser.add_argument("--all", action="store_true")
    given = parser.parse_args()
    if given.all and given.names:
        parser.error("--all takes no names")
    names = crates() if given.all else given.names
    strange = sorted(set(names) - set(crates()))
    if strange:
        parser.error(f"there is no crate {strange[0]}")
    wrong = look_at_all()
    if wrong or not names:
        return 1 if wrong else 0
    return try_all(names)


if __name__ == "__main__":
    sys.exit(main())
