#!/usr/bin/env python3
"""Holds the pages of docs/pages to what `edgematch page` prints, and tries other such pages.

Each page that is stored there publishes the list of a puzzle of examples/gallery, which one worker solves as
docs/GALLERY.md says. A text that is too large to stand in its page is stored beside it, packed (ZIP). With --write all
are made anew.

Other pages are made once more here, of the fixed text that scripts/make_page.py makes of web/, and of what the program
prints by `count` and `draw` of the same files: pages with an odd title, with one picture and with several, of a list
of nothing, and from standard input. A list that is refused and a text that has a fault are answered as by `check`. It
ends with 0 where all is as wanted, else with 1.
"""
import argparse
import hashlib
import html
import io
import os
import re
import subprocess
import sys
import tempfile
import zipfile

import gallery
import make_page
from check_cases import DOCUMENTS, EXAMPLES, program_at
from gallery import PUZZLES, TOP

PAGES = os.path.join(TOP, "docs/pages")
TITLES = {"nine_cards": "Nine cards", "macmahon_squares": "MacMahon's 24 squares"}
DEFAULT_TITLE, DEFAULT_FIRST, MOST_INSIDE = "An edge-matching puzzle", 24, 4 << 20
# All files of an archive have this time, so that it is the same whenever it is made.
STAMP = (1980, 1, 1, 0, 0, 0)


def run(program, *words, given=b""):
    ended = subprocess.run([program, *words], input=given, capture_output=True)
    return ended.stdout, ended.stderr, ended.returncode


def printed(program, *words):
    """What a run prints that ends well."""
    text, told, status = run(program, *words)
    if status != 0:
        sys.exit(f"{' '.join(words)}: status {status}: {told.decode(errors='replace')}")
    return text


def contents(path):
    with open(path, "rb") as file:
        return file.read()


def put(path, text):
    with open(path, "wb") as file:
        file.write(text)


def holes(program, paths, title, first):
    """What stands in the holes of a page of these files, by other runs."""
    texts = [contents(it) for it in paths]
    counted = dict(line.split() for line in printed(program, "count", *paths).decode().splitlines())
    listed = int(texts[1].split()[3])
    drawn = [paths[1], "0"] if listed else []
    found = {it: counted[it] for it in ("arrangements", "pictures", "orbits", "symmetries")}
    found |= dict.fromkeys(("title", "heading"), html.escape(title).replace("&#x27;", "&#39;"))
    found |= dict.fromkeys(("listed", "answer"), str(listed))
    found["picture"] = printed(program, "draw", paths[0], *drawn).decode()
    found["picture-name"] = "Arrangement 0" if listed else "The puzzle: its board and its tiles"
    few = min(first, listed)
    found["sheet"] = printed(program, "draw", paths[0], paths[1], "--first", str(few)).decode() if few > 1 else ""
    for name, text in zip(DOCUMENTS, texts):
        is_inside = len(text) <= MOST_INSIDE
        found |= {f"{name}-place": "this page" if is_inside else "a file beside this page",
                  f"{name}-length": str(len(text)), f"{name}-digest": hashlib.sha256(text).hexdigest(),
                  name: text.decode("ascii") if is_inside else ""}
    return found


def page(program, paths, title=DEFAULT_TITLE, first=DEFAULT_FIRST):
    """A page of these files, made once more."""
    return make_page.published(holes(program, paths, title, first)).encode()


def solved(program, folder, name, options):
    """The files of a puzzle of the gallery, with the list and the certificate that one worker makes."""
    puzzle = os.path.join(PUZZLES, name)
    made = [os.path.join(folder, f"{name}.{it}") for it in DOCUMENTS[1:]]
    printed(program, "solve", puzzle, *made, *re.sub(r"--workers \d+", "", options).split())
    return [puzzle, *made]


# ---- what is stored


def stored_files(program, folder):
    """The files of docs/pages, by their names. An archive is told by what it packs."""
    options = {name: words for name, words, *_ in gallery.page_rows()}
    for name, title in TITLES.items():
        paths = solved(program, folder, name, options[name])
        yield f"{name}.html", printed(program, "page", *paths, "--title", title)
        for document, path in zip(DOCUMENTS, paths):
            if os.path.getsize(path) > MOST_INSIDE:
                yield f"{name}.{document}.zip", contents(path)


def packed(name, text):
    whole = io.BytesIO()
    with zipfile.ZipFile(whole, "w") as archive:
        inner = zipfile.ZipInfo(name.removesuffix(".zip"), STAMP)
        archive.writestr(inner, text, zipfile.ZIP_DEFLATED, 9)
    return whole.getvalue()


def unpacked(path):
    if not path.endswith(".zip"):
        return contents(path)
    with zipfile.ZipFile(path) as archive:
        return archive.read(archive.namelist()[0])


def write(files):
    for name, text in files.items():
        put(os.path.join(PAGES, name), packed(name, text) if name.endswith(".zip") else text)


def of_stored(files):
    """Each file of docs/pages, and what is wrong with it."""
    there = {it for it in os.listdir(PAGES) if it != "README.md" and not it.endswith(".png")}
    for name in sorted({*files, *there}):
        if name not in there:
            yield f"docs/pages/{name}", "isn't there"
        elif name not in files:
            yield f"docs/pages/{name}", "nothing makes it"
        else:
            is_so = unpacked(os.path.join(PAGES, name)) == files[name]
            yield f"docs/pages/{name}", None if is_so else "isn't as it is made"


# ---- other pages


def compared(name, wanted, got):
    """What `page` prints, and whether that is the page that was made once more, or what `check` prints."""
    return name, None if wanted == got else "prints something else"


def of_others(program, folder):
    """Other pages and what isn't printed, each with what is wrong with it."""
    paths = [os.path.join(EXAMPLES, "square_of_four", it) for it in DOCUMENTS]
    several = solved(program, folder, "nine_cards", "--depth 1")
    title = "</title><b>&amp; \"'\u00e9"
    yield compared("without options", page(program, paths), printed(program, "page", *paths))
    yield compared("an odd title", page(program, several, title), printed(program, "page", *several, "--title", title))
    for first in (0, 1, 2, 100):
        got = printed(program, "page", *several, "--first", str(first))
        yield compared(f"--first {first}", page(program, several, first=first), got)
    nothing = solved(program, folder, "macmahon_squares_diamond", "--depth 3")
    yield compared("nothing is listed", page(program, nothing), printed(program, "page", *nothing))
    joined = run(program, "page", given=b"".join(map(contents, paths)))
    yield compared("joined", (page(program, paths), b"", 0), joined)
    for name, document, old, new in (("refused", 2, b"c 0 1", b"c 0 2 d 0"), ("a fault", 1, b"list 1", b"list one")):
        wrong = list(paths)
        wrong[document] = os.path.join(folder, f"{name}.{DOCUMENTS[document]}")
        put(wrong[document], contents(paths[document]).replace(old, new, 1))
        yield compared(name, run(program, "check", *wrong), run(program, "page", *wrong))


def main():
    parser = argparse.ArgumentParser(description=__doc__, formatter_class=argparse.RawDescriptionHelpFormatter)
    parser.add_argument("program", type=program_at, metavar="PROGRAM")
    parser.add_argument("--write", action="store_true")
    given = parser.parse_args()
    with tempfile.TemporaryDirectory() as folder:
        files = dict(stored_files(given.program, folder))
        if given.write:
            write(files)
        found = [*of_stored(files), *of_others(given.program, folder)]
    failed = [(name, fault) for name, fault in found if fault is not None]
    for name, fault in failed:
        print(f"{name}: {fault}")
    print(f"{len(found) - len(failed)} passed, {len(failed)} failed")
    return 1 if failed else 0


if __name__ == "__main__":
    sys.exit(main())
