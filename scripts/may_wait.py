#!/usr/bin/env python3
"""Compares the numbers may_wait=N of crates.txt with the code: how many functions of a crate may wait for other threads.

These are the functions with the bound Wait, those of an impl with it, and `main`, which gets a HostRuntime. Prints the rows that are wrong, and
ends with 1 if there are any. With --write it puts the right numbers into crates.txt.
"""
import argparse
import glob
import os
import re
import sys

TOP = os.path.join(os.path.dirname(os.path.abspath(__file__)), "..")
CRATES = os.path.join(TOP, "crates.txt")
# A function's name with its bounds and parameters, up to its clauses or its body.
HEAD = re.compile(r"^ *(?:pub(?:\(\w+\))? )?fn \w+.*?(?=^ *(?:requires|ensures|where)\b|^ *\{|\{$|;$)", re.M | re.S)
BLOCK = re.compile(r"^impl\b(?P<head>.*?)\{$.*?^\}$", re.M | re.S)
WAITS = re.compile(r"\bWait\b|\bfn main\(\w+: HostRuntime\)")
ROW = re.compile(r"^(\w+)((?: \w+=[\w+]+)*):", re.M)


def waiting(crate):
    """How many functions of the crate's code may wait."""
    count = 0
    for path in glob.glob(os.path.join(TOP, "crates", crate, "src", "**", "*.rt"), recursive=True):
        with open(path, encoding="utf-8") as file:
            code = re.sub(r"//.*", "", file.read())
        count += sum(bool(WAITS.search(head)) for head in HEAD.findall(code))
        for block in BLOCK.finditer(code):
            if WAITS.search(block["head"]):
                count += sum(not WAITS.search(head) for head in HEAD.findall(block[0]))
    return count


def right_row(row):
    """The beginning of a crate's row with the right number. Crates of tests have none."""
    name, words = row[1], [it for it in row[2].split() if not it.startswith("may_wait=")]
    count = 0 if name.startswith("test_") else waiting(name)
    return " ".join([name, *([f"may_wait={count}"] if count else []), *words]) + ":"


def main():
    parser = argparse.ArgumentParser(description=__doc__, formatter_class=argparse.RawDescriptionHelpFormatter)
    parser.add_argument("--write", action="store_true", help="write the right numbers into crates.txt")
    write = parser.parse_args().write
    with open(CRATES, encoding="utf-8") as file:
        text = file.read()
    wrong = [(row[0], right_row(row)) for row in ROW.finditer(text) if row[0] != right_row(row)]
    if write:
        with open(CRATES, "w", encoding="utf-8") as file:
            file.write(ROW.sub(right_row, text))
    for old, new in wrong:
        print(f"crates.txt: {old} has to be {new}")
    return 1 if wrong and not write else 0


if __name__ == "__main__":
    sys.exit(main())
