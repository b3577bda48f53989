#!/usr/bin/env python3
"""Counts functions and lines of each crate, and finds the longest chain of crates.

For each crate of crates.txt, lowest first: how many crates stand below it in its longest chain, its functions, and its
lines of code, of contracts (clauses of `requires` and `ensures`), of definitions and of proofs. Below stand the sums,
and the longest chain: that of the most crates, and of those the one of the most lines.
"""
import argparse
import functools
import glob
import os
import re

TOP = os.path.join(os.path.dirname(os.path.abspath(__file__)), "..")
FUNCTION = re.compile(r"^\s*(?:pub(?:\([a-z]+\))? )?(?:const )?fn ", re.M)
CLAUSE = re.compile(r"^\s*(?:requires|ensures)\b")
COLUMNS = "below", "functions", "code", "contracts", "definitions", "proofs"


def crates():
    """The crates, each with those of them that it stands on."""
    with open(os.path.join(TOP, "crates.txt"), encoding="utf-8") as file:
        lines = [it.split("#")[0].split(":") for it in file if it.split("#")[0].strip()]
    below = {head.split()[0]: rest.split() for head, rest in lines}
    return {it: [other for other in others if other in below] for it, others in below.items()}


def texts(crate, folder, ending):
    """The texts of the crate's files of this ending, in one of its folders."""
    for path in sorted(glob.glob(os.path.join(TOP, "crates", crate, folder, "**", f"*.{ending}"), recursive=True)):
        with open(path, encoding="utf-8") as file:
            yield file.read()


def contract_lines(text):
    """How many lines the clauses of a file of code have."""
    count = depth = 0
    for line in text.split("\n"):
        code = re.sub(r"//.*", "", line)
        if depth or CLAUSE.match(code):
            count += 1
            depth += code.count("{") - code.count("}")
    return count


def row(crate, below):
    """The numbers of a crate, in the order of the columns."""
    code = [*texts(crate, "src", "rt")]
    return (
        below,
        sum(len(FUNCTION.findall(it)) for it in code),
        sum(it.count("\n") for it in code),
        sum(contract_lines(it) for it in code),
        sum(it.count("\n") for it in texts(crate, "specs", "antt")),
        sum(it.count("\n") for it in texts(crate, "proofs", "antt")),
    )


def main():
    argparse.ArgumentParser(description=__doc__, formatter_class=argparse.RawDescriptionHelpFormatter).parse_args()
    below = crates()
    lines = {it: row(it, 0)[2] for it in below}

    @functools.cache
    def chain(crate):
        """The longest chain of crates that ends with this one."""
        chains = [chain(it) for it in below[crate]]
        longest = max(chains, key=lambda it: (len(it), sum(lines[other] for other in it)), default=())
        return (*longest, crate)

    rows = {it: row(it, len(chain(it)) - 1) for it in below}
    width = max(map(len, rows))
    print(" " * width, *(f"{it:>11}" for it in COLUMNS))
    for crate, numbers in sorted(rows.items(), key=lambda it: (it[1][0], it[0])):
        print(f"{crate:<{width}}", *(f"{it:>11}" for it in numbers))
    print(f"{'sum':<{width}}", " " * 11, *(f"{sum(it):>11}" for it in [*zip(*rows.values())][1:]))
    longest = max(map(chain, below), key=lambda it: (len(it), sum(lines[other] for other in it)))
    print(f"\nthe longest chain has {len(longest)} crates and {sum(lines[it] for it in longest)} lines of code:")
    print(" > ".join(longest))


if __name__ == "__main__":
    main()
