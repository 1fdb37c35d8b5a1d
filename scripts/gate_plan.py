#!/usr/bin/env python3
"""Prints what memory the gate plans for each crate, the most first: by that it decides how many run side by side.

The plan: 1 GB, 1 MB for each line of code, 0.2 MB for each of definitions and proofs, 0.08 MB for each line of code of
the repository's crates below it. Libraries of the kit, which add some tenths, are left out.

Usage: python3 scripts/gate_plan.py
"""

import os

ROOT = os.path.dirname(os.path.dirname(os.path.abspath(__file__)))


def crates():
    """The crates of crates.txt with the libraries that each names."""
    found = {}
    with open(os.path.join(ROOT, "crates.txt"), encoding="utf8") as lines:
        for line in lines:
            head, colon, named = line.partition("#")[0].partition(":")
            if colon:
                found[head.split()[0]] = named.split()
    return found


def lines_of(crate, ending):
    """How many lines the files with this ending have in a crate."""
    count = 0
    for place, folders, names in os.walk(os.path.join(ROOT, "crates", crate)):
        folders[:] = [it for it in folders if it != "out"]
        for name in names:
            if name.endswith(ending):
                with open(os.path.join(place, name), encoding="utf8") as file:
                    count += file.read().count("\n")
    return count


def below(crate, named, found):
    """All crates of the repository that a crate stands on."""
    for it in named.get(crate, []):
        if it in named and it not in found:
            found.add(it)
            below(it, named, found)
    return found


def main():
    """A line for each crate."""
    named = crates()
    code = {it: lines_of(it, ".rt") for it in named}
    proof = {it: lines_of(it, ".antt") for it in named}
    rows = []
    for crate in named:
        under = sum(code[it] for it in below(crate, named, set()))
        rows.append((1 + code[crate] / 1e3 + proof[crate] / 5e3 + under * 8e-5, crate))
    for planned, crate in sorted(rows, reverse=True):
        print(f"{crate:16} {planned:4.1f} GB  code {code[crate]:5}  definitions and proofs {proof[crate]:6}")


main()
