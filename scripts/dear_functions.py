#!/usr/bin/env python3
"""Prints the functions of a crate whose proofs are the largest, by what `rt ci` kept of it last; it proves nothing.

A line has the kilobytes of text that the toolchain made for a function before its proof (its states, its goals, what
its proof files see), which go with its time and its kept proof. First comes the whole, and how much of it is Debug,
copies and drops.

Usage: python3 scripts/dear_functions.py COUNT CRATE..
"""

import collections
import glob
import json
import os
import shutil
import sys

KIT = os.path.dirname(os.path.dirname(os.path.realpath(shutil.which("rt"))))
PARTS = {"Lts", "Goals", "Given", "Kinds", "Answers", "Invariants", "View", "Proof", "Tie", "Code"}
GROUPS = (("Debug", "Debug"), ("TryClone", "copies"), ("Destruct", "drops"))


def made_of(name):
    """The file of what was made for a crate that was kept last, or none."""
    found = glob.glob(f"{KIT}-kept/proof-{name}-*/made.json")
    if not found:
        return None
    kept = max(found, key=os.path.getmtime)
    with open(kept, encoding="utf8") as made:
        for number, (path, _sum) in enumerate(json.load(made)["files"]):
            if path.endswith(f"{name}.rlib/lang/antt/made.json"):
                return os.path.join(os.path.dirname(kept), str(number))
    return None


def sizes_of(path):
    """The bytes by function: a line in quotes names a module, and those behind it are its text."""
    sizes, function = collections.Counter(), ""
    with open(path, "rb") as lines:
        for line in lines:
            if line.startswith(b'"'):
                names = line.decode().strip().strip('"').split("/")
                ends = [at for at, each in enumerate(names) if each in PARTS]
                function = "/".join(names[: ends[0]] if ends else names)
            else:
                sizes[function] += len(line)
    return sizes


def main():
    for name in sys.argv[2:]:
        path = made_of(name)
        if path is None:
            print(f"{name}: nothing was kept")
            continue
        sizes = sizes_of(path)
        groups = ", ".join(f"{word} {sum(z for f, z in sizes.items() if mark in f) // 1000}" for mark, word in GROUPS)
        print(f"{name}: {sum(sizes.values()) // 1000} KB, of these {groups}")
        for function, size in sizes.most_common(int(sys.argv[1])):
            print(f"{size // 1000:8} {function.removeprefix('proofs/')}")


main()
