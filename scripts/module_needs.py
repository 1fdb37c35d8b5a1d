#!/usr/bin/env python3
"""Prints what modules of a crate need of that crate, and what is left: where a crate can be parted in two.

A unit is a module of src/ with the answers of its functions, a file of specs/, or a file of lemmas. The first list is
all that the named units need, by their imports; the second is the rest, which may become a crate above the first.

Usage: python3 scripts/module_needs.py CRATE UNIT..      (units as src:NAME, specs:NAME, proofs:NAME)
"""

import collections
import os
import re
import sys

ROOT = os.path.dirname(os.path.dirname(os.path.abspath(__file__)))
ANSWERS = ("Answers.antt", "Invariants.antt", "Proof.antt")


def unit_of(path):
    """The unit of a file, by its path in the crate."""
    parts = path.split(os.sep)
    name = path.rpartition(".")[0].replace(os.sep, ".")
    if parts[0] == "src":
        return "src:" + parts[1].partition(".")[0]
    if parts[0] == "proofs" and path.endswith(ANSWERS):
        return "src:" + parts[1].lstrip("+")
    return parts[0] + ":" + name.partition(".")[2]


def files_of(crate):
    """The files of each unit."""
    base, found = os.path.join(ROOT, "crates", crate), collections.defaultdict(list)
    for place, folders, names in os.walk(base):
        folders[:] = [it for it in folders if it != "out"]
        for name in names:
            if name.endswith((".rt", ".antt")) and not name.startswith("Lib.antt"):
                path = os.path.join(place, name)
                found[unit_of(os.path.relpath(path, base))].append(path)
    return found


def named(crate, text):
    """The units of the crate that a text may name, each with the longer names first."""
    for part, path in re.findall(rf"Rattle\.{crate}\.(specs|proofs)\.([A-Za-z_.]+)", text):
        words = path.strip(".").split(".")
        if words[0] in ("declared", "contracts"):
            yield ["src:" + words[1]]
        else:
            yield [f"{part}:{'.'.join(words[:count])}" for count in range(len(words), 0, -1)]
    for part, path in re.findall(r"crate::(specs|proofs)::([A-Za-z_:]+)", text):
        words = path.strip(":").split("::")
        yield [f"{part}:{'.'.join(words[:count])}" for count in range(len(words), 0, -1)]
    for module in re.findall(r"\bcrate::([a-z_]+)", text):
        yield ["src:" + module]


def needs_of(crate, files):
    """What each unit needs at once."""
    needs = collections.defaultdict(set)
    for unit, paths in files.items():
        for path in paths:
            with open(path, encoding="utf8") as file:
                for names in named(crate, file.read()):
                    needs[unit].update([it for it in names if it in files][:1])
    return needs


def main(crate, units):
    """The two lists, with their lines of code and of definitions and proofs."""
    files = files_of(crate)
    needs, taken, left = needs_of(crate, files), set(units), list(units)
    while left:
        for it in needs[left.pop()] - taken:
            taken.add(it)
            left.append(it)
    for title, chosen in (("needed", taken), ("left", set(files) - taken - {"src:lib"})):
        counts = collections.Counter()
        for unit in chosen:
            for path in files[unit]:
                with open(path, encoding="utf8") as file:
                    counts[path.rpartition(".")[2]] += file.read().count("\n")
        print(f"{title}: {counts['rt']} lines of code, {counts['antt']} of definitions and proofs")
        print("  " + " ".join(sorted(chosen)))


main(sys.argv[1], sys.argv[2:])
