#!/usr/bin/env python3
"""Puts the libraries that `rt ci` kept on this machine into a clone, so that `rt check` begins over them.

Without it the first `rt check` of a crate in a new clone proves all crates below once more. The last library that
was kept of each crate is taken: it must be of the text that stands in the clone, for the stamp says so.

Usage: python3 scripts/plant.py CLONE CRATE..            (these libraries)
       python3 scripts/plant.py CLONE --below CRATE..    (all libraries below these crates, and not their own)
"""

import glob
import json
import os
import shutil
import sys

KIT = os.path.dirname(os.path.dirname(os.path.realpath(shutil.which("rt"))))
sys.path.insert(0, os.path.join(KIT, "bin"))
import rtlib

SUMS = {}
TAKE_SUM = rtlib.Crate.stamp


def sum_of(crate):
    """The sum of a crate's text and of all below it, taken once a folder: the tool takes those below anew at each crate, minutes where there are many."""
    if crate.folder not in SUMS:
        SUMS[crate.folder] = TAKE_SUM(crate)
    return SUMS[crate.folder]


rtlib.Crate.stamp = sum_of


def last_kept(name):
    """The folder of the last proof of a crate that was kept, or none."""
    found = glob.glob(f"{KIT}-kept/proof-{name}-*/made.json")
    return os.path.dirname(max(found, key=os.path.getmtime)) if found else None


def plant(clone, name):
    """Puts one library in its place, with the sum of the crate's text."""
    kept = last_kept(name)
    if kept is None:
        print(f"{name}: nothing was kept")
        return
    crate = os.path.join(clone, "crates", name)
    shutil.rmtree(os.path.join(crate, "out", "rlib"), ignore_errors=True)
    with open(os.path.join(kept, "made.json"), encoding="utf8") as made:
        files = json.load(made)["files"]
    if not any(path.startswith("rlib/") for path, _sum in files):
        print(f"{name}: no library")
        return
    for number, (path, _sum) in enumerate(files):
        place = os.path.join(crate, "out", path)
        os.makedirs(os.path.dirname(place), exist_ok=True)
        shutil.copyfile(os.path.join(kept, str(number)), place)
    with open(os.path.join(crate, "out", "rlib", "stamp"), "w", encoding="utf8") as stamp:
        stamp.write(rtlib.Crate(crate, clone, {}).stamp())
    print(f"{name}: planted")


def needs_of(clone):
    """What each crate of the tree names in crates.txt, in the order of that file."""
    with open(os.path.join(clone, "crates.txt"), encoding="utf8") as lines:
        parts = [line.strip().partition(":") for line in lines if line.strip() and not line.startswith("#")]
    return {head.split()[0]: needs.split() for head, _colon, needs in parts}


def below(clone, names):
    """All crates of the tree that these stand on, callees first."""
    needs, found = needs_of(clone), set()
    todo = [each for name in names for each in needs[name]]
    while todo:
        name = todo.pop()
        if name in needs and name not in found:
            found.add(name)
            todo += needs[name]
    return [name for name in needs if name in found]


def main():
    clone, names = os.path.abspath(sys.argv[1]), sys.argv[2:]
    if names and names[0] == "--below":
        names = below(clone, names[1:])
    for name in names:
        plant(clone, name)


main()
