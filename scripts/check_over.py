#!/usr/bin/env python3
"""Runs `rattle check` on one crate of a clone before the gate has proved what stands below.

A library below is taken built where the gate's text of it, and of all below it, is the clone's, and its folder stands in
LIBS (copies of `out/rlib/NAME.rlib` of the gate's own checkout, made as it proves them); the others are read as sources.
Kept work stands beside the clone. `--start FUNCTION`, `--only FUNCTION --allow-holes --progress` and the like are handed
on to `rattle check`.

Usage: python3 scripts/check_over.py CLONE COMMIT LIBS CRATE ARGS..      (COMMIT is the gate's text)
"""

import os
import shutil
import subprocess
import sys

KIT = os.path.dirname(os.path.dirname(os.path.realpath(shutil.which("rt"))))
PARTS = ("src", "specs", "proofs")


def crates_of(clone):
    """The libraries of each crate, as crates.txt has them."""
    found = {}
    with open(f"{clone}/crates.txt", encoding="utf8") as listed:
        for line in listed:
            head, colon, rest = line.split("#")[0].partition(":")
            if colon:
                found[head.split()[0]] = rest.split()
    return found


def is_same(clone, commit, crates, name, known):
    """Whether the text of a crate, and of all below it, is the gate's."""
    if name not in known:
        paths = [f"crates/{name}/{part}" for part in PARTS]
        differs = subprocess.run(["git", "-C", clone, "diff", "--quiet", commit, "--", *paths], check=False).returncode
        new = subprocess.run(["git", "-C", clone, "ls-files", "-o", "--exclude-standard", *paths], check=True, stdout=subprocess.PIPE).stdout
        below = [it for it in crates[name] if it in crates]
        known[name] = not differs and not new and all(is_same(clone, commit, crates, it, known) for it in below)
    return known[name]


def all_below(crates, crate):
    """The crates of the repository below a crate, lowest first."""
    found = {it for name in crates[crate] if name in crates for it in [name, *all_below(crates, name)]}
    return [it for it in crates if it in found]


def libraries(clone, commit, libs, crates, crate):
    """The flags that name the libraries of a crate."""
    flags, known, kits = [], {}, {it for rest in crates.values() for it in rest if it not in crates}
    for name in all_below(crates, crate):
        if is_same(clone, commit, crates, name, known) and os.path.isdir(f"{libs}/{name}.rlib"):
            flags += ["--extern", f"{name}={libs}/{name}.rlib"]
        else:
            flags += ["--lib", f"{name}=../{name}/src/lib.rt"]
    for name in sorted(kits | {"std"}):
        flags += ["--extern", f"{name}={KIT}/rlibs/{name}.rlib"]
    return flags


def main():
    clone, commit, libs, crate, *given = sys.argv[1:]
    clone, libs = os.path.abspath(clone), os.path.abspath(libs)
    flags = libraries(clone, commit, libs, crates_of(clone), crate)
    places = ["-L", f"dependency={KIT}/rlibs", "-L", f"dependency={libs}", "--incremental", f"{clone}-kept"]
    logic = ["--antt-project", f"{KIT}/rattle/logic/antt-project.json", "--logic-built", f"{KIT}/logic_built"]
    command = [f"{KIT}/bin/rattle", "check", "--crate-name", crate, "src/lib.rt", *flags, *places, *logic, *given]
    sys.exit(subprocess.run(command, cwd=f"{clone}/crates/{crate}", check=False).returncode)


main()
