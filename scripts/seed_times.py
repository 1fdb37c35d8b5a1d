#!/usr/bin/env python3
"""Prints what each function of a crate took to prove, in seconds, by the times of the files that a check left.

The folder is that of a check that runs in one job and in one go: the seed of a crate's edits while `rt ci` runs
(the `seed` in its temporary folder `rt-edits-PID-..`), or the one that `rattle check --incremental` was given. A
file's time is that of the one before it until its own, so waits count too: compare figures of one run alone.

Usage: python3 scripts/seed_times.py FOLDER [COUNT]
"""

import collections
import os
import re
import sys

PARTS = (".Lts", ".Proof", ".Tie", ".Goals", ".Answers", ".Kinds", ".View", ".Given", ".Code", ".Invariants")
GROUPS = (("Destruct", "drops"), ("Debug", "Debug"), ("TryClone", "copies"))


def modules_of(folder):
    """The time, the size and the name of each file of proof in a folder, the oldest first."""
    found = []
    for root, _folders, names in os.walk(folder):
        for name in names:
            if name.endswith(".oantt"):
                stat = os.stat(os.path.join(root, name))
                found.append((stat.st_mtime, stat.st_size, name[: -len(".oantt")]))
    return sorted(found)


def function_of(name):
    """The function that a file belongs to, without its crate."""
    name = re.sub(r"^Rattle-[a-z_]+-(proofs\.)?", "", name)
    ends = [at for at in (name.find(part) for part in PARTS) if at > 0]
    return name[: min(ends)] if ends else name


def main():
    modules = modules_of(sys.argv[1])
    count = int(sys.argv[2]) if len(sys.argv) > 2 else 30
    if not modules:
        sys.exit(f"no file of proof below {sys.argv[1]}")
    seconds, sizes, groups = collections.Counter(), collections.Counter(), collections.Counter()
    for before, (moment, size, name) in zip(modules, modules[1:]):
        function = function_of(name)
        seconds[function] += moment - before[0]
        sizes[function] += size
        group = next((it for word, it in GROUPS if word in function), "others")
        groups[group] += moment - before[0]
    whole = ", ".join(f"{group} {time:.0f}" for group, time in groups.most_common())
    print(f"{len(modules)} files, {sum(sizes.values()) / 1e6:.0f} MB, {sum(seconds.values()):.0f} s: {whole}")
    for function, time in seconds.most_common(count):
        print(f"{time:6.1f} s {sizes[function] / 1e6:7.2f} MB  {function}")


main()
