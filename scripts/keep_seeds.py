#!/usr/bin/env python3
"""Keeps what `rt ci` proves of each crate for its must-fail edits, so that checks in clones begin over it.

A run of the gate proves a crate that has edits once more into a folder of its own (the seed), and takes that away at its
end. Run beside it, this copies each seed into FOLDER/CRATE as soon as it is whole, until it is stopped. Put as
crates/CRATE/out/incremental into a clone, `rt check` and `rt plant` of that crate begin over it, and prove only what the
clone has changed; over what the clone has proved itself it is laid by `cp -rn`.

Usage: python3 scripts/keep_seeds.py FOLDER
"""

import os
import re
import shutil
import subprocess
import sys
import time

# A check of the gate over a seed, or the one that makes it: the crate, the folder of the run, and which it is.
CHECK = re.compile(r"rattle check --crate-name (\S+) .*--incremental (\S+/rt-edits-[^/ ]+)/(\w+)(?:\s|$)")


def checks():
    """The checks of edits that run now, as crate, folder of the run, and `seed` or the number of an edit."""
    listed = subprocess.run(["ps", "-eo", "args", "-ww"], check=True, stdout=subprocess.PIPE, text=True).stdout
    return [found.groups() for found in map(CHECK.search, listed.splitlines()) if found]


def keep(seed, place):
    """Copies a seed to its place, which is there only when it is whole."""
    part = place + ".part"
    shutil.rmtree(part, ignore_errors=True)
    shutil.copytree(seed, part)
    shutil.rmtree(place, ignore_errors=True)
    os.rename(part, place)


def main():
    folder = sys.argv[1]
    os.makedirs(folder, exist_ok=True)
    making, kept = {}, set()
    while True:
        seen = checks()
        busy = {room for _, room, which in seen if which == "seed"}
        making.update({room: crate for crate, room, which in seen if which == "seed"})
        whole = {room: crate for crate, room, which in seen if which != "seed"}
        whole.update({room: crate for room, crate in making.items() if room not in busy})
        for room, crate in whole.items():
            if room not in kept and os.path.isdir(f"{room}/seed"):
                kept.add(room)
                try:
                    keep(f"{room}/seed", os.path.join(folder, crate))
                except (OSError, shutil.Error):
                    # (its run ended meanwhile)
                    shutil.rmtree(os.path.join(folder, crate) + ".part", ignore_errors=True)
                    continue
                print(time.strftime("%H:%M:%S"), crate, flush=True)
        time.sleep(5)


main()
