#!/usr/bin/env python3
"""Prints the lines of code, definitions and proofs that a change took away and brought, wherever they stand.

Where files are only moved, as when a crate is parted, no clause and no definition may be among them: imports and
lists of modules are left out, and what remains is visibility and comments.

Usage: python3 scripts/same_lines.py REVISION [REVISION]      (the second is HEAD where it is missing)
"""

import collections
import re
import subprocess
import sys

IMPORT = re.compile(r"(ghost )?use |pub use |(pub )?mod ")


def git(*words):
    """What git prints."""
    return subprocess.run(["git", *words], capture_output=True, text=True, check=True).stdout


def lines(revision):
    """How often each line stands in the crates of a revision."""
    found = collections.Counter()
    for path in git("ls-tree", "-r", "--name-only", revision, "crates").split():
        if path.endswith((".rt", ".antt")):
            for line in git("show", f"{revision}:{path}").split("\n"):
                if line.strip() and not IMPORT.match(line.strip()):
                    found[line.strip()] += 1
    return found


old, new = lines(sys.argv[1]), lines(sys.argv[2] if len(sys.argv) > 2 else "HEAD")
for sign, gone in (("-", old - new), ("+", new - old)):
    for line, count in gone.items():
        print(sign, count, line)
