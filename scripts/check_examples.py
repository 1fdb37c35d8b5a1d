#!/usr/bin/env python3
"""Looks whether texts that stand twice are the same: the examples, and the Rust in the pages of the crates.

Each NAME.json and NAME.txt of examples/ is, byte for byte, a row of the examples among the rows of scripts, behind a
line of four equals signs and NAME. Each of these rows is such an example.

A block of Rust in a README.md of a crate that comes right behind a line which names a source file, as
"From `crates/NAME/src/FILE.rt`:", stands in that file as it is.

Prints what differs or lacks its partner, and exits with 1 then; prints nothing where all is well.

Usage: python3 scripts/check_examples.py
"""

import glob
import os
import re
import sys

ROOT = os.path.dirname(os.path.dirname(os.path.abspath(__file__)))
ROWS = "crates/script_rows/data/examples.txt"
ROW = re.compile(r"^==== (\w+)\n(.*?)^--\n(.*?)(?=^====|\Z)", re.S | re.M)
BLOCK = re.compile(r"([^\n]*)\n\s*^```rust\n(.*?)^```$", re.S | re.M)
SOURCE = re.compile(r"`([^`\s]+\.rt)`")


def read(path):
    """The bytes of a file of the repository, or none where there is none."""
    path = os.path.join(ROOT, path)
    if not os.path.isfile(path):
        return None
    with open(path, "rb") as file:
        return file.read()


def faults_of_examples():
    """What differs between the examples and their rows, or lacks its partner."""
    rows, faults = {}, []
    for name, script, report in ROW.findall((read(ROWS) or b"").decode()):
        rows[f"examples/{name}.json"], rows[f"examples/{name}.txt"] = script.encode(), report.encode()
    names = {os.path.relpath(path, ROOT) for path in glob.glob(os.path.join(ROOT, "examples", "*"))}
    for name in sorted((names | rows.keys()) - {"examples/README.md"}):
        text, row = read(name), rows.get(name)
        if text is None:
            faults.append(f"{name}: missing")
        elif row is None:
            faults.append(f"{name}: no row in {ROWS}")
        elif text != row:
            faults.append(f"{name}: differs from its row in {ROWS}")
    return faults


def faults_of_page(page):
    """The blocks of Rust in a page that do not stand in the source that is named before them."""
    faults = []
    for head, block in BLOCK.findall(read(page).decode()):
        for source in SOURCE.findall(head):
            text = read(source)
            if text is None:
                faults.append(f"{page}: no file {source}")
            elif block.encode() not in text:
                faults.append(f"{page}: a block does not stand in {source}: {block.splitlines()[0]}")
    return faults


pages = [os.path.relpath(page, ROOT) for page in sorted(glob.glob(os.path.join(ROOT, "crates", "*", "README.md")))]
found = faults_of_examples() + [fault for page in pages for fault in faults_of_page(page)]
for fault in found:
    print(fault)
sys.exit(1 if found else 0)
