#!/usr/bin/env python3
"""Looks whether each must-fail edit can be applied: each `old:` text stands once in its file, after the pairs before it.

Usage: python3 scripts/edit_texts.py [CRATE..]      (all crates where none is named)
"""

import glob
import os
import sys

ROOT = os.path.dirname(os.path.dirname(os.path.abspath(__file__)))


def faults_of(edit, crate):
    """The texts of an edit that do not stand once in the crate's file."""
    faults, text, old = [], None, None
    with open(edit, encoding="utf8") as lines:
        for line in lines.read().split("\n"):
            if line.startswith("file: "):
                with open(os.path.join(crate, line[6:]), encoding="utf8") as file:
                    text = file.read()
            elif line.startswith("old: "):
                old = line[5:]
                if text.count(old) != 1:
                    faults.append(f"{text.count(old)} times: {old}")
            elif line.startswith("new: "):
                text = text.replace(old, line[5:], 1)
    return faults


names = sys.argv[1:] or sorted(os.listdir(os.path.join(ROOT, "crates")))
for name in names:
    crate = os.path.join(ROOT, "crates", name)
    for edit in sorted(glob.glob(os.path.join(crate, "must-fail", "*.edit"))):
        for fault in faults_of(edit, crate):
            print(f"{name}/{os.path.basename(edit)}: {fault}")
