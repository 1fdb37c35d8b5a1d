#!/usr/bin/env python3
"""Moves modules, definitions and lemmas of a crate into another one, and rewrites their paths in all crates.

What it leaves to be done by hand: `src/lib.rt` of both, `crates.txt`, imports of Rust items (`use OLD::..` of the new
crate's files names modules), what must become public, and laws that stand in one file for both. It prints what still
points the wrong way: `CYCLE` and `UPWARD` lines are of the old crate's files that need something which was moved, and
are right where the new crate stands below the old one. `scripts/check_imports.py` and `rt fmt` come next.

Usage: python3 scripts/split_crate.py OLD NEW --src "a b" --specs "X inside.Y" --proofs "P Q"
"""

import argparse
import os
import re
import subprocess

ROOT = os.path.dirname(os.path.dirname(os.path.abspath(__file__)))
ANSWERS = ("Lib.antt", "Answers.antt", "Invariants.antt", "Proof.antt")


def asked():
    """The words of the call, each list as a list."""
    words = argparse.ArgumentParser()
    words.add_argument("old")
    words.add_argument("new")
    for it in ("src", "specs", "proofs"):
        words.add_argument(f"--{it}", default="", type=str)
    given = words.parse_args()
    return given.old, given.new, given.src.split(), given.specs.split(), given.proofs.split()


OLD, NEW, SRC, SPECS, PROOFS = asked()


def crate(name):
    """The folder of a crate."""
    return os.path.join(ROOT, "crates", name)


def move(old, new):
    """Moves a file or a folder, as git sees it."""
    os.makedirs(os.path.dirname(new), exist_ok=True)
    subprocess.check_call(["git", "-C", ROOT, "mv", old, new])


def move_all():
    """Moves the modules with their answers, the definitions and the lemmas."""
    for module in SRC:
        move(f"{crate(OLD)}/src/{module}.rt", f"{crate(NEW)}/src/{module}.rt")
        for folder in (module, "+" + module):
            if os.path.isdir(f"{crate(OLD)}/proofs/{folder}"):
                move(f"{crate(OLD)}/proofs/{folder}", f"{crate(NEW)}/proofs/{folder}")
    for part, names in (("specs", SPECS), ("proofs", PROOFS)):
        for name in names:
            path = f"{part}/{name.replace('.', '/')}.antt"
            move(f"{crate(OLD)}/{path}", f"{crate(NEW)}/{path}")


def either(names):
    """A pattern for one of these names, the longer ones first; one that nothing meets where there are none."""
    return "|".join(re.escape(it) for it in sorted(names, key=len, reverse=True)) or "(?!)"


def files_of(name, endings=(".rt", ".antt", ".edit")):
    """The files of a crate."""
    for place, folders, names in os.walk(crate(name)):
        folders[:] = [it for it in folders if it != "out"]
        yield from (os.path.join(place, it) for it in names if it.endswith(endings))


def rules():
    """Patterns of paths that moved, and what stands for them."""
    end = r"(?=[.\s{])"
    declared = rf"specs\.(?:declared|contracts)\.(?:{either(SRC)})"
    for part in (rf"specs\.(?:{either(SPECS)})", rf"proofs\.(?:{either(PROOFS)})", declared, rf"proofs\.(?:{either(SRC)})"):
        yield re.compile(rf"\bRattle\.{OLD}\.({part}){end}"), rf"Rattle.{NEW}.\1"


def of_new(text):
    """The paths of a moved file of code: what stayed is named by its crate."""
    for part, names in (("specs", SPECS), ("proofs", PROOFS)):
        own = re.compile(rf"(?:{either([it.replace('.', '::') for it in names])})(?:::|$)")
        stays = lambda met, own=own, part=part: met[0] if own.match(met[1]) else f"{OLD}::{part}::{met[1]}"
        text = re.sub(rf"\bcrate::{part}::([A-Za-z_:]+)", stays, text)
    return re.sub(r"\bcrate::([a-z_]+)\b", lambda met: met[0] if met[1] in [*SRC, "specs", "proofs"] else f"{OLD}::{met[1]}", text)


def rewrite():
    """Rewrites the paths in all crates, and tells of what points the wrong way."""
    moved = either([it.replace(".", "::") for it in SPECS])
    for name in sorted(os.listdir(f"{ROOT}/crates")):
        for path in files_of(name):
            with open(path, encoding="utf8") as file:
                before = text = file.read()
            for pattern, new in rules():
                text = pattern.sub(new, text)
            if path.endswith(".rt") and name == NEW:
                text = of_new(text)
            elif path.endswith(".rt"):
                text = re.sub(rf"\b{OLD}::specs::({moved})\b", rf"{NEW}::specs::\1", text)
            if text != before:
                with open(path, "w", encoding="utf8") as file:
                    file.write(text)
            if name == OLD:
                for it in re.findall(rf"\bcrate::(?:{either(SRC)})\b|\bcrate::specs::(?:{moved})\b", text):
                    print("CYCLE", os.path.relpath(path, ROOT), it)
                for it in re.findall(rf"Rattle\.{NEW}\.[A-Za-z_.]+", text):
                    print("UPWARD", os.path.relpath(path, ROOT), it)


def list_in(path, names):
    """Writes a file of `pub mod` lines, which keeps its comment."""
    head = ""
    if os.path.exists(path):
        with open(path, encoding="utf8") as file:
            head = "".join(line for line in file if line.startswith("--"))
    if names:
        ordered = sorted(names, key=lambda it: (it[0].islower(), it))
        with open(path, "w", encoding="utf8") as file:
            file.write(head + "".join(f"pub mod {it}\n" for it in ordered))
    elif os.path.exists(path):
        os.remove(path)


def modules_in(folder):
    """The files of definitions or lemmas in a folder."""
    return [it[: -len(".antt")] for it in os.listdir(folder) if it.endswith(".antt") and it not in ANSWERS]


def list_modules(name):
    """Writes the lists of modules of a crate anew."""
    for part in ("specs", "proofs"):
        folder = f"{crate(name)}/{part}"
        if not os.path.isdir(folder):
            continue
        inner = [it for it in os.listdir(folder) if part == "specs" and os.path.isdir(f"{folder}/{it}")]
        for it in inner:
            list_in(f"{folder}/{it}.antt", modules_in(f"{folder}/{it}"))
        list_in(f"{folder}/Lib.antt", modules_in(folder))


def move_edits():
    """Moves the edits whose files all moved, and tells of those of both crates."""
    folder = f"{crate(OLD)}/must-fail"
    for name in sorted(os.listdir(folder)) if os.path.isdir(folder) else []:
        with open(f"{folder}/{name}", encoding="utf8") as file:
            modules = re.findall(r"(?m)^file: src/([a-z_]+)\.rt", file.read())
        if modules and all(it in SRC for it in modules):
            move(f"{folder}/{name}", f"{crate(NEW)}/must-fail/{name}")
        elif any(it in SRC for it in modules):
            print("EDIT OF BOTH", name)


move_all()
rewrite()
list_modules(OLD)
list_modules(NEW)
move_edits()
