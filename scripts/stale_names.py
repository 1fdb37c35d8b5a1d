#!/usr/bin/env python3
"""Prints each name in backticks of the docs and READMEs that nothing in the tree has: `file:line: name`.

A name is looked for as a whole word in the texts of the tree, but for the docs, and among the names of files and
folders. A path must be one in the tree, from its root, or the end of one. Not looked at: blocks between ``` lines,
literals of JSON, numbers, options of commands, places outside of the tree, and words in capitals alone, which stand
for any name (CRATE, LEMMA). Of a text with blanks (a command, a clause) only the paths and the words that have an
underscore or letters of both cases inside are looked for.

Usage: python3 scripts/stale_names.py      (prints nothing where all names are there)
"""

import glob
import os
import re

ROOT = os.path.dirname(os.path.dirname(os.path.abspath(__file__)))

# Words of others: of the toolchain, of a scratch copy, of std and the kit's crates, of MongoDB and of the system.
FOREIGN = set("""
rattle RT_JOBS must_fail oantt out/ out/rlib cannot-infer-type impl-not-in-scope match-options-6 Proof.antt FUNCTION_spec
src/tiny.rt tiny_a
Arc FinSet IntoIterator assert_eq
mongodb ClientSession add_labels_and_update_pin operationTime
setsid nice renice awk
""".split())

ENDINGS = (".antt", ".rt", ".edit", ".py", ".json", ".md", ".txt")
WORD = re.compile(r"[A-Za-z_$][\w$]*(?:-\w+)*-?")
ANY = re.compile(r"(?<![A-Za-z_])[A-Z]{2,}(?![A-Za-z_])")
MIXED = re.compile(r"_\w|\w_|[a-z][A-Z]")


def docs_of():
    """The files whose names are looked at."""
    patterns = ["README.md", "docs/**/*.md", "crates/*/README.md", "examples/README.md"]
    return sorted(path for each in patterns for path in glob.glob(os.path.join(ROOT, each), recursive=True))


def paths_of():
    """Each file and folder of the tree, from its root, without what is made or kept elsewhere."""
    for folder, below, files in os.walk(ROOT):
        below[:] = [each for each in below if each not in (".git", "out", "__pycache__")]
        for each in below + files:
            yield os.path.relpath(os.path.join(folder, each), ROOT)


def words_of(paths):
    """Each word of the texts, and each name of a file or a folder, with and without its ending."""
    words = set()
    for path in paths:
        name = os.path.basename(path)
        words.update([name, os.path.splitext(name)[0], name.lstrip("+")])
        full = os.path.join(ROOT, path)
        if path.endswith(".md") or path == "scripts/stale_names.py" or not os.path.isfile(full):
            continue
        with open(full, encoding="utf8", errors="replace") as file:
            text = file.read()
        words.update(re.findall(r"[\w$]+", text))
        words.update(re.findall(r"\w+(?:-\w+)+", text))
    return words


def names_of(text):
    """The names in one text between backticks; what looks like a path stays whole."""
    if text[0] in "\"[" or text.startswith('{"'):
        return
    parts = text.split()
    for part in parts:
        if part.startswith("/"):
            continue
        clean = re.sub(r"^(\.\./)+", "", part.strip("(),;:\"'{}[]<>"))
        if clean in ENDINGS:
            continue
        if clean.endswith(ENDINGS) or (len(parts) == 1 and re.fullmatch(r"[\w+./-]+/[\w+./-]*", clean)):
            yield clean
            continue
        for found in WORD.finditer(part):
            name = found.group()
            before = part[:found.start()]
            if not before.endswith("-") and (len(parts) == 1 or MIXED.search(name)):
                yield ".." + name if before.endswith("..") and name[0] == "_" else name


def is_there(name, words, ends):
    """Whether the tree or the list of foreign words has the name."""
    if name in FOREIGN or name in words or re.fullmatch(r"[A-Z]+|\w", name):
        return True
    if ANY.search(name) and not name.endswith(".md"):
        pattern = re.compile(r"[\w-]+".join(re.escape(each) for each in ANY.split(name.strip("/"))))
        return any(pattern.fullmatch(each) for each in (ends if "/" in name or name.endswith(ENDINGS) else words))
    if name.startswith(".."):
        return any(word.endswith(name[2:]) for word in words)
    if name.endswith("-"):
        return any(word.startswith(name) for word in words)
    if "/" in name or name.endswith(ENDINGS):
        return name.strip("/") in ends
    return False


paths = list(paths_of())
words = words_of(paths)
ends = {path[at:] for path in paths for at in [0] + [found.end() for found in re.finditer("/", path)]}
for doc in docs_of():
    with open(doc, encoding="utf8") as file:
        inside = False
        for number, line in enumerate(file, 1):
            if line.lstrip().startswith("```"):
                inside = not inside
            elif not inside:
                for text in re.findall(r"`([^`]+)`", line):
                    for name in names_of(text):
                        if not is_there(name, words, ends):
                            print(f"{os.path.relpath(doc, ROOT)}:{number}: {name}")
