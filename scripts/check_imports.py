#!/usr/bin/env python3
"""Prints each import of a definition, a lemma, a type, a variant or a constant that the tree does not have,
and each of a type or a constant that its crate does not show to others.

It reads `use Rattle.CRATE.PATH.{NAMES}` in .antt and .rt files, for the crates of crates.txt, and looks for each name
in the file that the path means. It proves nothing and takes a second: a look after a rename, before any check.

Usage: python3 scripts/check_imports.py [CRATE..]
"""

import glob
import os
import re
import sys

ROOT = os.path.dirname(os.path.dirname(os.path.abspath(__file__)))
CRATES = [line.split(":")[0].split()[0] for line in open(os.path.join(ROOT, "crates.txt"), encoding="utf8") if ":" in line]
USE = re.compile(r"^\s*(?:pub )?(?:ghost )?use Rattle\.(\w+)\.([\w.+]+?)(?:\.\{([^}]*)\})?(?: as \w+)?;?\s*$")
texts = {}


def text(path):
    """The text of a file, or none."""
    if path not in texts:
        texts[path] = open(path, encoding="utf8").read() if os.path.isfile(path) else None
    return texts[path]


def source(crate, module):
    """The text of a module of a crate."""
    return text(f"{ROOT}/crates/{crate}/src/{module.replace('.', '/')}.rt")


def defined(crate, path):
    """The text of the file of definitions or lemmas that a path means, or none."""
    return text(f"{ROOT}/crates/{crate}/{path.replace('.', '/')}.antt")


def shown(crate, parts):
    """Whether other crates see an item: each module on the way is public, or the root passes its name on."""
    root = source(crate, "lib")
    if any(parts[-1] in re.findall(r"\w+", line) for line in re.findall(r"^pub use ([^;]+);", root, re.M)):
        return True
    return all(re.search(rf"^pub mod {module};", body, re.M) for module, body in zip(parts, [root] + [source(crate, ".".join(parts[: n + 1])) or "" for n in range(len(parts))]) if not module[0].isupper())


def has_definition(body, name):
    """Whether a file of definitions or lemmas has a name, or hands it on."""
    word = re.escape(name)
    if re.search(rf"^pub use [\w.+]+\.\{{(?:[^}}]*[ ,])?{word}[,}}]", body, re.M):
        return True
    return re.search(rf"^(?:\s*)(?:unfoldable |abbrev |pub |data |record |postulate )*{word}(?: :| \(| \{{|\s*:)", body, re.M) or re.search(rf"^\s+(?:pub )?{word} :", body, re.M)


def wrong(crate, path, names):
    """The names of an import that are not there."""
    if path.startswith("specs.contracts") or re.search(r"\.(Goals|Given|Lts|Kinds|the_lemmas)\b", path) or path.endswith("proofs"):
        return []
    if re.search(r"\.(TheInside|TheView|TheFolds)$", path):
        return []
    declared = re.match(r"specs\.declared\.(.+)$", path)
    if declared:
        parts = declared.group(1).split(".")
        if parts[-1] == "TheConstants":
            body = source(crate, ".".join(parts[:-1]))
            return names if body is None else [n for n in names if not re.search(rf"\b(?:const|static) {n}\b", body)]
        if "TheVariants" in parts or "TheOpen" in parts or "TheLaws" in parts:
            at = parts.index("TheVariants") if "TheVariants" in parts else len(parts) - 1
            body = source(crate, ".".join(parts[: at - 1]))
            if body is None or not re.search(rf"\b(?:struct|enum) {parts[at - 1]}\b", body):
                return names or [path]
            return [n for n in names if "TheVariants" in parts and n != "the_data" and not n.startswith("rolls-") and not re.search(rf"^\s+{n}\b", body, re.M)]
        body = source(crate, ".".join(parts[:-1]))
        if body is None:
            body = source(crate, ".".join(parts[:-2])) if len(parts) > 2 else None
        return [] if body is not None and re.search(rf"\b(?:struct|enum|type|trait) {parts[-1]}\b", body) else names or [path]
    body = defined(crate, path)
    if body is None:
        return [f"no file {path}"]
    return [n for n in names if not has_definition(body, n)]


def main():
    count = 0
    for crate in sys.argv[1:] or CRATES:
        for kind in ("antt", "rt"):
            for path in sorted(glob.glob(f"{ROOT}/crates/{crate}/**/*.{kind}", recursive=True)):
                if "/out/" in path:
                    continue
                for number, line in enumerate(text(path).split("\n"), 1):
                    found = USE.match(line)
                    if not found or found.group(1) not in CRATES:
                        continue
                    cited = re.match(r"specs\.declared\.(.+?)(?:\.The[A-Z]\w*.*)?$", found.group(2))
                    if cited and found.group(1) != crate and not shown(found.group(1), cited.group(1).split(".")):
                        count += 1
                        print(f"{os.path.relpath(path, ROOT)}:{number}: {found.group(1)}.{found.group(2)}: not shown")
                    names = [n.split(" as ")[0].strip() for n in (found.group(3) or "").split(",") if n.strip()]
                    for name in wrong(found.group(1), found.group(2), names):
                        count += 1
                        print(f"{os.path.relpath(path, ROOT)}:{number}: {found.group(1)}.{found.group(2)}: {name}")
    sys.exit(1 if count else 0)


main()
