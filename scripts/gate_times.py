#!/usr/bin/env python3
"""Runs beside the gate and prints what each crate's proof, tests and edits took: minutes of processor, from when to
when, and the most memory of one process at a time. It stops when the process that it is given has ended.

Usage: python3 scripts/gate_times.py PID FILE      (PID of the gate, FILE that is written each half minute)
"""

import collections
import os
import sys
import time

TICK = os.sysconf("SC_CLK_TCK")
PAGE = os.sysconf("SC_PAGE_SIZE")


def seen(pid):
    """The crate and the kind of work of a process of the checker, its processor seconds and its memory; or none."""
    try:
        with open(f"/proc/{pid}/cmdline", encoding="utf8", errors="replace") as line:
            words = line.read().split("\0")
        if not words[0].endswith("/rattle") or "--crate-name" not in words:
            return None
        with open(f"/proc/{pid}/stat", encoding="utf8") as line:
            numbers = line.read().rpartition(")")[2].split()
        place = os.readlink(f"/proc/{pid}/cwd")
    except OSError:
        return None
    crate = words[words.index("--crate-name") + 1]
    kind = "edits" if "rt-edit-" in place else "tests" if "--test" in words else "proof"
    return (crate, kind), (int(numbers[11]) + int(numbers[12])) / TICK, int(numbers[21]) * PAGE / 1e9


def alive(pid):
    """Whether the gate is still at work."""
    return os.path.isdir(f"/proc/{pid}")


def table(start, spent, first, last, memory):
    """A line for each crate and kind, the first that began first."""
    whole = collections.Counter()
    for (_pid, key), seconds in spent.items():
        whole[key] += seconds
    yield f"{(time.time() - start) / 60:.1f} minutes, {sum(whole.values()) / 60:.1f} of processor\n"
    for key in sorted(whole, key=lambda it: first[it]):
        began, ended = ((it[key] - start) / 60 for it in (first, last))
        yield f"{key[0]:16} {key[1]:6} {whole[key] / 60:6.1f}  from {began:5.1f} to {ended:5.1f}  {memory[key]:4.1f} GB\n"


def main(gate, path):
    """Looks at all processes each second, until the gate has ended."""
    start, spent, first, last, memory = time.time(), {}, {}, {}, collections.Counter()
    turn = 0
    while alive(gate):
        for pid in filter(str.isdigit, os.listdir("/proc")):
            found = seen(pid)
            if found:
                key, seconds, size = found
                spent[pid, key] = max(seconds, spent.get((pid, key), 0))
                first.setdefault(key, time.time())
                last[key] = time.time()
                memory[key] = max(memory[key], size)
        turn += 1
        if turn % 30 == 0:
            with open(path, "w", encoding="utf8") as out:
                out.writelines(table(start, spent, first, last, memory))
        time.sleep(1)
    with open(path, "w", encoding="utf8") as out:
        out.writelines(table(start, spent, first, last, memory))


main(int(sys.argv[1]), sys.argv[2])
