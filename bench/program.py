#!/usr/bin/env python3
"""Times the program on scripts of 1,000, 3,000 and 10,000 calls: inserts, and a mix of the six single writes.

Builds `driver_cli` as the merge gate does, by `rt run` (LLVM, the default level of optimization), runs it
several times on each script, and prints the median of the wall times and of the processor times, the latter
over that of the smallest script, the peak memory, and, where valgrind is installed, the instructions of one run,
in millions and over those of the smallest script. A second table is of schedules that lose every fifth exchange, a
third of the mix, and a last one of scripts of one kind each, by the instructions of a call over those of an insert.

Usage: python3 bench/program.py [RUNS]      (Linux: it reads /proc)
"""

import json
import os
import re
import shutil
import statistics
import subprocess
import sys
import tempfile
import time

ROOT = os.path.dirname(os.path.dirname(os.path.abspath(__file__)))
CRATE = os.path.join(ROOT, "crates", "driver_cli")
PROGRAM = os.path.join(CRATE, "out", "driver_cli")
COUNTS = (1_000, 3_000, 10_000)
LOST_EVERY = 5


KINDS = ("insertOne", "updateOne", "updateMany", "replaceOne", "deleteOne", "deleteMany")


def call(kind, at):
    """A call of this kind: a document of two fields, a filter of one field, an update of one `$set`."""
    document = [["x", at], ["name", f"item {at}"]]
    if kind == "insertOne":
        return {kind: {"ns": "shop.items", "doc": document}}
    asked = {"ns": "shop.items", "filter": [["x", at]]}
    if kind == "replaceOne":
        asked["doc"] = document
    if kind in ("updateOne", "updateMany"):
        asked["update"] = [["$set", {"doc": [["y", at]]}]]
    return {kind: asked}


def script(calls, lost_every, kinds):
    """A script of so many calls, of these kinds in turn, which loses each exchange of that place, or none where it is
    None."""
    asked = {"calls": [call(kinds[at % len(kinds)], at) for at in range(calls)]}
    if lost_every is not None:
        sends = calls + calls // (lost_every - 1)
        asked["schedule"] = [
            "lost" if at % lost_every == lost_every - 1 else "serve" for at in range(sends)
        ]
    return json.dumps(asked)


def build():
    """Builds the program, and runs it once on a script without calls."""
    built = subprocess.run(
        ["rt", "run", "--", "run"],
        cwd=CRATE,
        input=b'{"calls":[]}',
        stdout=subprocess.DEVNULL,
        stderr=subprocess.PIPE,
    )
    if built.returncode != 0:
        raise SystemExit(built.stderr.decode())


def timed(path):
    """The wall seconds, the processor seconds and the last line of one run on the script at `path`."""
    with open(path, "rb") as source, tempfile.TemporaryFile() as sink:
        begun = time.perf_counter()
        child = subprocess.Popen([PROGRAM, "run"], stdin=source, stdout=sink)
        _, status, usage = os.wait4(child.pid, 0)
        wall = time.perf_counter() - begun
        child.returncode = os.waitstatus_to_exitcode(status)
        if child.returncode != 0:
            raise SystemExit(f"the program ended with status {child.returncode}")
        sink.seek(0)
        return wall, usage.ru_utime + usage.ru_stime, sink.read().decode().splitlines()[-1]


def peak_memory(path):
    """The greatest memory of a run in KiB, as the kernel tells it while the program runs."""
    peak = 0
    with open(path, "rb") as source:
        child = subprocess.Popen([PROGRAM, "run"], stdin=source, stdout=subprocess.DEVNULL)
        while child.poll() is None:
            with open(f"/proc/{child.pid}/status", encoding="ascii") as lines:
                for line in lines:
                    if line.startswith("VmHWM:"):
                        peak = max(peak, int(line.split()[1]))
    return peak


def instructions(path):
    """How many instructions one run takes, as callgrind counts them, or none where valgrind is not installed."""
    if shutil.which("valgrind") is None:
        return None
    counter = ["valgrind", "--tool=callgrind", "--callgrind-out-file=/dev/null", PROGRAM, "run"]
    with open(path, "rb") as source:
        told = subprocess.run(counter, stdin=source, stdout=subprocess.DEVNULL, stderr=subprocess.PIPE)
    return int(re.search(rb"Collected : (\d+)", told.stderr)[1])


def counted(count, smallest):
    """The columns of a count of instructions."""
    if count is None:
        return f"{'-':>8} {'-':>6}"
    return f"{count / 1e6:>8.1f} {count / smallest:>6.2f}"


def table(title, folder, runs, lost_every=None, kinds=KINDS[:1]):
    print(f"{title}: median of {runs} runs")
    print(
        f"{'calls':>7} {'bytes':>8} {'wall ms':>8} {'cpu ms':>8} {'ratio':>6} {'MiB':>6} {'M instr':>8} {'ratio':>6}"
        "  last line"
    )
    smallest = fewest = None
    for calls in COUNTS:
        path = os.path.join(folder, f"{calls}.json")
        with open(path, "w", encoding="utf-8") as out:
            out.write(script(calls, lost_every, kinds))
        timed(path)
        measured = [timed(path) for _ in range(runs)]
        wall = statistics.median(wall for wall, _, _ in measured)
        spent = statistics.median(spent for _, spent, _ in measured)
        smallest = smallest or spent
        peak = max(peak_memory(path) for _ in range(3))
        count = instructions(path)
        fewest = fewest or count
        print(
            f"{calls:>7} {os.path.getsize(path):>8} {wall * 1000:>8.1f} {spent * 1000:>8.1f}"
            f" {spent / smallest:>6.1f} {peak / 1024:>6.1f} {counted(count, fewest)}  {measured[0][2]}"
        )
    print()


def of_one_kind(kind, folder):
    """The instructions of one call of a kind: of 10,000 calls over those of 1,000."""
    counts = []
    for calls in (COUNTS[0], COUNTS[-1]):
        path = os.path.join(folder, f"{kind}{calls}.json")
        with open(path, "w", encoding="utf-8") as out:
            out.write(script(calls, None, (kind,)))
        counts.append(instructions(path))
    if None in counts:
        return None
    return (counts[1] - counts[0]) / (COUNTS[-1] - COUNTS[0])


def kinds_table(folder):
    print("a call of each kind, each exchange served")
    print(f"{'call':>10} {'instr':>8} {'ratio':>6}")
    insert = None
    for kind in KINDS:
        count = of_one_kind(kind, folder)
        insert = insert or count
        row = f"{'-':>8} {'-':>6}" if count is None else f"{count:>8.0f} {count / insert:>6.2f}"
        print(f"{kind:>10} {row}")
    print()


def main():
    runs = int(sys.argv[1]) if len(sys.argv) > 1 else 9
    build()
    with tempfile.TemporaryDirectory() as folder:
        table("each exchange served", folder, runs)
        table(f"every {LOST_EVERY}th exchange lost", folder, runs, LOST_EVERY)
        table("the six kinds in turn, each exchange served", folder, runs, None, KINDS)
        kinds_table(folder)


if __name__ == "__main__":
    main()
