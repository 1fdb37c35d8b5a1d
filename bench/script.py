#!/usr/bin/env python3
"""Counts what reading a script and writing its report cost: instructions a byte of script and a line of report, by
function, and the peak of memory a byte of script.

Builds `driver_cli` as bench/program.py does (`rt run`: LLVM, the default level) and runs it on scripts of 1,000 and of
10,000 calls `insertOne`, each exchange served, and on the same scripts with a key that is wrong and read last: these are
read whole and then refused, so all that such a run takes is what reading takes, with what it lets go. callgrind counts
the whole of it; of the other runs it counts inside of `report_text`, with all that it calls. Two tables for each say
where the instructions go, in the larger script: the functions that take most themselves, and those that take most with
all that they call. The peaks are of whole runs, as the kernel tells them (VmHWM), the greatest of three: of those that
are refused, and of those that run. The row `more` is what the larger script takes more over the bytes and the lines that
it has more, so the program itself is left out.

usage: bench/script.py [PROGRAM]      (with a PROGRAM nothing is built; Linux, and valgrind for the instructions)
"""

import os
import re
import shutil
import subprocess
import sys
import tempfile

import program
from write import own, with_callees

COUNTS = (1_000, 10_000)
RUNS = 3
ROWS = 12

# The status of a script that is refused.
REFUSED = 3

# What is counted: its name, the function to count inside of (none: the whole run), and what its instructions are divided
# by.
READ = ("read", None, "byte")
REPORT = ("report", "report_text", "line")


def ran(path):
    """The report of a run on the script at `path`, which must end well."""
    with open(path, "rb") as source:
        return subprocess.run([program.PROGRAM, "run"], stdin=source, stdout=subprocess.PIPE, check=True).stdout


def written(calls, folder, is_refused):
    """The path of a script of so many inserts, which is read whole, and then refused or run."""
    path = os.path.join(folder, f"{'refused' if is_refused else 'run'}{calls}.json")
    asked = program.script(calls, None, program.KINDS[:1])
    with open(path, "w", encoding="utf-8") as out:
        out.write(asked.removesuffix("}") + ', "late": 0}' if is_refused else asked)
    return path


def refused(path):
    """Runs the script at `path`, which must be refused."""
    with open(path, "rb") as source:
        ended = subprocess.run([program.PROGRAM, "run"], stdin=source, stdout=subprocess.DEVNULL, check=False)
    if ended.returncode != REFUSED:
        raise SystemExit(f"{path} ended with status {ended.returncode}, and not {REFUSED}")


def peak(path):
    """The greatest memory of a run, in bytes."""
    return 1024 * max(program.peak_memory(path) for _ in range(RUNS))


def counted(path, function, folder):
    """The instructions inside of a function and all that it calls, or of the whole run, and the file that callgrind
    leaves."""
    left = os.path.join(folder, f"{function}.{os.path.basename(path)}")
    inside = [] if function is None else [f"--toggle-collect=*{function}*"]
    counter = ["valgrind", "--tool=callgrind", *inside, f"--callgrind-out-file={left}", program.PROGRAM, "run"]
    with open(path, "rb") as source:
        told = subprocess.run(counter, stdin=source, stdout=subprocess.DEVNULL, stderr=subprocess.PIPE, check=False)
    return int(re.search(rb"Collected : (\d+)", told.stderr)[1]), left


def measured(calls, folder):
    """The figures of one number of calls: the bytes of the script, the lines of its report, the peaks in bytes, and for
    what is counted the instructions with the file that callgrind left, or None without callgrind."""
    run, read = (written(calls, folder, is_refused) for is_refused in (False, True))
    refused(read)
    figures = {
        "calls": calls,
        "byte": os.path.getsize(run),
        "line": ran(run).count(b"\n"),
        "peak": peak(run),
        "read peak": peak(read),
    }
    counts = shutil.which("valgrind") is not None and shutil.which("callgrind_annotate") is not None
    for (name, function, _), path in ((READ, read), (REPORT, run)):
        figures[name] = counted(path, function, folder) if counts else None
    return figures


def more(few, many):
    """What the larger script has more."""
    figures = {name: many[name] - few[name] for name in ("calls", "byte", "line", "peak", "read peak")}
    for name, _, _ in (READ, REPORT):
        figures[name] = None if many[name] is None else (many[name][0] - few[name][0], None)
    return figures


def row(title, figures):
    """A row of the first table."""
    cells = [f"{title:>8} {figures['byte']:>9} {figures['line']:>7}"]
    for name, _, unit in (READ, REPORT):
        if not figures[name] or figures[name][0] == 0:
            cells.append(f"{'-':>9} {'-':>8}")
        else:
            count = figures[name][0]
            cells.append(f"{count / 1e6:>9.2f} {count / figures[unit]:>8.1f}")
    for name in ("read peak", "peak"):
        cells.append(f"{figures[name] / 2**20:>8.1f} {figures[name] / figures['byte']:>6.1f}")
    print(" ".join(cells))


def table(title, counts, whole, units):
    """The functions that take most of an instruction count, for one unit of it."""
    print(title)
    for name, count in sorted(counts.items(), key=lambda item: (-item[1], item[0]))[:ROWS]:
        print(f"{count / units:>10.1f} {100 * count / whole:>5.1f}%  {name}")
    print()


def where(figures):
    """Where the instructions of both go, in one script."""
    for name, function, unit in (READ, REPORT):
        if figures[name] is None:
            continue
        whole, left = figures[name]
        if whole == 0:
            print(f"{function} has no function of its own in this build\n")
            continue
        for title, by_function in (("in the function itself", own), ("with all that it calls", with_callees)):
            table(f"{name}, instructions a {unit}, {title}", by_function(left), whole, figures[unit])


def main():
    if len(sys.argv) > 1:
        program.PROGRAM = os.path.abspath(sys.argv[1])
    else:
        program.build()
    with tempfile.TemporaryDirectory() as folder:
        few, many = (measured(calls, folder) for calls in COUNTS)
        print(
            f"{'calls':>8} {'bytes':>9} {'lines':>7} {'read M':>9} {'a byte':>8} {'report M':>9} {'a line':>8}"
            f" {'read MiB':>8} {'a byte':>6} {'MiB':>8} {'a byte':>6}"
        )
        for figures in (few, many):
            row(str(figures["calls"]), figures)
        row("more", more(few, many))
        print()
        where(many)


if __name__ == "__main__":
    main()
