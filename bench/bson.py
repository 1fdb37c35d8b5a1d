#!/usr/bin/env python3
"""Times encode, decode and a plain copy of the same bytes, in MB/s.

It proves and builds crates/bson_bench as the gate's first run does (`rt run`: LLVM, the default
level), and runs each case several times. A figure is the bytes of all rounds over the median of the
processor time, less the median of the same run with no rounds, which makes the documents alone.

usage: bench/bson.py [RUNS]        (RUNS: 7 if left out)
"""
import os
import resource
import statistics
import subprocess
import sys

CRATE = os.path.join(os.path.dirname(os.path.abspath(__file__)), "..", "crates", "bson_bench")
PROGRAM = os.path.join(CRATE, "out", "bson_bench")
# The bytes of a round, and rounds that take a few tenths of a second.
SAMPLES = {"flat": (10_005, 6_000), "nested": (397, 150_000), "small": (520_000, 120)}
TIMES_AS_MANY = {"encode": 2, "decode": 1, "copy": 10}


def spent():
    usage = resource.getrusage(resource.RUSAGE_CHILDREN)
    return usage.ru_utime + usage.ru_stime


def seconds(words, runs):
    times = []
    for _ in range(runs):
        before = spent()
        subprocess.run([PROGRAM, *words], check=True, stdout=subprocess.DEVNULL)
        times.append(spent() - before)
    return statistics.median(times)


def main():
    runs = int(sys.argv[1]) if len(sys.argv) > 1 else 7
    subprocess.run(["rt", "run", "--jobs", "1"], cwd=CRATE, check=True, stdout=subprocess.DEVNULL)
    print(f"{'':8}{'flat':>8}{'nested':>8}{'small':>8}   MB/s")
    for work, times in TIMES_AS_MANY.items():
        figures = []
        for sample, (size, rounds) in SAMPLES.items():
            rounds *= times
            full = seconds([work, sample, str(rounds)], runs)
            made = seconds([work, sample, "0"], runs)
            figures.append(size * rounds / max(full - made, 1e-9) / 1e6)
        print(f"{work:8}" + "".join(f"{figure:8.0f}" for figure in figures))


if __name__ == "__main__":
    main()
