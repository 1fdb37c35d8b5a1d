#!/usr/bin/env python3
"""Times a small insert: by a call of its own over a link that answers from memory, and as one of a list over the
model server; the cut of a list of them: the longest front of their sizes, and the build of their batch; and over that
link too one insert of many documents in one batch, and one bulk write of as many inserts in one batch, which answers
counts (`bulk`) or the result of each (`verbose`).

Proves and builds crates/write_bench as the gate's first run does (`rt run`: LLVM, the default level), and runs
each work with a number of inserts and with ten times as many: 1,000 for calls and for writes of one call, 10,000
for cuts. A figure of a call is what the larger run takes more, over the calls that it makes more, so the start of the
program is left out; it has in it the insert that is made anew for each call and let go again. Processor time is the
median of some runs. Where valgrind is installed, callgrind counts instructions, and two tables for each work say where
those of a call go: the ten functions that take most themselves, all instances of a generic function in one row, and the
ten that take most with all that they call, each instance in a row of its own. Last lines say what `run` alone takes for
each write, of `InsertMany` and of `BulkWrite`: what `many` takes more than `given`, in which the same documents are
made, handed in and let go, what `bulk` takes more than `models` and `verbose` more than `results`, in which the same
models and the same reply are made and let go; and all that callgrind counts inside of `run`.

usage: bench/write.py [RUNS [PROGRAM]]      (RUNS: 9 if left out; with a PROGRAM nothing is built)
"""

import os
import re
import resource
import shutil
import statistics
import subprocess
import sys
import tempfile

CRATE = os.path.join(os.path.dirname(os.path.abspath(__file__)), "..", "crates", "write_bench")
PROGRAM = os.path.join(CRATE, "out", "write_bench")
WORKS = {
    "single": ("ok={count}", 1_000),
    "list": ("ok={count} entries={count}", 1_000),
    "split": ("front={count}", 10_000),
    "build": ("taken={count}", 10_000),
    "given": ("given={count}", 1_000),
    "many": ("ids={count}", 1_000),
    "models": ("models={count}", 1_000),
    "bulk": ("inserted={count}", 1_000),
    "results": ("results={count}", 1_000),
    "verbose": ("ids={count}", 1_000),
}

# The works that run a call of many writes, each with the call and the work that makes the same and runs nothing.
RUNS = {"many": ("InsertMany", "given"), "bulk": ("BulkWrite", "models"), "verbose": ("BulkWrite", "results")}

TIMES = 10
ROWS = 10

# A line of callgrind_annotate: a count, its share, and a file with a function, as
#  4,426 (1.75%)  ???:driver_exec::execute::execute_operation_with_retry::<#33556ab3133f353b> [write_bench]
LINE = re.compile(r"^ *([\d,]+) \( *[\d.]+%\)  ([^:\n]*):(.+?)(?: \[[^\]]*\])?$", re.MULTILINE)


def spent():
    usage = resource.getrusage(resource.RUSAGE_CHILDREN)
    return usage.ru_utime + usage.ru_stime


def seconds(program, work, count, runs):
    """The processor seconds of a run, which must end well."""
    wanted = f"{work} {count}: {WORKS[work][0].format(count=count)}\n"
    times = []
    for _ in range(runs):
        before = spent()
        told = subprocess.run([program, work, str(count)], check=True, stdout=subprocess.PIPE, text=True)
        times.append(spent() - before)
        if told.stdout != wanted:
            raise SystemExit(f"{told.stdout.strip()}, and not {wanted.strip()}")
    return statistics.median(times)


def counted(program, work, count, folder):
    """How many instructions a run takes, and the file that callgrind leaves."""
    path = os.path.join(folder, f"{work}{count}")
    counter = ["valgrind", "--tool=callgrind", f"--callgrind-out-file={path}", program, work, str(count)]
    told = subprocess.run(counter, check=True, stdout=subprocess.DEVNULL, stderr=subprocess.PIPE)
    return int(re.search(rb"Collected : (\d+)", told.stderr)[1]), path


def annotated(path, inclusive):
    """The instructions of each function: its own, or those with all that it calls."""
    told = subprocess.run(
        ["callgrind_annotate", "--threshold=100", f"--inclusive={inclusive}", path],
        check=True,
        stdout=subprocess.PIPE,
        text=True,
    )
    return [(function, int(count.replace(",", ""))) for count, _, function in LINE.findall(told.stdout)]


def own(path):
    """The own instructions of each function, instances and depths of recursion added up."""
    sums = {}
    for function, count in annotated(path, "no"):
        name = re.sub(r"'\d+$", "", re.sub(r"::<.*>", "", function))
        sums[name] = sums.get(name, 0) + count
    return sums


def with_callees(path):
    """The instructions of each instance with all that it calls. One that is inside of itself is counted by its outer
    call; the C library and the start are left out."""
    sums = {}
    for function, count in annotated(path, "yes"):
        if "::" in function and not re.search(r"'\d+$", function):
            name = re.sub(r"<#(\w{4})\w*>", r"<\1>", function)
            sums[name] = max(sums.get(name, 0), count)
    return sums


def table(title, few, many, whole, calls):
    """The functions that take most of a call, whose instructions are `whole`."""
    print(title)
    each = {name: (count - few.get(name, 0)) / calls for name, count in many.items()}
    dearest = sorted(each.items(), key=lambda item: (-item[1], item[0]))[:ROWS]
    for name, count in dearest:
        if count < 0.5:
            break
        print(f"{count:>10.0f} {100 * count / whole:>5.1f}%  {name}")
    print()


def measure(program, work, runs, folder):
    """Prints the figures of a call, and where its instructions go. It answers for both numbers of inserts how many
    instructions the run took, and the file that callgrind left, or None without callgrind."""
    counts = (WORKS[work][1], TIMES * WORKS[work][1])
    calls = counts[1] - counts[0]
    few, many = (seconds(program, work, count, runs) for count in counts)
    print(f"{work}: an insert of {counts[1]} over {counts[0]}, median of {runs} runs")
    print(f"{1e6 * (many - few) / calls:>10.2f} us of processor time ({few * 1e3:.1f} and {many * 1e3:.1f} ms)")
    if shutil.which("valgrind") is None or shutil.which("callgrind_annotate") is None:
        print("         - instructions: valgrind is not installed\n")
        return None
    (few, few_path), (many, many_path) = (counted(program, work, count, folder) for count in counts)
    whole = (many - few) / calls
    print(f"{whole:>10.0f} instructions ({few / 1e6:.1f} and {many / 1e6:.1f} M, {many / few:.2f} times)\n")
    table("of these in the function itself", own(few_path), own(many_path), whole, calls)
    table("in the function and all that it calls", with_callees(few_path), with_callees(many_path), whole, calls)
    return {counts[0]: (few, few_path), counts[1]: (many, many_path)}


def inside_run(call, path):
    """The instructions of a call's `run` with all that it calls, or None where it has no function of its own."""
    name_of_run = re.compile(rf"\b{call}\b.*::run\b")
    return max((count for name, count in with_callees(path).items() if name_of_run.search(name)), default=None)


def each_and_times(title, sums):
    """Prints the figures of a write, for the smaller number and the larger one, and how often the first sum goes into
    the second."""
    (few, few_sum), (many, many_sum) = sorted(sums.items())
    print(f"{few_sum / few:>10.0f} and {many_sum / many:.0f} ({many_sum / few_sum:.2f} times for all) {title}")


def run_alone(work, taken):
    """Prints what the `run` of a call of many writes alone takes."""
    call, without = RUNS[work]
    few, most = sorted(taken[work])
    print(f"{work}: instructions of `{call}::run` for each write, of {few} and of {most}")
    more = {count: taken[work][count][0] - taken[without][count][0] for count in taken[work]}
    each_and_times(f"more than `{without}`", more)
    inside = {count: inside_run(call, path) for count, (_, path) in taken[work].items()}
    if None in inside.values():
        print("         - inside of `run`: it has no function of its own")
    else:
        each_and_times("inside of `run`", inside)
    print()


def main():
    runs = int(sys.argv[1]) if len(sys.argv) > 1 else 9
    program = os.path.abspath(sys.argv[2]) if len(sys.argv) > 2 else PROGRAM
    if len(sys.argv) <= 2:
        subprocess.run(["rt", "run", "--jobs", "1"], cwd=CRATE, check=True, stdout=subprocess.DEVNULL)
    with tempfile.TemporaryDirectory() as folder:
        taken = {work: measure(program, work, runs, folder) for work in WORKS}
        if None not in taken.values():
            for work in RUNS:
                run_alone(work, taken)


if __name__ == "__main__":
    main()
