#!/usr/bin/env python3
"""Takes the text of a repository through the gate from nothing, task by task, and ends with the plain `rt ci`.

`rt ci` alone has lanes that wait: for memory by its plan, for a proof that is ready with others and so gets one lane.
Here each crate's proof, tests and edits are a named run of their own (what it passes is kept, and the plain run at the end
takes it over), begun in the order of what stands behind them. Nothing else should run on the machine meanwhile.

Usage: python3 scripts/run_gate.py REPOSITORY FOLDER [SLOTS]
(the repository, whose last commit is taken; a folder for clones and logs; how many processors are filled, 6 where not said: a proof with the longest chain behind it fills two)
"""

import glob
import os
import shutil
import subprocess
import sys
import time

# Minutes of processor of a task, where they are known; a task that is not named here has 6.
MINUTES = {
    "proof": {
        "driver_batches": 1, "bson_lite": 10, "server_answers": 2, "wire_keys": 1, "link_faults": 1, "driver_error": 9, "bulk_outcomes": 2, "driver_options": 5, "driver_link": 4, "memory_links": 3, "driver_session": 2,
        "frame_reading": 5, "machine_laws": 1, "driver_ops": 5, "statement_ops": 4, "write_ops": 3, "bulk_fronts": 4, "bulk_ops": 6, "driver_inputs": 4, "retry_rules": 2,
        "driver_attempt": 5, "driver_exec": 3, "driver_actions": 5, "many_actions": 5, "bulk_actions": 5, "call_runs": 4, "model_statements": 2, "model_replies": 4, "standard_streams": 1, "model_effects": 4,
        "model_server": 6, "script_parts": 4, "driver_script": 7, "report_lines": 4, "script_run": 5, "test_parts": 9, "script_rows": 2, "write_bench": 4,
        "driver_cli": 4, "callers": 3, "bson_bench": 2,
    },
    "tests": {
        "bson_tests": 7, "error_tests": 14, "form_tests": 9, "link_tests": 10, "page_tests": 7, "page_server_tests": 11, "bulk_tests": 11,
        "bulk_input_tests": 5, "many_tests": 10, "executor_tests": 7, "reply_tests": 5, "call_tests": 10, "script_tests": 6,
    },
}

# Gigabytes that a task takes, and how many of them may be taken together.
MEMORY = {"proof": 3.0, "tests": 4.2, "edits": 2.4}
ROOM = 20

# The share of the processors, as /proc/PID/autogroup takes it, of proofs and of the rest.
SHARES = {"proof": "-17", "tests": "-12", "edits": "-9"}


def say(*words):
    print(time.strftime("%H:%M:%S"), *words, flush=True)


def crates_of(root):
    """The crates below each crate, as crates.txt has them."""
    found = {}
    with open(f"{root}/crates.txt", encoding="utf8") as listed:
        for line in listed:
            head, colon, rest = line.split("#")[0].partition(":")
            if colon:
                found[head.split()[0]] = rest.split()
    return {name: [it for it in rest if it in found] for name, rest in found.items()}


def minutes(task, edits):
    """The minutes of processor of a task."""
    kind, name = task
    if kind == "edits":
        return minutes(("proof", name), edits) + 1.1 * edits[name]
    return MINUTES[kind].get(name, 6)


def tasks_of(root, crates):
    """What each task waits for, and the number of edits of each crate."""
    edits = {name: len(glob.glob(f"{root}/crates/{name}/must-fail/*.edit")) for name in crates}
    waits = {}
    for name, below in crates.items():
        proofs = [("proof", it) for it in below]
        waits["tests" if name.endswith("_tests") else "proof", name] = proofs
        if edits[name]:
            waits["edits", name] = [("proof", name)]
    return waits, edits


def chains(waits, edits):
    """For each task the minutes of the longest chain that begins with it."""
    behind = {}

    def of(task):
        if task not in behind:
            after = [of(it) for it, needs in waits.items() if task in needs]
            behind[task] = minutes(task, edits) + max(after, default=0)
        return behind[task]

    for task in waits:
        of(task)
    return behind


def begin(task, slot, repository, folder):
    """Begins a task as a named run in a clone of its own, which has the edits of that crate alone; in one lane, or in as many as memory allows."""
    kind, name = task
    clone = f"{folder}/{kind}-{name}"
    shutil.rmtree(clone, ignore_errors=True)
    subprocess.run(["git", "clone", "-q", repository, clone], check=True)
    for other in glob.glob(f"{clone}/crates/*/must-fail"):
        if kind != "edits" or f"/{name}/" not in other:
            shutil.rmtree(other)
    lanes = {**os.environ, "RT_JOBS": "1"} if slot == 1 else dict(os.environ)
    with open(f"{folder}/{kind}-{name}.log", "w", encoding="utf8") as log:
        run = subprocess.Popen(["rt", "ci", name], cwd=clone, env=lanes, stdout=log, stderr=log, start_new_session=True)
    with open(f"/proc/{run.pid}/autogroup", "w", encoding="utf8") as group:
        group.write(SHARES[kind])
    return run


def slots_of(task, running, ready, behind):
    """How many processors a task fills: two where it is the proof with the longest chain behind it, else one."""
    proofs = [it for it in [*running, *ready] if it[0] == "proof"]
    return 2 if task[0] == "proof" and behind[task] == max(behind[it] for it in proofs) else 1


def run_all(repository, folder, slots):
    """Runs all tasks; returns those that failed."""
    crates = crates_of(repository)
    waits, edits = tasks_of(repository, crates)
    behind = chains(waits, edits)
    say(len(waits), "tasks,", round(sum(minutes(it, edits) for it in waits)), "minutes of processor by the table")
    left, running, done, failed = set(waits), {}, set(), set()
    while left or running:
        for task in [it for it in left if any(needs in failed for needs in waits[it])]:
            left.remove(task)
            failed.add(task)
            say("left out:", *task)
        ready = sorted((it for it in left if all(needs in done for needs in waits[it])), key=lambda it: -behind[it])
        for task in ready:
            free = slots - sum(slot for _run, slot, _begun in running.values())
            room = ROOM - sum(MEMORY[it[0]] for it in running)
            slot = min(slots_of(task, running, ready, behind), free)
            if running and (slot < 1 or MEMORY[task[0]] > room):
                # nothing with less behind it goes first
                break
            left.remove(task)
            running[task] = begin(task, max(slot, 1), repository, folder), max(slot, 1), time.time()
        time.sleep(1)
        for task, (run, _slot, begun) in list(running.items()):
            kind, name = task
            if run.poll() is None:
                continue
            del running[task]
            shutil.rmtree(f"{folder}/{kind}-{name}", ignore_errors=True)
            is_well = run.returncode == 0
            (done if is_well else failed).add(task)
            say(*task, "passed" if is_well else "FAILED", f"after {(time.time() - begun) / 60:.1f} minutes;", len(left), "left")
    return failed


def main():
    repository, folder = os.path.abspath(sys.argv[1]), os.path.abspath(sys.argv[2])
    slots = int(sys.argv[3]) if len(sys.argv) > 3 else 6
    os.makedirs(folder, exist_ok=True)
    with open("/proc/self/autogroup", "w", encoding="utf8") as group:
        group.write("-15")
    failed = run_all(repository, folder, slots)
    say("failed:" if failed else "all passed", *(f"{kind} {name}" for kind, name in sorted(failed)))
    whole = f"{folder}/whole"
    shutil.rmtree(whole, ignore_errors=True)
    subprocess.run(["git", "clone", "-q", repository, whole], check=True)
    sys.exit(subprocess.run(["bash", ".ci/run"], cwd=whole, check=False).returncode)


if __name__ == "__main__":
    main()
