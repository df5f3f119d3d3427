#!/usr/bin/env python3
"""Times programs on trees: times.py RUNS FOLDER TREE.. , on crates/oxt and crates/oxt_floor in turn.

A form of a tree is lowered under the flags for it. Prints the processor time in milliseconds, best and median, the most memory, and the instructions where
there is valgrind, of each; for a small tree the memory is that of this script, from which the programs are started.
"""
import os
import re
import shutil
import statistics
import subprocess
import sys

PROGRAMS = ("oxt_floor", "oxt")
FLAGS = {"fields": ["--set-public-class-fields"], "decorators": ["--legacy"]}


def words(program, path):
    """The words that run the program on the tree."""
    form = os.path.basename(path).rpartition("-")[0]
    return [f"crates/{program}/out/{program}", *(FLAGS.get(form, []) if program == "oxt" else [])]


def run(program, path):
    """The milliseconds of processor time and the megabytes of one run."""
    with open(path, "rb") as source:
        child = subprocess.Popen(words(program, path), stdin=source, stdout=subprocess.DEVNULL)
        _, status, usage = os.wait4(child.pid, 0)
    if status != 0:
        sys.exit(f"{program} failed on {path}")
    return (usage.ru_utime + usage.ru_stime) * 1000, usage.ru_maxrss / 1024


def measure(path, runs):
    """The best time of each program on a tree, whose runs take turns."""
    seen = {program: [] for program in PROGRAMS}
    for _ in range(runs):
        for program in PROGRAMS:
            seen[program].append(run(program, path))
    best = {}
    for program in PROGRAMS:
        times = [time for time, _ in seen[program]]
        best[program] = min(times)
        memory = max(megabytes for _, megabytes in seen[program])
        print(f"  {program:9} best {min(times):8.1f} ms  median {statistics.median(times):8.1f} ms  memory {memory:6.1f} MB")
    return best


def instructions(program, path):
    """The instructions of one run, in millions."""
    count = ["valgrind", "--tool=callgrind", "--callgrind-out-file=/dev/null"]
    with open(path, "rb") as source:
        done = subprocess.run([*count, *words(program, path)], stdin=source, stdout=subprocess.DEVNULL, stderr=subprocess.PIPE, text=True, check=True)
    return int(re.search(r"refs: +([0-9,]+)", done.stderr)[1].replace(",", "")) / 1e6


def count_instructions(path):
    """Prints the instructions of each program on a tree, and the ratio."""
    floor, oxt = (instructions(program, path) for program in PROGRAMS)
    print(f"  instructions: oxt_floor {floor:.1f} M, oxt {oxt:.1f} M, {oxt / floor:.2f} times the floor")


def main():
    runs, folder, *trees = sys.argv[1:]
    earlier = {}
    for tree in trees:
        path = f"{folder}/{tree}.json"
        with open(path) as file:
            nodes = file.read().count('"type":')
        print(f"{tree}: {os.path.getsize(path):,} bytes, {nodes:,} nodes")
        best = measure(path, int(runs))
        print(f"  oxt takes {best['oxt'] / best['oxt_floor']:.2f} times the floor")
        if shutil.which("valgrind"):
            count_instructions(path)
        if earlier and "-" not in tree:
            grown = nodes / earlier["nodes"]
            factor = best["oxt"] / earlier["oxt"]
            print(f"  {grown:.2f} times the nodes take {factor:.2f} times the time")
        earlier = {"nodes": nodes, **best}


main()
