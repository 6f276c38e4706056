#!/usr/bin/env python3
"""Measures the allocator for threads, thread_cache's CacheSeat, by the workloads of the suite of peers: threadtest, shbench,
larson and prodcon with 1, 2 and 4 threads, beside the allocators there.

scratch.py builds the program timed_workloads, and the suite runs it in turns with its own, on the two processors that are
least busy: all do the same, object by object, and a program whose operations or check differ is left out. Beside that stand
the program's own ways adds and queue, what a seat's tickets and a queue of carriers cannot be faster than. Each figure is
the median of RUNS runs that take turns: nanoseconds of an operation, an alloc with its free, as a thread sees it.

usage: workloads.py [RUNS [FILE [PART]]]      (make comes first; FILE gets what plot_workloads.py draws; where there is no
                                              suite, ours alone does a part of the work: 1, or a part of that)
"""
import csv
import os
import pathlib
import re
import statistics
import subprocess
import sys
import tempfile

from process import shared_memory
from scratch import build
from suite import suite

THREADS = (1, 2, 4)
# How often each does its work by itself.
COUNTS = {"threadtest": 10, "shbench": 400, "larson": 80, "prodcon": 500_000, "adds": 10_000_000, "queue": 500_000}
BARE = {"adds": "an addition to one word", "queue": "a number through a queue"}
WORKLOADS = [way for way in COUNTS if way not in BARE]
OURS = "heap_tool"
TOLD_AS = {"workloads_tool": OURS, "pmemobj": "libpmemobj", "pmemobj-dram-oid": "libpmemobj, ids outside the pool",
           "pmemobj-noflush": "libpmemobj, no line written back"}


def ask(program, way, threads, part=1.0):
    """Nanoseconds of an operation, and how many tickets it draws."""
    processors = sorted(os.sched_getaffinity(0))[-2:]
    count = max(int(COUNTS[way] * part), 8)
    words = ["taskset", "-c", ",".join(map(str, processors)), program, way, str(threads), str(count)]
    told = subprocess.run(words, check=True, capture_output=True, text=True)
    _, _, operations, _, nanoseconds, _ = told.stdout.split()
    return float(nanoseconds), int(re.search(r"tickets=(\d+)", told.stderr)[1]) / int(operations)


def by_suite(program, runs, room):
    """By workload, system and threads the nanoseconds, as the suite measures them; nothing where there is none."""
    folder = suite()
    if folder is None:
        return {}
    table = room / "peers.tsv"
    with_ours = {**os.environ, "WORKLOADS_TOOL": str(program), "BENCH_TSV": str(table), "BENCH_REPS": str(runs)}
    said = subprocess.run([folder / "run_peers.sh", "workloads"], env=with_ours, stdout=subprocess.PIPE, text=True)
    if said.returncode != 0 or "left out" in said.stdout:
        sys.exit(said.stdout)
    print(said.stdout.splitlines()[-2])
    with open(table, newline="") as lines:
        rows = [row for row in csv.DictReader(lines, delimiter="\t") if row["metric"] == "op_ns"]
    name = {row["system"]: TOLD_AS.get(row["system"], row["system"]) for row in rows}
    return {(row["workload"], name[row["system"]], int(row["threads"])): float(row["median"]) for row in rows}


def of_ours(program, runs, part):
    """Of ours alone, by way and threads: the nanoseconds, and the tickets."""
    rounds = [{(way, t): ask(program, way, t, part) for way in COUNTS for t in THREADS} for _ in range(runs)]
    return [{key: statistics.median(each[key][k] for each in rounds) for key in rounds[0]} for k in (0, 1)]


def cell(values, digits=0):
    return " / ".join(f"{value:,.{digits}f}" for value in values)


def tell(found, bare, tickets):
    print(f"nanoseconds of an operation with {cell(THREADS)} threads")
    print("| | " + " | ".join(WORKLOADS) + " |\n|---|" + "---|" * len(WORKLOADS))
    names = list(dict.fromkeys(name for _, name, _ in found))
    for name in names:
        print(f"| {name} | " + " | ".join(cell(found[way, name, t] for t in THREADS) for way in WORKLOADS) + " |")
    print("| tickets of heap_tool | " + " | ".join(cell((tickets[way, t] for t in THREADS), 2) for way in WORKLOADS) + " |\n")
    for way, told in BARE.items():
        print(f"{told}: {cell((bare[way, t] for t in THREADS), 1)}")
    for way in WORKLOADS:
        for name in (name for name in names if name.startswith("libpmemobj")):
            ratios = (found[way, OURS, t] / found[way, name, t] for t in THREADS)
            print(f"{way}: {OURS} / {name}: {cell(ratios, 2)}")


def main(runs="7", path=None, part="1"):
    program = build("timed_workloads")
    with tempfile.TemporaryDirectory(dir=shared_memory()) as folder:
        found = by_suite(program, int(runs), pathlib.Path(folder))
    bare, tickets = of_ours(program, int(runs), float(part))
    # (where there is no suite, ours alone is told)
    ours = {(way, OURS, t): found.get((way, OURS, t), bare[way, t]) for way in WORKLOADS for t in THREADS}
    found = {**ours, **found}
    print(f"medians of {runs} runs; load {os.getloadavg()[0]:.1f}")
    tell(found, bare, tickets)
    if path:
        with open(path, "w") as out:
            for key, value in found.items():
                print(*key, f"{value:.1f}", sep="\t", file=out)


if __name__ == "__main__":
    main(*sys.argv[1:4])
