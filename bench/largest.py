#!/usr/bin/env python3
"""Times heap_tool on images of 4,096 superblocks, the most that there are, beside images of 256: show of an empty heap,
a run of 10,000 requests over an empty heap, and show where each 32-byte block is reached, by eight shards.

Each figure is the least of RUNS runs that take turns: of the whole process from its start to its end, of its processor
time, and of its peak memory. What they print goes nowhere. The files lie in a folder of TMPDIR, more than a gigabyte,
and the image of a run is made anew before each.

usage: largest.py [RUNS [REQUESTS]]      (make comes first)
"""
import os
import pathlib
import subprocess
import sys
import tempfile

from process import own_peak, took

HERE = pathlib.Path(__file__).resolve().parent
TOOL = str(HERE.parent / "bin" / "heap_tool")
MOST, BESIDE = 4096, 256
SEED = "7"


def make_empty(image, superblocks):
    subprocess.run([TOOL, "format", image, str(superblocks)], check=True, stdout=subprocess.DEVNULL)


def prepare(room, requests):
    """For each name heap_tool's words and its input, by the number of superblocks."""
    trace = room / "trace"
    with open(trace, "wb") as out:
        subprocess.run([TOOL, "gen", requests, SEED], check=True, stdout=out)
    for superblocks in (BESIDE, MOST):
        make_empty(room / f"empty{superblocks}", superblocks)
        subprocess.run([HERE / "full_image.py", room / f"full{superblocks}", str(superblocks), "8"], check=True)
    return {
        "show, empty": (lambda superblocks: ["show", room / f"empty{superblocks}"], os.devnull),
        f"run --sum, gen {requests} {SEED}": (lambda _: ["run", room / "image", "--workers", "1", "--sum"], trace),
        "show, each block reached": (lambda superblocks: ["show", room / f"full{superblocks}"], os.devnull),
    }


def measure(room, ways, runs):
    """The least of each, by its name and the number of superblocks."""
    rounds = []
    for _ in range(runs):
        found = {}
        for name, (words, stdin) in ways.items():
            for superblocks in (BESIDE, MOST):
                if name.startswith("run"):
                    make_empty(room / "image", superblocks)
                found[name, superblocks] = took([TOOL, *map(str, words(superblocks))], str(stdin))
        rounds.append(found)
    return {way: [min(each[way][k] for each in rounds) for k in range(3)] for way in rounds[0]}


def main(runs="5", requests="10000"):
    with tempfile.TemporaryDirectory() as folder:
        room = pathlib.Path(folder)
        ways = prepare(room, requests)
        length = {superblocks: (room / f"empty{superblocks}").stat().st_size for superblocks in (BESIDE, MOST)}
        least = measure(room, ways, int(runs))
    print(f"least of {runs} runs; load {os.getloadavg()[0]:.1f}")
    print("| what | superblocks | ms | ms of the processor | peak MB | peak, of the image |")
    print("|---|---|---|---|---|---|")
    for (name, superblocks), (ms, cpu, peak) in least.items():
        memory = f"{peak / 1e6:.1f} | {peak / length[superblocks]:.2f}" if peak > own_peak() else "|"
        print(f"| {name} | {superblocks:,} | {ms:.1f} | {cpu:.1f} | {memory} |")
    for name in ways:
        whole, cpu, _ = (a / b for a, b in zip(least[name, MOST], least[name, BESIDE]))
        print(f"{name}: {whole:.1f} times that of {BESIDE} superblocks, of the processor {cpu:.1f} times"
              f" (the image: {length[MOST] / length[BESIDE]:.1f} times)")


if __name__ == "__main__":
    main(*sys.argv[1:3])
