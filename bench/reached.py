#!/usr/bin/env python3
"""Times recovery in one thread and by threads, by how many blocks are reached: from 1,000 to 4,000,000 nodes of 64 bytes in
eight shards of the dictionary, each in an image of as many superblocks as they take.

scratch.py builds the text timed_parallel.txt, which recovers an image again and again by both: words are copied before each
recovery, and neither that nor the reading of the file is measured. Each figure is the median of RUNS processes that take
turns, of CALLS recoveries each; what a process recovers first touches its memory, and is left out.

usage: reached.py [RUNS [CALLS [FILE [NODES..]]]]      (make comes first; FILE gets what plot_workloads.py draws)
"""
import os
import pathlib
import statistics
import subprocess
import sys
import tempfile

from process import shared_memory
from scratch import HERE, build

NODES = (1_000, 10_000, 100_000, 1_000_000, 4_000_000)


def measure(program, image, calls):
    """Milliseconds of each recovery but the first: up to the pass over the superblocks, of the whole in one thread, by threads."""
    words = [program, image, str(calls + 1)]
    told = subprocess.run(words, check=True, capture_output=True, text=True).stdout
    rows = [[int(number) / 1e6 for number in line.split()] for line in told.splitlines()[1:]]
    return [(before, before + taken + behind, threads) for before, taken, behind, threads in rows]


def tell(found):
    print("| reached blocks | superblocks | in one thread, ms | of that the trace | ns a block | by threads, ms |")
    print("|---|---|---|---|---|---|")
    for nodes, (trace, whole, threads) in found.items():
        superblocks = 1 - (-nodes * 64 // 65_536)
        print(f"| {nodes:,} | {superblocks:,} | {whole:,.2f} | {trace:,.2f} | {whole * 1e6 / nodes:,.0f} | {threads:,.2f} |")


def main(runs="5", calls="5", path=None, *nodes):
    nodes = tuple(map(int, nodes)) or NODES
    program = build("timed_parallel.txt")
    with tempfile.TemporaryDirectory(dir=shared_memory()) as folder:
        images = {count: pathlib.Path(folder) / f"nodes{count}" for count in nodes}
        for count, image in images.items():
            subprocess.run([HERE / "full_image.py", image, "--nodes", str(count), "8"], check=True)
        series = {}
        for _ in range(int(runs)):
            for count, image in images.items():
                series.setdefault(count, []).extend(measure(program, image, int(calls)))
    found = {count: [statistics.median(each) for each in zip(*rows)] for count, rows in series.items()}
    print(f"medians of {runs} processes of {calls} recoveries; load {os.getloadavg()[0]:.1f}")
    tell(found)
    if path:
        with open(path, "w") as out:
            for count, each in found.items():
                print(count, *(f"{ms:.3f}" for ms in each), sep="\t", file=out)


if __name__ == "__main__":
    main(*sys.argv[1:])
