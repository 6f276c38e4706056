#!/usr/bin/env python3
"""Times recovery by threads, beside recovery in one thread, on images of 256 and of 4,096 superblocks in which each 32-byte
block is reached, with 1, 2 and 4 processors (taskset).

scratch.py builds the text timed_parallel.txt: it recovers an image again and again by both, and looks at the clock before
and behind the pass over the taken superblocks in one thread. Each figure is the median of RUNS processes that take turns,
of CALLS recoveries each. What the pass takes by threads is reckoned: the whole by threads, less the other parts.

usage: recovering.py [RUNS [CALLS [SUPERBLOCKS..]]]      (make comes first)
"""
import os
import pathlib
import statistics
import subprocess
import sys
import tempfile

from process import shared_memory
from scratch import HERE, build

SIZES = (256, 4096)
PROCESSORS = (1, 2, 4)


def measure(program, image, processors, calls):
    """Milliseconds of each recovery: before the pass in one thread, of that, behind it; and of the whole by threads."""
    words = ["taskset", "-c", f"0-{processors - 1}", program, image, str(calls)]
    told = subprocess.run(words, check=True, capture_output=True, text=True).stdout
    return [[int(number) / 1e6 for number in line.split()] for line in told.splitlines()]


def reckon(lines):
    """The medians of what is told in a row."""
    before, taken, behind, threads = (statistics.median(each) for each in zip(*lines))
    return before + taken + behind, threads, before, taken, threads - before - behind, behind


def tell(series, sizes, processors):
    print("| superblocks | processors | in one thread | by threads | times | reached | pass | pass by threads | rest, lists |")
    print("|---|---|---|---|---|---|---|---|---|")
    for size in sizes:
        for count in processors:
            whole, threads, *parts = reckon(series[size, count])
            cells = (f"{ms:,.1f}" for ms in parts)
            print(f"| {size:,} | {count} | {whole:,.1f} | {threads:,.1f} | {threads / whole:.2f} | {' | '.join(cells)} |")


def main(runs="5", calls="3", *sizes):
    sizes = tuple(map(int, sizes)) or SIZES
    usable = sorted(os.sched_getaffinity(0))
    processors = [count for count in PROCESSORS if set(range(count)) <= set(usable)]
    program = build("timed_parallel.txt")
    with tempfile.TemporaryDirectory(dir=shared_memory()) as folder:
        images = {size: pathlib.Path(folder) / f"full{size}" for size in sizes}
        for size, image in images.items():
            subprocess.run([HERE / "full_image.py", image, str(size), "8"], check=True)
        series = {}
        for _ in range(int(runs)):
            for size, image in images.items():
                for count in processors:
                    series.setdefault((size, count), []).extend(measure(program, image, count, calls))
    print(f"milliseconds, medians of {runs} processes of {calls} recoveries; load {os.getloadavg()[0]:.1f}")
    tell(series, sizes, processors)


if __name__ == "__main__":
    main(*sys.argv[1:])
