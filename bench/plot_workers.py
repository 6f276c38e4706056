#!/usr/bin/python3
"""Draws the requests a second of heap_tool and of other stores by workers, from what workers.py writes: those of the whole
process, and of the requests alone; on top with 256 superblocks, below with 16.

It needs Debian's python3-matplotlib.

usage: plot_workers.py WORKERS.tsv OUT.svg
"""
import csv
import sys

import matplotlib

matplotlib.use("svg")
import matplotlib.pyplot as plt

from ticks import label_each, label_plainly

# The same figures give the same file.
matplotlib.rcParams.update({"svg.hashsalt": "heap_tool", "svg.fonttype": "none"})
METRICS = {"whole": "whole process", "requests": "the requests alone"}


def draw(axes, rows, size, metric):
    for name in dict.fromkeys(row[1] for row in rows):
        points = [(int(row[2]), 1e3 / float(row[4])) for row in rows if (row[0], row[1], row[3]) == (size, name, metric)]
        if points:
            axes.plot(*zip(*points), marker="o", linewidth=2.5 if name == "heap_tool" else 1.2, label=name)
    workers = sorted({int(row[2]) for row in rows})
    axes.set(title=f"{METRICS[metric]}, {size} superblocks", xlabel="workers", ylabel="million requests a second")
    axes.set(xscale="log", yscale="log")
    label_each(axes.xaxis, workers)
    label_plainly(axes.yaxis)
    axes.grid(alpha=0.3)


def main(path, out):
    with open(path, newline="") as lines:
        rows = list(csv.reader(lines, delimiter="\t"))
    sizes = list(dict.fromkeys(row[0] for row in rows))
    figure, grid = plt.subplots(len(sizes), len(METRICS), figsize=(11, 4.5 * len(sizes)), layout="constrained", squeeze=False)
    for line, size in zip(grid, sizes):
        for axes, metric in zip(line, METRICS):
            draw(axes, rows, size, metric)
    # (where no line is)
    grid[0][-1].legend(loc="center", bbox_to_anchor=(0.5, 0.72), ncol=2)
    figure.savefig(out, metadata={"Date": None})


if __name__ == "__main__":
    main(*sys.argv[1:3])
