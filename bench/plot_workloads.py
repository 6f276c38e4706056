#!/usr/bin/python3
"""Draws what workloads.py and reached.py write: nanoseconds of an operation by threads, a workload each, ours beside other
allocators; and the time of recovery by how many blocks are reached.

It needs Debian's python3-matplotlib.

usage: plot_workloads.py WORKLOADS.tsv REACHED.tsv OUT.svg
"""
import csv
import sys

import matplotlib

matplotlib.use("svg")
import matplotlib.pyplot as plt

from ticks import label_each, label_plainly

# The same figures give the same file.
matplotlib.rcParams.update({"svg.hashsalt": "heap_tool", "svg.fonttype": "none"})
WORKLOADS = ("threadtest", "shbench", "larson", "prodcon")
LEFT_OUT = ("floor",)


def rows_of(path):
    with open(path, newline="") as lines:
        return list(csv.reader(lines, delimiter="\t"))


def draw_workload(axes, rows, workload):
    for name in dict.fromkeys(row[1] for row in rows if row[0] == workload and row[1] not in LEFT_OUT):
        points = [(int(row[2]), float(row[3])) for row in rows if row[:2] == [workload, name]]
        axes.plot(*zip(*points), marker="o", linewidth=2.5 if name == "heap_tool" else 1.2, label=name)
    axes.set(title=workload, xlabel="threads", ylabel="ns an operation", xscale="log", yscale="log")
    threads = sorted({int(row[2]) for row in rows})
    label_each(axes.xaxis, threads)
    label_plainly(axes.yaxis)
    axes.grid(alpha=0.3)


def draw_recovery(axes, rows):
    nodes = [int(row[0]) for row in rows]
    for column, label in ((2, "in one thread"), (1, "of that the trace"), (3, "by threads")):
        axes.plot(nodes, [float(row[column]) for row in rows], marker="o", label=label)
    axes.set(title="recovery", xlabel="reached blocks of 64 bytes", ylabel="ms", xscale="log", yscale="log")
    label_plainly(axes.xaxis, steps=(1,))
    label_plainly(axes.yaxis, steps=(1,))
    axes.grid(alpha=0.3)
    axes.legend(fontsize=8)


def main(workloads, reached, out):
    rows = rows_of(workloads)
    figure, grid = plt.subplots(2, 3, figsize=(14, 8), layout="constrained")
    places = list(grid.flat)
    for axes, workload in zip(places, WORKLOADS):
        draw_workload(axes, rows, workload)
    draw_recovery(places[4], rows_of(reached))
    places[5].axis("off")
    places[5].legend(*places[0].get_legend_handles_labels(), loc="center")
    figure.savefig(out, metadata={"Date": None})


if __name__ == "__main__":
    main(*sys.argv[1:4])
