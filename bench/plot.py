#!/usr/bin/python3
"""Draws what was measured: the time of a run by its requests, and that of other stores beside it.

RUNNING.tsv is what running.py writes, the others what the suite of peers does, with images of 256 and of 16 superblocks.
It needs Debian's python3-matplotlib, which nothing else does.

usage: plot.py RUNNING.tsv PEERS_256.tsv PEERS_16.tsv OUT.svg
"""
import csv
import sys

import matplotlib

matplotlib.use("svg")
import matplotlib.pyplot as plt

from ticks import label_plainly

# The same figures give the same file.
matplotlib.rcParams.update({"svg.hashsalt": "heap_tool", "svg.fonttype": "none"})
WORKLOAD, OURS = "gen100000", "heap_tool"


def draw_requests(axes, path):
    with open(path, newline="") as lines:
        rows = list(csv.reader(lines, delimiter="\t"))
    for way in dict.fromkeys(row[0] for row in rows):
        points = [(int(count) / 1e3, float(ms)) for name, count, ms in rows if name == way]
        axes.plot(*zip(*points), marker="o", label=way)
    axes.set(title="run of gen N 7 on format h 256", xlabel="N, in thousands", ylabel="ms, the least of the runs")
    axes.set(xlim=(0, None), ylim=(0, None))
    axes.legend()


def medians(path, metric):
    """The nanoseconds of each store."""
    with open(path, newline="") as lines:
        rows = list(csv.DictReader(lines, delimiter="\t"))
    wanted = (row for row in rows if (row["workload"], row["metric"]) == (WORKLOAD, metric))
    return {row["system"]: float(row["median"]) for row in wanted}


def draw_peers(axes, path, small):
    """The whole process, and the same less that on an empty trace; ours also on the small image."""
    whole, net = medians(path, "whole_ns"), medians(path, "net_ns")
    for times, metric in ((whole, "whole_ns"), (net, "net_ns")):
        times[f"{OURS}, 16 sb"] = medians(small, metric)[OURS]
    names = sorted(whole, key=whole.get, reverse=True)
    for shift, times, label in ((0.2, whole, "whole process"), (-0.2, net, "less an empty trace")):
        values = [times[name] for name in names]
        bars = axes.barh([at + shift for at in range(len(names))], values, 0.4, label=label)
        axes.bar_label(bars, labels=[f"{each:,.0f}" for each in values], padding=3, fontsize=8)
    axes.set_yticks(range(len(names)), names)
    for label in axes.get_yticklabels():
        label.set_fontweight("bold" if label.get_text().startswith(OURS) else "normal")
    axes.set(title="gen 100000 7, one worker", xlabel="ns a request, median", xscale="log")
    axes.set_xlim(100, 4 * max(whole.values()))
    label_plainly(axes.xaxis)
    axes.legend()


def main(running, peers, small, out):
    figure, (left, right) = plt.subplots(1, 2, figsize=(12, 5), layout="constrained")
    draw_requests(left, running)
    draw_peers(right, peers, small)
    figure.savefig(out, metadata={"Date": None})


if __name__ == "__main__":
    main(*sys.argv[1:5])
