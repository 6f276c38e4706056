#!/usr/bin/env python3
"""Times the requests of heap_tool run by one worker beside the same trace over the heap for one thread, block_heap's SeqHeap.

The program has no such run. scratch.py builds the text timed_one_worker.txt, which works a trace off by the same calls of
worker_run and dict_requests over that heap, and looks at the clock at its first request and behind the last. Of heap_tool it is
the time of the call that has the worker do its work, as in workers.py; traces and images are the same. Replies that differ
are refused.

usage: one_worker.py [RUNS [REQUESTS]]      (make comes first)
"""
import os
import pathlib
import statistics
import subprocess
import sys
import tempfile

from process import shared_memory
from scratch import build
from stops import can_stop, places_of
from workers import OURS, RUN_JOBS, SIZES, TOOL, Store, make_traces


def run_for_one(program, requests, superblocks, trace):
    """The nanoseconds of the requests, and the replies."""
    with open(trace) as lines:
        words = [program, str(requests), str(superblocks)]
        made = subprocess.run(words, check=True, stdin=lines, capture_output=True, text=True)
    return int(made.stderr), made.stdout.split("\n")[:requests]


def check(room, store, program, trace, requests):
    """Both reply alike, and no reply is that there is no room."""
    _, replies = run_for_one(program, requests, store.superblocks, trace)
    if len(replies) < requests or "full" in replies:
        sys.exit(f"{store.superblocks} superblocks: a put has found no room")
    if replies != store.replies(room, 1, trace, requests):
        sys.exit(f"{store.superblocks} superblocks: replies differ")


def tell(series, requests):
    """By size the medians, and the ratio: the median of the rounds' own ratios, since the machine's speed changes."""
    print("| superblocks | SeqHeap | heap_tool, 1 worker | times | the least of each | times |")
    print("|---|---|---|---|---|---|")
    for size, rounds in series.items():
        ours, for_one = ([each[k] / requests for each in rounds] for k in (0, 1))
        times = statistics.median(a / b for a, b in rounds)
        least = f"{min(for_one):,.0f} and {min(ours):,.0f} | {min(ours) / min(for_one):.2f}"
        print(f"| {size} | {statistics.median(for_one):,.0f} | {statistics.median(ours):,.0f} | {times:.2f} | {least} |")


def main(runs="15", requests="100000"):
    if not can_stop():
        sys.exit("no process can be stopped here")
    requests, places, program = int(requests), places_of(TOOL, RUN_JOBS), build("timed_one_worker.txt")
    with tempfile.TemporaryDirectory(dir=shared_memory()) as folder:
        room = pathlib.Path(folder)
        traces = make_traces(room, requests)
        stores = {size: Store(OURS, room, size, TOOL) for size in SIZES}
        for size, store in stores.items():
            check(room, store, program, traces[size], requests)
        series = {size: [] for size in SIZES}
        for _ in range(int(runs)):
            for size, store in stores.items():
                ours = store.nanoseconds_of_requests(places, 1, traces[size])
                series[size].append((ours, run_for_one(program, requests, size, traces[size])[0]))
    print(f"nanoseconds a request, medians of {runs} runs that take turns; {requests:,} requests; load {os.getloadavg()[0]:.1f}")
    tell(series, requests)


if __name__ == "__main__":
    main(*sys.argv[1:3])
