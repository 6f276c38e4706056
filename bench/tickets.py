#!/usr/bin/env python3
"""Counts the tickets of heap_tool run by 1, 2, 4 and 8 workers, and tells by them about how many exchanges were lost.

The program doesn't count its losses. stops.py stops it where the workers have done their work, and the word that counts
tickets is read in its memory. It is found there as docs/ALGORITHM.md has it: the table has the words of the image twice,
and then this word. With one worker it is held against --stop, at which a run of so many tickets closes and one with one
ticket less is stopped.

A lost exchange costs two tickets at the least, its own and that of the look before it. On one processor one worker works on
while the others wait, so hardly any is lost. So about half as many exchanges were lost, at the most, as the same workers
drew tickets beyond those that they draw there. Traces and images are those of workers.py.

usage: tickets.py [RUNS [REQUESTS]]      (make comes first)
"""
import os
import pathlib
import statistics
import subprocess
import sys
import tempfile

from process import shared_memory
from stops import can_stop, places_of
from workers import OURS, RUN_JOBS, SIZES, TOOL, WORKERS, Store, make_traces

# Of a lost exchange: that of the look at the word, and its own.
TICKETS_OF_A_LOSS = 2
# The words at the head of an image that no step changes: the magic, the version and the capacity.
HEAD = 3 * 8


def tables(memory, head, length):
    """Where a table begins in a region of the memory: an image's head stands there, and again so many bytes behind."""
    at = memory.find(head)
    while at >= 0:
        if memory[at + length : at + length + len(head)] == head and at + 2 * length + 8 <= len(memory):
            yield at
        at = memory.find(head, at + 8)


def tickets_in(process, head, length):
    """The word behind the two values of each word of the table. A copy of the table from before the run has none drawn."""
    found = set()
    for begin, end in process.regions():
        memory = process.read(begin, end - begin) if end - begin > 2 * length else b""
        for at in tables(memory, head, length):
            found.add(int.from_bytes(memory[at + 2 * length : at + 2 * length + 8], "little"))
    found -= {0}
    if len(found) != 1:
        sys.exit(f"the table was not found once in the memory of the process: {sorted(found)}")
    return found.pop()


def count(store, places, workers, trace, processors=None):
    """The tickets of a run."""
    store.make()
    with open(store.path, "rb") as image:
        head = image.read(HEAD)
    length = os.stat(store.path).st_size
    look = lambda process: tickets_in(process, head, length)
    return store.run_with_stops(places, workers, trace, look=look, processors=processors)[1]


def check(room, store, places, trace):
    """The tickets of one worker are the least budget that doesn't stop the run."""
    tickets = count(store, places, 1, trace)
    for budget, last in ((tickets, "run closed"), (tickets - 1, "run stopped")):
        store.run(1, trace, "--stop", str(budget), "--sum", stdout=str(room / "replies"))
        if last not in (room / "replies").read_text().splitlines():
            sys.exit(f"{store.superblocks} superblocks: {tickets} tickets, but not so: {last} by --stop {budget}")


def spread(values, form=",.0f"):
    return f"{statistics.median(values):{form}} ({min(values):{form}} to {max(values):{form}})"


def tell(series, requests):
    print("| superblocks | workers | tickets a request | on one processor | beyond one worker | exchanges lost in a run, at most about |")
    print("|---|---|---|---|---|---|")
    for size, workers in dict.fromkeys(key[:2] for key in series):
        drawn, in_turn, alone = series[size, workers, "all"], series[size, workers, "one"], series[size, 1, "all"]
        cells = [spread([each / requests for each in tickets], ".3f") for tickets in (drawn, in_turn)]
        cells.append(spread([(a - b) / requests for a, b in zip(drawn, alone)], ".3f"))
        cells.append(spread([(a - b) / TICKETS_OF_A_LOSS for a, b in zip(drawn, in_turn)]))
        print(f"| {size} | {workers} | {' | '.join(cells)} |")


def main(runs="9", requests="100000"):
    requests = int(requests)
    if not can_stop():
        sys.exit("no process can be stopped here")
    places, one = places_of(TOOL, RUN_JOBS), {min(os.sched_getaffinity(0))}
    with tempfile.TemporaryDirectory(dir=shared_memory()) as folder:
        room = pathlib.Path(folder)
        traces = make_traces(room, requests)
        stores = {size: Store(OURS, room, size, TOOL) for size in SIZES}
        for size, store in stores.items():
            check(room, store, places, traces[size])
        series = {}
        for _ in range(int(runs)):
            for size, workers in ((size, workers) for size in SIZES for workers in WORKERS):
                for name, processors in (("all", None), ("one", one)):
                    tickets = count(stores[size], places, workers, traces[size], processors)
                    series.setdefault((size, workers, name), []).append(tickets)
    print(f"medians of {runs} runs, the least and the most; {requests:,} requests; load {os.getloadavg()[0]:.1f}")
    tell(series, requests)


if __name__ == "__main__":
    main(*sys.argv[1:3])
