#!/usr/bin/env python3
"""Times a move beside a get, a del and a put of the same value, by 1, 2 and 4 workers, with values of 64 bytes and of 64 KiB.
Values of 64 bytes are timed once more with nodes that lie two superblocks apart, as those of 64 KiB do: the words that a move
stores to then lie in pages and in sets of the processor's caches as those of 64 KiB, and the value's length alone differs.

Each request is asked once of each of COUNT keys, or of as many as a trace has room for, over a heap that several runs have
filled, and that is as it was before each call. A moved key goes to the next shard, so all shards send and receive. What is
told is the time of the calls that have the workers make tables, work off their requests and bring in what they sent each
other (stops.py stops the process there), less those calls on an empty trace, by request: the median of RUNS.

usage: moving.py [RUNS [COUNT]]      (make comes first)
"""
import pathlib
import shutil
import statistics
import subprocess
import sys
import tempfile

from process import shared_memory
from stops import calls_of, can_stop, places_of
from workers import RUN_JOBS, TOOL

WORKERS = 1, 2, 4
OTHER_KEYS = 8 * 10**6 + 1
# So many nodes of 64 bytes are put between two, and taken out. A superblock has 682 of them.
BETWEEN = 2 * 682 - 1
FIRST_BETWEEN = 8 * 10**7
LONGEST_TRACE = 1 << 24


def run(image, trace, workers=4):
    words = [TOOL, "run", str(image), "--workers", str(workers), "--sum"]
    told = subprocess.run(words, input=trace, check=True, capture_output=True, text=True).stdout
    if " full 0 " not in told:
        sys.exit(f"no room: {told}")


def lines(count, length):
    """The requests by their names."""
    value = "ab" * length
    return {
        "get": [f"get {key}\n" for key in range(count)],
        "del": [f"del {key}\n" for key in range(count)],
        "put": [f"put {key} {value}\n" for key in range(count)],
        "move": [f"move {key} {key + OTHER_KEYS}\n" for key in range(count)],
    }


def in_traces(requests):
    """The requests, cut into traces that are short enough."""
    most = LONGEST_TRACE // max(map(len, requests))
    return [requests[at : at + most] for at in range(0, len(requests), most)]


def format_whole(image):
    """The largest heap there is, for each length: so all are opened over as much memory."""
    subprocess.run([TOOL, "format", str(image), "4096"], check=True, stdout=subprocess.DEVNULL)


def fill(image, count, asked):
    """A heap with all keys, of which each was put, replaced, taken out and put again."""
    format_whole(image)
    for name in ("put", "put", "del", "put"):
        for requests in in_traces(asked[name]):
            run(image, "".join(requests))


def fill_apart(image, count, asked):
    """The same, but each node had so many others of its size put behind it, which are taken out at the end."""
    format_whole(image)
    mixed, gone = [], []
    for key, put in enumerate(asked["put"]):
        others = [FIRST_BETWEEN + BETWEEN * key + i for i in range(BETWEEN)]
        mixed += [put, *(f"put {other} {'cd' * 64}\n" for other in others)]
        gone += [f"del {other}\n" for other in others]
    for requests in (mixed, asked["put"], asked["del"], asked["put"], gone):
        for trace in in_traces(requests):
            run(image, "".join(trace))


def time_of(places, room, trace, workers, runs):
    """Nanoseconds of the call, the median of so many, each on the heap as it was filled."""
    (room / "trace").write_text(trace)
    spent = []
    for _ in range(runs):
        shutil.copy(room / "filled", room / "h")
        words = [TOOL, "run", str(room / "h"), "--workers", str(workers), "--sum"]
        spent.append(calls_of(places, words, str(room / "trace"))[0])
    return statistics.median(spent)


ROWS = (
    (64, fill, "64"),
    (64, fill_apart, "64, two superblocks apart"),
    (65536, fill, "65,536"),
)


def main(runs="5", count="500"):
    runs, count = int(runs), int(count)
    if not can_stop():
        sys.exit("no process can be stopped here")
    places = places_of(TOOL, RUN_JOBS)
    print("nanoseconds a request\n| bytes | request | " + " | ".join(f"{n} workers" for n in WORKERS) + " |")
    print("|---|---|" + "---|" * len(WORKERS))
    with tempfile.TemporaryDirectory(dir=shared_memory()) as folder:
        room = pathlib.Path(folder)
        for length, filled, title in ROWS:
            asked = lines(count, length)
            filled(room / "filled", count, asked)
            empty = {n: time_of(places, room, "", n, runs) for n in WORKERS}
            for name, requests in asked.items():
                first = in_traces(requests)[0]
                cells = [(time_of(places, room, "".join(first), n, runs) - empty[n]) / len(first) for n in WORKERS]
                print(f"| {title} | {name} | " + " | ".join(f"{cell:,.0f}" for cell in cells) + " |", flush=True)


if __name__ == "__main__":
    main(*sys.argv[1:])
