#!/usr/bin/env python3
"""Measures requests to the dictionary on the heap for one thread by the keys of a bucket: nanoseconds and tickets.

scratch.py builds the text timed_requests.txt; that text says what its ways are.
Nanoseconds are those of the processor that the thread used, the least of RUNS runs that take turns; tickets are exact.

usage: requests.py [RUNS]      (make comes first)
"""
import subprocess
import sys

from scratch import build

KEYS = (10, 100, 1_000)
WAYS = ("get", "put", "new", "del")
ROUNDS = 1_000


def measure(program, way, keys):
    """How many requests, nanoseconds and tickets."""
    words = [program, way, str(keys), str(ROUNDS)]
    return tuple(map(int, subprocess.run(words, check=True, capture_output=True, text=True).stdout.split()))


def main(runs):
    program = build("timed_requests.txt")
    rounds = [{(way, keys): measure(program, way, keys) for way in WAYS for keys in KEYS} for _ in range(runs)]
    print(f"nanoseconds (least of {runs} runs) / tickets, each by request")
    print("| keys a bucket | " + " | ".join(WAYS) + " |")
    print("|---|" + "---|" * len(WAYS))
    for keys in KEYS:
        cells = []
        for way in WAYS:
            number, _, tickets = rounds[0][way, keys]
            least = min(found[way, keys][1] for found in rounds)
            cells.append(f"{least / number:,.0f} / {tickets / number:,.1f}")
        print(f"| {keys:,} | " + " | ".join(cells) + " |")


if __name__ == "__main__":
    main(int(sys.argv[1]) if len(sys.argv) > 1 else 5)
