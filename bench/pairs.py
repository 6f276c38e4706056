#!/usr/bin/env python3
"""Measures the heap for one thread, block_heap's SeqHeap, class by class: nanoseconds and tickets.

scratch.py builds the text timed_pairs.txt; that text says what its ways are.
Nanoseconds are those of the processor that the thread used, the least of RUNS runs that take turns; tickets are exact.

usage: pairs.py [RUNS]      (make comes first)
"""
import subprocess
import sys

from scratch import build

CLASSES = range(1, 21)
WAYS = ("alone", "beside", "ring", "fill", "free")
PAIRS = 300_000


def measure(program, way, size_class, count):
    """How many pairs or blocks, nanoseconds and tickets."""
    words = [program, way, str(size_class), str(count)]
    return tuple(map(int, subprocess.run(words, check=True, capture_output=True, text=True).stdout.split()))


def count_of(way, blocks):
    """Of alone, each pair may cut a superblock into blocks."""
    return max(100, PAIRS // blocks) if way == "alone" else PAIRS


def main(runs):
    program = build("timed_pairs.txt")
    blocks = {each: measure(program, "fill", each, 0)[0] for each in CLASSES}
    rounds = [
        {(way, each): measure(program, way, each, count_of(way, blocks[each] // 64)) for way in WAYS for each in CLASSES}
        for _ in range(runs)
    ]
    print(f"nanoseconds (least of {runs} runs) / tickets, each by pair or by block")
    print("| class | blocks | " + " | ".join(WAYS) + " |")
    print("|---|---|" + "---|" * len(WAYS))
    for each in CLASSES:
        cells = []
        for way in WAYS:
            number, _, tickets = rounds[0][way, each]
            least = min(found[way, each][1] for found in rounds)
            cells.append(f"{least / number:,.1f} / {tickets / number:,.2f}")
        print(f"| {each} | {blocks[each]:,} | " + " | ".join(cells) + " |")


if __name__ == "__main__":
    main(int(sys.argv[1]) if len(sys.argv) > 1 else 5)
