#!/usr/bin/env python3
"""Measures the allocator for threads, thread_cache's CacheSeat, class by class, with 1, 2 and 4 threads: a pair of an alloc
and a free that the cache serves, and the filling and flushing of a cache by block; how many exchanges are lost in that;
and what the one ticket word takes. Beside it stand the heap for one thread, block_heap's SeqHeap, by pairs of the same
kind, and the allocators of the suite of peers.

scratch.py builds the texts timed_caches.txt and timed_pairs.txt; those say what their ways are. Each
figure is the median of RUNS runs that take turns, of what a thread sees; SeqHeap's is the processor's time. What can be
lost there are pops and pushes, each of which costs three tickets more then: so the tickets that several threads drew
beyond those of one tell the losses.

usage: caches.py [RUNS [FILE [EFFORT]]]      (make comes first; FILE gets all medians; EFFORT is 1, or a part of that)
"""
import os
import pathlib
import statistics
import subprocess
import sys
import tempfile

import pairs
from process import shared_memory
from scratch import build
from suite import programs

THREADS = (1, 2, 4)
SUPERBLOCKS = 128
SIZES = (16, 32, 48, 64, 96, 128, 192, 256, 384, 512, 768, 1024, 1536, 2048, 3072, 4096, 6144, 8192, 12288, 14336)
PAIRS, ADDITIONS, BLOCKS = 200_000, 2_000_000, 200_000
TICKETS_OF_A_LOSS = 3
# How many exchanges a turn of the way has that none is faster at, and in which order its parts are told.
EXCHANGES = {"cut": 3, "take": 4}
FILLING_IS_FIRST = {"cut": True, "take": False}
WHOLE = {"adds": ADDITIONS, "fences": PAIRS, "mixed": PAIRS}
PEERS = {"mimalloc": 300_000, "jemalloc": 300_000, "pmemobj": 30_000}


def ask(program, way, size_class, threads, times):
    """By turn, as means over the threads: nanoseconds of both parts, less a look at the clock where there are two,
    and tickets."""
    words = [program, way, str(size_class), str(threads), str(times), str(SUPERBLOCKS)]
    told = subprocess.run(words, check=True, capture_output=True, text=True).stdout.splitlines()
    rows = [list(map(int, line.split())) for line in told]
    first, second, tickets, look = ([row[k] for row in rows] for k in range(4))
    less = [each / 1e3 for each in look] if way in EXCHANGES else [0] * threads
    parts = (statistics.mean(ns / times - looks for ns, looks in zip(part, less)) for part in (first, second))
    return (*parts, statistics.mean(tickets) / times)


def ask_heap_for_one(program, number, times):
    """Nanoseconds and tickets of a pair of SeqHeap, with one more block held."""
    count, nanoseconds, tickets = pairs.measure(program, "beside", number, times)
    return nanoseconds / count, 0.0, tickets / count


def one_round(program, for_one, effort):
    """By way, class and threads what a turn takes."""
    found = {}
    for number in range(1, len(SIZES) + 1):
        found["for one", number, 1] = ask_heap_for_one(for_one, number, max(1, int(PAIRS * effort)))
    for threads in THREADS:
        for way, times in WHOLE.items():
            found[way, 1, threads] = ask(program, way, 1, threads, max(1, int(times * effort)))
        for number, size in enumerate(SIZES, 1):
            found["served", number, threads] = ask(program, "served", number, threads, max(1, int(PAIRS * effort)))
            for way in EXCHANGES:
                times = max(2, int(BLOCKS * effort / (65536 // size)))
                found[way, number, threads] = ask(program, way, number, threads, times)
    return found


def ask_peer(peers, name, threads, pairs, pool):
    """Nanoseconds of a pair, as a thread sees it."""
    pool.unlink(missing_ok=True)
    words = [peers / f"alloc_{name}", "pair", str(threads), str(pairs)]
    env = {**os.environ, "ALLOC_POOL": str(pool)}
    return float(subprocess.run(words, check=True, capture_output=True, text=True, env=env).stdout.split()[0])


def lost(found, way, number, threads):
    """Of the exchanges that were tried, the part that was lost; and of the tickets, the part that was drawn for that."""
    tickets, alone = found[way, number, threads][2], found[way, number, 1][2]
    losses = max(0.0, tickets - alone) / TICKETS_OF_A_LOSS
    return losses / (losses + EXCHANGES[way]), max(0.0, tickets - alone) / tickets


def by_block(found, way, number, threads):
    """Nanoseconds by block of filling a cache, and of flushing it."""
    blocks = 65536 // SIZES[number - 1] - (way == "take")
    first, second, _ = found[way, number, threads]
    filling, flushing = (first, second) if FILLING_IS_FIRST[way] else (second, first)
    return filling / blocks, flushing / blocks


def tell_classes(found):
    heads = ["SeqHeap"] + [f"served, {threads}" for threads in THREADS]
    heads += [f"{way}, {threads}" for way in EXCHANGES for threads in THREADS]
    heads += [f"lost, {way}, {THREADS[-1]}" for way in EXCHANGES]
    print(f"| class | bytes | {' | '.join(heads)} |")
    print("|---|---|" + "---|" * len(heads))
    for number, size in enumerate(SIZES, 1):
        cells = [f"{found['for one', number, 1][0]:,.1f}"]
        cells += [f"{found['served', number, threads][0]:,.1f}" for threads in THREADS]
        for way in EXCHANGES:
            cells += [" / ".join(f"{ns:,.1f}" for ns in by_block(found, way, number, threads)) for threads in THREADS]
        for way in EXCHANGES:
            cells.append(" / ".join(f"{100 * part:.1f} %" for part in lost(found, way, number, THREADS[-1])))
        print(f"| {number} | {size:,} | {' | '.join(cells)} |")


def tell_others(found, beside):
    print("| nanoseconds | " + " | ".join(f"{threads} threads" for threads in THREADS) + " |")
    print("|---|" + "---|" * len(THREADS))
    rows = {"an addition to one word": ("adds", 1), "a fence that awaits nothing: one ticket": ("fences", 1)}
    rows |= {"a pair that the cache serves, class 8": ("served", 8), "the same, of mixed sizes": ("mixed", 1)}
    for name, (way, number) in rows.items():
        print(f"| {name} | " + " | ".join(f"{found[way, number, threads][0]:,.1f}" for threads in THREADS) + " |")
    parts = (found["served", 8, t][2] * found["adds", 1, t][0] / found["served", 8, t][0] for t in THREADS)
    print("| of that pair, as many additions to one word as it draws tickets | " + " | ".join(f"{100 * part:.0f} %" for part in parts) + " |")
    for name in dict.fromkeys(name for name, _ in beside):
        print(f"| {name}, a pair of mixed sizes | " + " | ".join(f"{beside[name, threads]:,.1f}" for threads in THREADS) + " |")


def tell_ratios(rounds):
    """How often the time of SeqHeap a pair takes, and how many times the pairs of one thread two threads do: the median
    of the rounds' own ratios, since how fast the machine is changes from round to round."""
    for number in (1, 8, 20):
        beside_one = statistics.median(found["served", number, 1][0] / found["for one", number, 1][0] for found in rounds)
        of_two = statistics.median(2 * found["served", number, 1][0] / found["served", number, 2][0] for found in rounds)
        print(f"class {number}: a pair takes {beside_one:.2f} times SeqHeap's; two threads do {of_two:.2f} times the pairs of one")


def medians(rounds):
    """Of a dict of numbers, or of rows of them, by each key."""
    at = {}
    for key, value in rounds[0].items():
        each = [found[key] for found in rounds]
        at[key] = tuple(map(statistics.median, zip(*each))) if isinstance(value, tuple) else statistics.median(each)
    return at


def main(runs="7", path=None, effort="1"):
    program, for_one = build("timed_caches.txt"), build("timed_pairs.txt")
    with tempfile.TemporaryDirectory(dir=shared_memory()) as folder:
        room = pathlib.Path(folder)
        peers = programs(room)
        rounds, beside = [], []
        for _ in range(int(runs)):
            rounds.append(one_round(program, for_one, float(effort)))
            ways = [(name, threads) for name in PEERS for threads in THREADS] if peers else []
            beside.append({(name, t): ask_peer(peers, name, t, PEERS[name], room / "pool") for name, t in ways})
    found, others = medians(rounds), medians(beside)
    print(f"medians of {runs} runs; nanoseconds of a pair, or by block of filling / flushing a cache; load {os.getloadavg()[0]:.1f}")
    print("lost: of the exchanges that were tried / of the tickets, those drawn for lost exchanges")
    tell_classes(found)
    tell_others(found, others)
    tell_ratios(rounds)
    if path:
        with open(path, "w") as out:
            for key, value in {**found, **others}.items():
                print(*key, *(value if isinstance(value, tuple) else (value,)), sep="\t", file=out)


if __name__ == "__main__":
    main(*sys.argv[1:4])
