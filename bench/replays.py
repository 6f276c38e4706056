#!/usr/bin/env python3
"""Times heap_tool replay on schedules of a million events over 256 superblocks, with one seat and with eight in turns.

Each seat makes the blocks of a superblock of its own, and then holds, loads, stores to, settles and frees one, and looks
at the list of the free superblocks, again and again. Each figure is the least of RUNS runs that take turns, of the whole
process, beside a schedule without these rounds.

usage: replays.py [RUNS [EVENTS]]      (make comes first)
"""
import os
import pathlib
import subprocess
import sys
import tempfile
import time

TOOL = pathlib.Path(__file__).resolve().parent.parent / "bin" / "heap_tool"
SUPERBLOCKS = 256
CLASS, WORDS, BLOCKS = 20, 1792, 4
EVENTS_OF_A_ROUND = 9


def preparation(seat):
    """A seat takes superblock number `seat` and makes its blocks."""
    info, start = 1064 + 8 * seat, 1064 + 8 * SUPERBLOCKS + 8192 * seat
    blocks = [start + WORDS * i for i in range(BLOCKS)]
    yield from ("look-used", "take 1", "keep", f"store {info} {CLASS}", f"settle {info}", f"store {info + 1} 2")
    yield from (f"store {block} {after}" for block, after in zip(blocks, blocks[1:]))
    yield f"cut {seat}"


def rounds(seat, count):
    """The seat's lines: nine events a round."""
    block = 1064 + 8 * SUPERBLOCKS + 8192 * seat
    for i in range(count):
        yield f"alloc {CLASS}"
        yield f"load {block}"
        yield f"store {block + 1} {i}"
        yield f"settle {block + 1}"
        yield f"free {block}"
        yield "head 0"


def make_schedule(path, seats, events):
    with open(path, "w") as out:
        out.write(f"seats {seats}\n")
        for seat in range(seats):
            out.writelines(f"{seat} {line}\n" for line in preparation(seat))
        for lines in zip(*(rounds(seat, events // EVENTS_OF_A_ROUND // seats) for seat in range(seats))):
            out.writelines(f"{seat} {line}\n" for seat, line in enumerate(lines))
    return path


def took(image, schedule):
    """Milliseconds of a replay, each line of which is done."""
    before = time.monotonic()
    with open(schedule) as lines:
        text = subprocess.run([TOOL, "replay", image], stdin=lines, capture_output=True, check=True).stdout
    after = time.monotonic()
    if b"not now" in text:
        sys.exit(f"a line of {schedule} was not done")
    return (after - before) * 1e3


def main():
    runs = int(sys.argv[1]) if len(sys.argv) > 1 else 5
    events = int(sys.argv[2]) if len(sys.argv) > 2 else 1_000_000
    with tempfile.TemporaryDirectory() as folder:
        room = pathlib.Path(folder)
        image = room / "image"
        subprocess.run([TOOL, "format", image, str(SUPERBLOCKS)], check=True, stdout=subprocess.DEVNULL)
        ways = {
            (seats, count): make_schedule(room / f"{seats}-{count}", seats, count)
            for seats in (1, 8)
            for count in (0, events)
        }
        least = {way: float("inf") for way in ways}
        for _ in range(runs):
            for way, schedule in ways.items():
                least[way] = min(least[way], took(image, schedule))
        print(f"{'seats':>5} {'events':>9} {'ms':>8} {'events a second, less the image':>33}")
        for seats in (1, 8):
            whole, empty = least[seats, events], least[seats, 0]
            print(f"{seats:>5} {events:>9,} {whole:>8.0f} {events / (whole - empty) * 1e3:>33,.0f}")


if __name__ == "__main__":
    main()
