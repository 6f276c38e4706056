#!/usr/bin/env python3
"""Times what a run cannot be faster than: additions to one word by 1, 2 and 4 threads, in a row, and with work of the
thread's own between two of them, as there is between the steps of a run. Told is what an addition adds to that work, as a
thread sees it: the median of RUNS. It needs a C compiler.

usage: additions.py [RUNS]
"""
import pathlib
import statistics
import subprocess
import sys
import tempfile

SOURCE = pathlib.Path(__file__).with_suffix(".c")
THREADS = 1, 2, 4
ROUNDS = 0, 10, 20, 40
ADDITIONS = 1_000_000


def built(room):
    program = room / "additions"
    subprocess.run(["cc", "-O2", "-pthread", "-o", program, SOURCE], check=True)
    return program


def passes(program, threads, rounds):
    """The time of an addition with the work before it, and of that work alone."""
    told = subprocess.run([program, str(threads), str(rounds), str(ADDITIONS)], check=True, capture_output=True, text=True)
    return [float(number) for number in told.stdout.split()]


def main(runs="7"):
    print("nanoseconds\n| own work between two | " + " | ".join(f"an addition by {n} threads" for n in THREADS) + " |")
    print("|---|" + "---|" * len(THREADS))
    with tempfile.TemporaryDirectory() as folder:
        program = built(pathlib.Path(folder))
        found = {(rounds, n): [] for rounds in ROUNDS for n in THREADS}
        for _ in range(int(runs)):
            for rounds, n in found:
                found[rounds, n].append(passes(program, n, rounds))
    for rounds in ROUNDS:
        between = statistics.median(alone for _, alone in found[rounds, 1]) if rounds else 0
        cells = (statistics.median(both - alone for both, alone in found[rounds, n]) for n in THREADS)
        print(f"| {between:.0f} | " + " | ".join(f"{cell:.1f}" for cell in cells) + " |")


if __name__ == "__main__":
    main(*sys.argv[1:])
