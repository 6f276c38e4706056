#!/usr/bin/env python3
"""Times recovery with its rebuilding pass and without it, on the same images, and heap_tool's show beside them.

scratch.py builds the text timed_recovery.txt.
Each figure is the least of RUNS runs that take turns.

usage: rebuilding.py [RUNS]      (make comes first)
"""
import os
import pathlib
import subprocess
import sys
import tempfile
import time

from scratch import HERE, TOP, build

TOOL = TOP / "bin" / "heap_tool"
CALLS = 10


def took(arguments):
    """Milliseconds, and megabytes at the peak, of one run."""
    before = time.monotonic()
    child = os.posix_spawn(arguments[0], arguments, os.environ, file_actions=[(os.POSIX_SPAWN_OPEN, 1, os.devnull, os.O_WRONLY, 0)])
    _, status, used = os.wait4(child, 0)
    if status != 0:
        sys.exit(f"status {status}: {arguments}")
    return (time.monotonic() - before) * 1e3, used.ru_maxrss / 1024


def measure(timed, image, runs):
    ways = {
        "read": [timed, "trace", image, "0"],
        "trace": [timed, "trace", image, "1"],
        "recover": [timed, "recover", image, "1"],
        "traces": [timed, "trace", image, str(CALLS)],
        "recovers": [timed, "recover", image, str(CALLS)],
        "show": [TOOL, "show", image],
    }
    rounds = [{way: took(list(map(str, words))) for way, words in ways.items()} for _ in range(runs)]
    least = {way: [min(each[way][k] for each in rounds) for k in (0, 1)] for way in ways}
    ms = {way: of[0] for way, of in least.items()}
    rebuilding = ms["recover"] - ms["trace"]
    rows = [
        ("show (without: less the difference below)", ms["show"] - rebuilding, ms["show"], "ms"),
        ("read the file, and recover", ms["trace"], ms["recover"], "ms"),
        (f"a call alone, of {CALLS}", (ms["traces"] - ms["read"]) / CALLS, (ms["recovers"] - ms["read"]) / CALLS, "ms"),
        ("peak memory, read and recover", least["trace"][1], least["recover"][1], "MB"),
    ]
    print(f"{pathlib.Path(image).name}, least of {runs} runs")
    for name, without, whole, unit in rows:
        print(f"  {name:44} without {without:6.1f} {unit}   with {whole:6.1f} {unit}   ratio {whole / without:6.2f}")


def main(runs):
    timed = build("timed_recovery.txt")
    with tempfile.TemporaryDirectory() as folder:
        room = pathlib.Path(folder)
        subprocess.run([TOOL, "format", room / "empty", "256"], check=True, stdout=subprocess.DEVNULL)
        for name, superblocks in (("half", 128), ("full", 256)):
            subprocess.run([HERE / "full_image.py", room / name, str(superblocks)], check=True)
        for name in ("empty", "half", "full"):
            measure(timed, room / name, runs)


if __name__ == "__main__":
    main(int(sys.argv[1]) if len(sys.argv) > 1 else 15)
