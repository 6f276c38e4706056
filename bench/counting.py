#!/usr/bin/env python3
"""Times `count` on closed images of 256 and of 4,096 superblocks in which each 32-byte block is held: opened quickly, by
their own anchors, and traced, since the same image says that it was left open. Beside them stand `show` of the closed
image, and both ways on an empty heap, where the words are read and copied and nothing is listed.

Each figure is the least of RUNS runs that take turns: of the whole process, of its processor time, and of its peak memory.

usage: counting.py [RUNS [SUPERBLOCKS..]]      (make comes first)
"""
import os
import pathlib
import shutil
import subprocess
import sys
import tempfile

from process import own_peak, shared_memory, took

HERE = pathlib.Path(__file__).resolve().parent
TOOL = str(HERE.parent / "bin" / "heap_tool")
SIZES = (256, 4096)
STATE_WORD, LEFT_OPEN = 3, 2


def make(room, size):
    """By name a closed image and the same one, left open: full ones and empty ones."""
    empty, full = room / f"empty{size}", room / f"full{size}"
    subprocess.run([TOOL, "format", empty, str(size)], check=True, stdout=subprocess.DEVNULL)
    subprocess.run([HERE / "full_image.py", full, str(size), "8"], check=True)
    for image in (empty, full):
        subprocess.run([TOOL, "run", image, "--workers", "1", "--sum"], check=True, stdin=subprocess.DEVNULL, stdout=subprocess.DEVNULL)
        left = image.with_name(image.name + "_open")
        shutil.copy(image, left)
        with open(left, "r+b") as words:
            words.seek(8 * STATE_WORD)
            words.write(LEFT_OPEN.to_bytes(8, "little"))
    return {
        "count, quick, empty": ["count", empty],
        "count, traced, empty": ["count", f"{empty}_open"],
        "count, quick, full": ["count", full],
        "count, traced, full": ["count", f"{full}_open"],
        "show, full": ["show", full],
    }


def main(runs="9", *sizes):
    sizes = tuple(map(int, sizes)) or SIZES
    with tempfile.TemporaryDirectory(dir=shared_memory()) as folder:
        ways = {size: make(pathlib.Path(folder), size) for size in sizes}
        for size in sizes:
            for name, words in ways[size].items():
                if name.startswith("count"):
                    told = subprocess.run([TOOL, *map(str, words)], check=True, capture_output=True, text=True).stdout
                    assert name.split(", ")[1] in told.split(), (name, told)
        rounds = []
        for _ in range(int(runs)):
            rounds.append({(name, size): took([TOOL, *map(str, words)]) for size in sizes for name, words in ways[size].items()})
    least = {way: [min(each[way][k] for each in rounds) for k in range(3)] for way in rounds[0]}
    print(f"least of {runs} runs; load {os.getloadavg()[0]:.1f}")
    print("| what | superblocks | ms | ms of the processor | peak MB |")
    print("|---|---|---|---|---|")
    for (name, size), (ms, cpu, peak) in least.items():
        print(f"| {name} | {size:,} | {ms:.1f} | {cpu:.1f} | {f'{peak / 1e6:.1f}' if peak > own_peak() else ''} |")
    for size in sizes:
        ratio = least["count, quick, full", size][0] / least["count, traced, full", size][0]
        print(f"{size:,} superblocks, full: quick takes {ratio:.2f} times what traced takes")


if __name__ == "__main__":
    main(*sys.argv[1:])
