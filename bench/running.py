#!/usr/bin/env python3
"""Times heap_tool run on the traces of gen, beside runs that do a part of that: no request at all, gets that find no
table, a trace that is refused at its last line (so it is read and parsed alone), and a stop before the first step.

Each run is on an image made anew by format, in a folder of TMPDIR. Each figure is the least of RUNS runs that take turns:
the time of the whole process, from its start to its end, its processor time and its peak memory.

usage: running.py [RUNS [SUPERBLOCKS [FILE]]]      (make comes first; FILE gets what plot.py draws)
"""
import os
import pathlib
import shutil
import subprocess
import sys
import tempfile

from process import own_peak, took

TOOL = pathlib.Path(__file__).resolve().parent.parent / "bin" / "heap_tool"
SEED = "7"
REQUESTS = (25_000, 50_000, 75_000, 100_000)
MOST = REQUESTS[-1]


def make_trace(path, count):
    with open(path, "wb") as out:
        subprocess.run([TOOL, "gen", str(count), SEED], check=True, stdout=out)
    return path


def make_gets(path, trace):
    """The same keys in the same order, each asked by a get."""
    with open(trace) as lines, open(path, "w") as out:
        out.writelines(f"get {line.split()[1]}\n" for line in lines)
    return path


def make_refused(path, trace):
    """The same trace with a line behind it that asks for nothing."""
    shutil.copy(trace, path)
    with open(path, "a") as out:
        out.write("nothing\n")
    return path


def prepare(room):
    """For each name heap_tool's words, its input, how many requests that has, and the status."""
    trace = {count: make_trace(room / f"trace{count}", count) for count in REQUESTS}
    whole = trace[MOST]
    run = ["run", str(room / "image"), "--workers", "1"]
    ways = {
        f"gen {MOST:,}": (["gen", str(MOST), SEED], os.devnull, MOST, 0),
        f"gen {MOST // 2:,}": (["gen", str(MOST // 2), SEED], os.devnull, MOST // 2, 0),
        "run, no request": (run, os.devnull, 0, 0),
        f"run, {MOST:,} gets of no key": (run, make_gets(room / "gets", whole), MOST, 0),
        f"run, gen {MOST:,} and a bad last line": (run, make_refused(room / "refused", whole), MOST, 10),
        f"run --stop 0, gen {MOST:,}": ([*run, "--stop", "0"], whole, MOST, 0),
    }
    for count in REQUESTS:
        ways[f"run, gen {count:,}"] = (run, trace[count], count, 0)
        ways[f"run --sum, gen {count:,}"] = ([*run, "--sum"], trace[count], count, 0)
    return ways


def measure(room, ways, superblocks, runs):
    """The least time and peak of each."""
    image = room / "image"
    rounds = []
    for _ in range(runs):
        found = {}
        for name, (words, trace, _, status) in ways.items():
            subprocess.run([TOOL, "format", image, superblocks], check=True, stdout=subprocess.DEVNULL)
            found[name] = took([str(TOOL), *words], trace, status=status)
        rounds.append(found)
    return {name: [min(each[name][k] for each in rounds) for k in range(3)] for name in ways}


def write_rows(path, least):
    with open(path, "w") as out:
        for way in ("run", "run --sum"):
            for count in REQUESTS:
                print(way, count, f"{least[f'{way}, gen {count:,}'][0]:.2f}", sep="\t", file=out)


def main(runs="9", superblocks="256", path=None):
    with tempfile.TemporaryDirectory() as folder:
        room = pathlib.Path(folder)
        ways = prepare(room)
        least = measure(room, ways, superblocks, int(runs))
        length = (room / "image").stat().st_size
        held = {
            name: length * (words[0] == "run") + os.stat(trace).st_size
            for name, (words, trace, _, _) in ways.items()
        }
    print(f"least of {runs} runs; format h {superblocks}; load {os.getloadavg()[0]:.1f}")
    print("| what | ms | ns a request | ms of the processor | peak MB | peak, of image and trace |")
    print("|---|---|---|---|---|---|")
    for name, (ms, cpu, peak) in least.items():
        count = ways[name][2]
        each = f"{ms * 1e6 / count:,.0f}" if count else ""
        memory = f"{peak / 1e6:.1f} | {peak / held[name]:.1f}" if peak > own_peak() else "|"
        print(f"| {name} | {ms:.1f} | {each} | {cpu:.1f} | {memory} |")
    printing, cpu = (least[f"run, gen {MOST:,}"][k] - least[f"run --sum, gen {MOST:,}"][k] for k in (0, 1))
    print(f"| printing each reply in place of their sum, by difference | {printing:.1f} | {printing * 1e6 / MOST:,.0f} | {cpu:.1f} | | |")
    if path:
        write_rows(path, least)
    for way in ("gen", "run, gen", "run --sum, gen"):
        whole, cpu = (least[f"{way} {MOST:,}"][k] / least[f"{way} {MOST // 2:,}"][k] for k in (0, 1))
        print(f"{way} {MOST:,}: {whole:.2f} times {way} {MOST // 2:,}, of the processor {cpu:.2f} times (aim: at most 2.2)")


if __name__ == "__main__":
    main(*sys.argv[1:4])
