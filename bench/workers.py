#!/usr/bin/env python3
"""Times heap_tool run by 1, 2, 4 and 8 workers, on images of 256 and of 16 superblocks, beside other stores with as many
threads: libpmemobj, LMDB, and a plain map that is lost with its process.

With 256 superblocks the trace is that of gen. With 16 its values are cut to eight bytes, so that all nodes are of one
class and no put finds the heap full, however many workers there are. A series in which one does is refused, and so are
replies that differ from the plain map's.

Three times are told, each by request, as medians of RUNS runs that take turns, each on a store made anew. whole: the
process. net: that less the process on an empty trace. requests: from the beginning of the first request to the end of
the last one, without reading, parsing, opening, closing and printing. The other stores tell that time themselves. Of
heap_tool it is that of the calls which have the workers do their work, one for each row: stops.py stops the process there.

What processors share is told beside: as many processes of heap_tool at once, each with one worker and a store of its own,
and their requests' time by all their requests together.

usage: workers.py [RUNS [FILE [REQUESTS]]]      (make comes first; FILE gets what plot_workers.py draws)
"""
import os
import pathlib
import re
import statistics
import subprocess
import sys
import tempfile
from multiprocessing import Pool

from process import shared_memory, took
from stops import calls_of, can_stop, places_of
from suite import programs

TOOL = str(pathlib.Path(__file__).resolve().parent.parent / "bin" / "heap_tool")
SIZES = (256, 16)
WORKERS = (1, 2, 4, 8)
SEED = "7"
CUT_TO = 8
# The calls that have the workers of a run do their work, one for each row: tables, requests and what arrives.
RUN_JOBS = "std::thread::fork::run_jobs"
METRICS = ("whole", "net", "requests", "cpu")
OURS = "heap_tool"
APART = "heap_tool, a process each"
PEERS = {"libpmemobj": "peer_pmemobj", "LMDB": "peer_lmdb", "plain map": "peer_mem"}


class Store:
    """A store's program, and the file that it keeps what it has in."""

    def __init__(self, name, room, superblocks, program):
        self.name, self.superblocks, self.program = name, superblocks, str(program)
        self.path, self.told = str(room / "store"), str(room / "told")
        room.mkdir(exist_ok=True)

    def make(self):
        for file in pathlib.Path(self.path).parent.glob("store*"):
            file.unlink()
        ours = self.name == OURS
        made = ["format", self.path, str(self.superblocks)] if ours else ["init", self.path]
        subprocess.run([self.program, *made], check=True, stdout=subprocess.DEVNULL)

    def words(self, workers, *more):
        return [self.program, "run", self.path, "--workers" if self.name == OURS else "--threads", str(workers), *more]

    def run(self, workers, trace, *more, stdout=os.devnull):
        """What a run takes on a store made anew: milliseconds, and those of the processor."""
        self.make()
        return took(self.words(workers, *more), str(trace), stdout, stderr=self.told)[:2]

    def run_with_stops(self, places, workers, trace, **how):
        """The nanoseconds of the workers' work, and what is looked for behind it, on a store made anew."""
        self.make()
        return calls_of(places, self.words(workers), str(trace), **how)

    def nanoseconds_of_requests(self, places, workers, trace):
        if self.name == OURS:
            return self.run_with_stops(places, workers, trace)[0]
        self.run(workers, trace, "--stats")
        return int(re.search(r"inner_ns=(\d+)", pathlib.Path(self.told).read_text())[1])

    def measure(self, places, workers, trace, requests):
        """Nanoseconds by request, by metric."""
        whole, cpu = self.run(workers, trace)
        empty, _ = self.run(workers, os.devnull)
        found = {"whole": whole * 1e6, "net": (whole - empty) * 1e6, "cpu": cpu * 1e6}
        if places or self.name != OURS:
            found["requests"] = self.nanoseconds_of_requests(places, workers, trace)
        return {metric: found[metric] / requests for metric in METRICS if metric in found}

    def replies(self, room, workers, trace, requests):
        self.run(workers, trace, stdout=str(room / "replies"))
        return (room / "replies").read_text().split("\n")[:requests]


def nanoseconds_of_one(job):
    """Those of one worker's requests, on a store in this folder."""
    room, superblocks, places, trace = job
    return Store(OURS, room, superblocks, TOOL).nanoseconds_of_requests(places, 1, trace)


def nanoseconds_apart(room, superblocks, places, processes, trace):
    """The mean of so many at once, by the processes."""
    jobs = [(room / f"apart{number}", superblocks, places, trace) for number in range(processes)]
    with Pool(processes) as pool:
        return statistics.mean(pool.map(nanoseconds_of_one, jobs, chunksize=1)) / processes


def places_of_work():
    """The places of the calls; none, which is told, where no process can be stopped there."""
    if can_stop():
        return places_of(TOOL, RUN_JOBS)
    print("no process can be stopped here: the requests alone of heap_tool are left out")
    return None


def make_traces(room, requests):
    """The trace for each size of image."""
    made = subprocess.run([TOOL, "gen", str(requests), SEED], check=True, capture_output=True, text=True).stdout
    lines = [line.split() for line in made.splitlines()]
    traces = {size: room / f"trace{size}" for size in SIZES}
    traces[SIZES[0]].write_text(made)
    cut = (" ".join([*words[:2], *(value[: 2 * CUT_TO] for value in words[2:])]) for words in lines)
    traces[SIZES[1]].write_text("".join(f"{line}\n" for line in cut))
    return traces


def check(room, stores, traces, requests):
    """No reply is that there is no room, and all stores reply alike."""
    for size, workers in ((size, workers) for size in SIZES for workers in WORKERS):
        found = [store.replies(room, workers, traces[size], requests) for store in stores[size]]
        if len(found[0]) < requests or "full" in found[0]:
            sys.exit(f"{size} superblocks, {workers} workers: a put has found no room")
        if any(replies != found[0] for replies in found):
            sys.exit(f"{size} superblocks, {workers} workers: replies differ")


def cell(medians, *key):
    """The three times; a dash for one that was not measured."""
    each = (medians.get((*key, metric)) for metric in METRICS[:3])
    return " / ".join("–" if value is None else f"{value:,.0f}" for value in each)


def tell(path, medians):
    print("nanoseconds a request, of the whole process / less an empty trace / of the requests alone")
    print("| superblocks | store | " + " | ".join(f"{workers} workers" for workers in WORKERS) + " |")
    print("|---|---|" + "---|" * len(WORKERS))
    for size, name in dict.fromkeys(key[:2] for key in medians):
        print(f"| {size} | {name} | " + " | ".join(cell(medians, size, name, workers) for workers in WORKERS) + " |")
    if path:
        with open(path, "w") as out:
            for key, value in medians.items():
                print(*key, f"{value:.1f}", sep="\t", file=out)


def main(runs="9", path=None, requests="100000"):
    requests, places = int(requests), places_of_work()
    with tempfile.TemporaryDirectory(dir=shared_memory()) as folder:
        room = pathlib.Path(folder)
        peers, traces = programs(room), make_traces(room, requests)
        stores = {size: [Store(OURS, room, size, TOOL)] for size in SIZES}
        for size in SIZES if peers else ():
            stores[size] += [Store(name, room, size, peers / program) for name, program in PEERS.items()]
        check(room, stores, traces, requests)
        series = {}
        for _ in range(int(runs)):
            for workers in WORKERS:
                for size in SIZES:
                    for store in stores[size]:
                        for metric, value in store.measure(places, workers, traces[size], requests).items():
                            series.setdefault((size, store.name, workers, metric), []).append(value)
                    if places:
                        apart = nanoseconds_apart(room, size, places, workers, traces[size]) / requests
                        series.setdefault((size, APART, workers, "requests"), []).append(apart)
    print(f"medians of {runs} runs, {requests:,} requests; load {os.getloadavg()[0]:.1f}")
    tell(path, {key: statistics.median(values) for key, values in series.items()})


if __name__ == "__main__":
    main(*sys.argv[1:4])
