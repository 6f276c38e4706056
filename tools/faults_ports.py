"""Calls of the tool over stores, sources and sinks in memory, each call of which fails once, and each
request for memory; and the rules by which tools/faults judges what comes of that."""

import collections
import subprocess
from dataclasses import dataclass

from faults_rows import LINES

# More requests for memory than any call makes, and than are granted at all.
NO_END = str(10**6)
# The seconds after which a call is taken for one that doesn't return.
WAIT = 600


class Broken(Exception):
    """An answer that breaks a rule."""


def must(holds, rule):
    if not holds:
        raise Broken(rule)


@dataclass(frozen=True)
class Ended:
    """What came of a call: what failed of it, and what tools/faults.rt.in tells."""

    place: str
    status: int
    calls: dict
    failed: dict
    behind: dict
    image: str
    cut: int
    text: str
    shown: str

    def is_like(self, row, plain):
        """Whether it answered and left what the call does of which nothing fails."""
        return (self.status, self.text) == (plain.status, plain.text) and self.leaves_as(row, plain)

    def leaves_as(self, row, plain):
        """Whether it left that image. Threads may get other blocks each time: then it is shown alike."""
        is_shown_alike = "old" not in (self.image, plain.image) and self.shown == plain.shown
        return self.image == plain.image or row.workers > 1 and is_shown_alike


def ended(line):
    place, status, *tallies, image, cut, text, shown = line.split("\t")
    calls, failed, behind = (dict(zip(("get", "put", "read", "write"), map(int, counts)))
                             for counts in zip(*(tally.split() for tally in tallies)))
    return Ended(place, int(status), calls, failed, behind, image, int(cut), text.replace("/", "\n"), shown)


class Ports:
    """The program of tools/faults.rt.in, which was compiled and copied out of `rt try`."""

    def __init__(self, program, folder):
        self.program, self.folder = program, folder

    def call(self, *words):
        done = subprocess.run([self.program, *words], cwd=self.folder, capture_output=True,
                              check=False, timeout=WAIT)
        told = f"{done.returncode} {done.stderr.decode()[:2000]}"
        must(done.returncode == 0, f"the program ends by itself: {words} {told}")
        return [ended(line) for line in done.stdout.decode().splitlines()]

    def words(self, row):
        return [row.file(), row.input_file(), *row.words.split()]

    def fail_ports(self, row):
        """Each call of the outside fails. It gives the plain call, and what there is to be counted."""
        plain, *others = self.call("ports", *self.words(row))
        judged(plain, row, "no failure", lambda: judge_plain(row, plain))
        found = collections.defaultdict(list)
        for other in others:
            kind = KINDS.get(other.place, kind_of(other))
            place = f"{kind} {len(found[kind])} ({other.place})"
            end = judged(other, row, place, lambda: RULES[other.place](row, plain, other))
            # (a get that failed leaves the store alone, so it is counted once)
            if (kind, other.place) != ("get", "store-new"):
                found[kind].append(end)
        return plain, found

    def fail_memory(self, row, plain, pool):
        """Each request for memory is refused."""
        words = self.words(row)
        granted = int(self.call("memory", NO_END, "0", *words)[0].place.split()[1])
        behind = int(self.call("memory", "0", NO_END, *words)[0].place.split()[2])

        def refuse(place):
            one = self.call("memory", str(granted - place), str(place + 2), *words)[0]
            is_hit = int(one.place.split()[2]) == place + 2
            told = f"request for memory {place}"
            return judged(one, row, told, lambda: judge_memory(row, plain, one)) if is_hit else None

        ends = list(pool.map(refuse, range(granted - behind + 2)))
        places = [end for end in ends if end]
        must(row.workers > 1 or ends == places + [None, None], "one worker makes the same requests each time")
        return places


def kind_of(one):
    return next((kind for kind, count in one.failed.items() if count), "nothing")


def judged(one, row, place, judge):
    """How it ended, once it is judged."""
    try:
        judge()
    except Broken as rule:
        told = f"{row.words}, image {row.file()}, what failed: {place}"
        raise Broken(f"{rule}\n  {told}\n  it came to {one}") from None
    return f"status {one.status}"


def judge_plain(row, plain):
    must(plain.status == row.status, f"nothing fails, so the status is {row.status}")
    must(not row.puts or plain.image != "old", "a result that is an image is put")
    must(row.puts or plain.image == "old", "the store is as it was where no image is made")
    must(plain.calls["get"] == int(row.gets), "one get of an image, and none where none is asked for")
    must(plain.calls["put"] == int(row.puts), "one put at 0 of a command that makes an image, and no other")
    must(bool(plain.calls["read"]) == row.reads, "the input is read for a run and a replay alone")


def judge_short(row, plain, one):
    must(kind_of(one) == "nothing", "nothing fails that was not told to")
    must(one.is_like(row, plain), "short counts change nothing")


def judge_store(row, plain, one):
    if one.failed["get"]:
        judge_read_fault(one)
        must(one.calls["get"] == 1, "a get that failed is not made again")
        must(one.calls["read"] == 0, "the input is not read where there is no image")
        return
    must(one.failed["put"] == 1, "each call of the store is a get or a put")
    must(one.status == 5, "a put that failed gives status 5")
    must(one.text == LINES[5] + "\n", "nothing of the result is printed where it was not put, but the line")
    must(one.calls["put"] == 1, "a put that failed is not made again")
    is_new = one.place == "store-new"
    must(one.leaves_as(row, plain) if is_new else one.image == "old",
         "the name has its old bytes or the new, as the store left it")


def judge_read(_, __, one):
    must(one.failed["read"] == 1, "the read is made")
    judge_read_fault(one)
    must(one.behind["read"] == 0, "a read that failed is not made again, and none behind it")


def judge_read_fault(one):
    must(one.status == 4, "a get or a read that failed gives status 4")
    must(one.text == LINES[4] + "\n", "the line of status 4 is printed")
    must(one.calls["put"] == 0, "no put behind a failed get or read")
    must(one.image == "old", "the store holds what it held at status 4")


def judge_write(row, plain, one):
    must(one.failed["write"] == 1, "the write is made")
    must(plain.text.startswith(one.text[:one.cut]), "what was printed is a first part of the text")
    must(one.leaves_as(row, plain), "the image is put before the text is printed")
    if plain.status:
        must(one.status == plain.status, "a status stays where its line can't be printed")
        must(len(one.text) == one.cut and one.behind["write"] == 0, "no line is tried twice")
        return
    must(one.status == 5, "a write that failed gives status 5")
    must(one.text[one.cut:] == LINES[5] + "\n", "behind a failed write only the line is printed")


def judge_writes(row, plain, one):
    must(one.failed["write"] >= 1, "the write is made")
    must(one.text == plain.text[:one.cut], "what was printed is a first part of the text")
    must(one.leaves_as(row, plain), "the image is put before the text is printed")
    must(one.status == (plain.status or 5), "a write that failed gives status 5, and a refusal keeps its own")
    must(one.behind["write"] == int(plain.status == 0),
         "the line is tried once behind a failed write, and no line twice")


def judge_memory(row, plain, one):
    if one.status == 3 and plain.status != 3:
        must(one.text == LINES[3] + "\n", "the line of status 3 is printed")
        must(one.image == "old", "the store holds what it held at status 3")
        return
    must(one.is_like(row, plain), "a call without this memory ends with 3, or as one with it")


KINDS = {"writes": "write, and all behind"}
RULES = {"short": judge_short, "store": judge_store, "store-new": judge_store, "read": judge_read,
         "write": judge_write, "writes": judge_writes}
