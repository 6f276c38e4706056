"""random_requests.py SEED ROUNDS: random requests beside a dict, with images, crashes, stops and damage between them.

A damaged image is opened or refused, and where HEAP_TOOL names the program, as `heap_tool show` does.
"""
import os
import random
import subprocess
import sys
import tempfile
from collections import Counter

from heap import FULL, STOPPED, USAGE, Heap, HeapError

LENGTHS = [0, 1, 7, 8, 9, 100, 14_000, 14_337, 70_000, 131_072]
TOOL = os.environ.get("HEAP_TOOL")


def refusal(image):
    """The status and the line with which an image is refused: 0 and none where it is opened."""
    try:
        other = Heap(image=image)
    except HeapError as error:
        return error.status, str(error)
    for key in other:
        other[key]
    return 0, ""


def told_by_tool(image):
    with tempfile.NamedTemporaryFile() as file:
        file.write(image)
        file.flush()
        ran = subprocess.run([TOOL, "show", file.name], capture_output=True, text=True)
    return ran.returncode, "" if ran.returncode == 0 else (ran.stderr or ran.stdout).strip().split("\n")[-1]


class Trial:
    def __init__(self, seed):
        self.random = random.Random(seed)
        self.heap, self.model, self.counts = Heap(superblocks=24), {}, Counter()
        self.keys = sorted({0, 2**64 - 1, *(self.random.getrandbits(64) for _ in range(20)), *range(20)})

    def holds(self, heap):
        for key in self.keys:
            assert heap.get(key) == self.model.get(key), key
        assert list(heap) == sorted(self.model)

    def request(self):
        """A request, which may stop the dictionary: then it answers the key, and the value that it may have now."""
        key, what = self.random.choice(self.keys), self.random.random()
        old, new = self.model.get(key), self.model.get(key)
        try:
            if what < 0.6:
                new = self.random.randbytes(self.random.choice(LENGTHS))
                self.heap[key] = new
                self.model[key] = new
                self.counts["put"] += 1
            elif what < 0.8:
                new = None
                assert self.heap.pop(key, None) == old
                self.model.pop(key, None)
            else:
                assert self.heap.get(key) == old
        except HeapError as error:
            assert error.status in (FULL, STOPPED), error
            self.counts["full" if error.status == FULL else "stopped"] += 1
            return (key, new) if error.status == STOPPED else None
        return None

    def reopen(self, pending=None):
        """A crash by a seed, after which it is as before the request that stopped, or with it done."""
        image = self.heap.crash(self.random.getrandbits(64))
        try:
            self.heap.get(1)
            raise AssertionError("a closed dictionary answered")
        except HeapError as error:
            assert error.status == USAGE
        self.heap = Heap(image=image)
        if pending is not None:
            key, value = pending
            found = self.heap.get(key)
            assert found in (self.model.get(key), value), key
            self.counts["a stopped request was done" if found == value else "a stopped request was not"] += 1
            self.model.pop(key, None)
            if found is not None:
                self.model[key] = found
        self.holds(self.heap)
        self.counts["crash"] += 1

    def crash(self):
        self.reopen()

    def stop(self):
        """It stops at a random step, in one of a row of requests."""
        self.heap = Heap(image=self.heap.image(), budget=self.random.randrange(self.random.choice([100, 1000, 10_000])))
        for _ in range(200):
            pending = self.request()
            if pending is not None:
                assert self.refuses_all()
                return self.reopen(pending)
        return self.reopen()

    def refuses_all(self):
        """A stopped dictionary answers each request that it has stopped."""
        for request in (lambda: self.heap.get(1), lambda: next(iter(self.heap)), lambda: self.heap.pop(1)):
            try:
                request()
                return False
            except HeapError as error:
                if error.status != STOPPED:
                    return False
        return True

    def damage(self):
        image = bytearray(self.heap.image())
        for _ in range(self.random.choice([1, 1, 1, 10])):
            places = [self.random.randrange(72), self.random.randrange(320, 400), self.random.randrange(len(image))]
            image[self.random.choice(places)] ^= 1 << self.random.randrange(8)
        told = refusal(bytes(image))
        self.counts[f"damaged, {told[0]}"] += 1
        if TOOL:
            assert told == told_by_tool(bytes(image)), (told, told_by_tool(bytes(image)))

    def round(self):
        for _ in range(self.random.randrange(30)):
            self.request()
        self.random.choice([self.crash, self.stop, self.damage, lambda: self.holds(Heap(image=self.heap.image()))])()


def main():
    seed, rounds = int(sys.argv[1]), int(sys.argv[2])
    trial = Trial(seed)
    for number in range(rounds):
        try:
            trial.round()
        except AssertionError:
            print(f"seed {seed}, round {number}", file=sys.stderr)
            raise
    print("the answers agree;", ", ".join(f"{name}: {count}" for name, count in sorted(trial.counts.items())))


if __name__ == "__main__":
    main()
