#!/usr/bin/env python3
"""c_library.py [KEYS..]: times the library for C and Python, beside LMDB and SQLite; by default at 1,000 and 100,000 keys.

Microseconds of a put, a get and a del of 64 bytes. LMDB and SQLite commit every 1,000 puts, which is durable; the
library is timed alone, and with the whole image saved every 1,000 puts. It needs make library, cc, liblmdb and libsqlite3.
"""
import os
import subprocess
import sys
import tempfile
import time

TOP = os.path.dirname(os.path.dirname(os.path.abspath(__file__)))
sys.path.insert(0, os.path.join(TOP, "bin"))
sys.dont_write_bytecode = True


def build(folder):
    program = os.path.join(folder, "c_library")
    source, archive = (os.path.join(TOP, it) for it in ("bench/c_library.c", "bin/libheap.a"))
    words = ["cc", "-O2", "-std=c11", "-D_GNU_SOURCE", f"-I{TOP}/bin", "-o", program, source, archive, "-llmdb", "-lsqlite3"]
    subprocess.run(words, check=True)
    return program


def timed(what, keys, request):
    start = time.perf_counter()
    for key in keys:
        request(key)
    print(f"library, from Python\t{what}\t{1e6 * (time.perf_counter() - start) / len(keys):.3f}")


def from_python(count):
    from heap import Heap

    heap, value = Heap(superblocks=count // 200 + 16), bytes(64)
    keys = [number * 0x9E3779B97F4A7C15 % 2**64 for number in range(count)]
    timed("put", keys, lambda key: heap.__setitem__(key, value))
    timed("get", keys, heap.__getitem__)
    timed("del", keys, heap.__delitem__)


def main():
    for count in [int(it) for it in sys.argv[1:]] or [1_000, 100_000]:
        print(f"\n{count} keys", flush=True)
        with tempfile.TemporaryDirectory() as folder:
            subprocess.run([build(folder), str(count), folder], check=True)
        from_python(count)


if __name__ == "__main__":
    main()
