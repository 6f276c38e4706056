"""Notes in a file, a crash after a change, and images that are refused."""
import os
import sys
import tempfile

sys.path.insert(0, os.environ.get("HEAP_PY", os.path.join(os.path.dirname(__file__), "..", "bin")))
from heap import Heap, HeapError


def keep_notes(path):
    with Heap(path) as heap:  # leaving it saves it
        heap[1] = b"one"
        heap[70] = b"two" * 200
        heap[3] = b"three"
        del heap[3]
    with Heap(path) as heap:
        print("notes:", list(heap), heap[1], len(heap[70]), 3 in heap)


def crash_after_a_put(path):
    """A put that has answered is not lost by a crash."""
    heap = Heap(path)
    heap[1] = b"uno"
    print("after a crash:", Heap(image=heap.crash())[1])


def refuse(image):
    try:
        Heap(image=image)
    except HeapError as error:
        print("refused:", error)


if __name__ == "__main__":
    with tempfile.TemporaryDirectory() as folder:
        notes = os.path.join(folder, "notes.img")
        keep_notes(notes)
        crash_after_a_put(notes)
        with open(notes, "rb") as file:
            damaged = bytearray(file.read())
        damaged[40 * 8] = 90  # root 0
        refuse(bytes(damaged))
        refuse(b"no image")
