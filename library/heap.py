"""A dictionary of ints (0 to 2^64 - 1) to bytes, kept in an image: see docs/C.md.

    with Heap("my.img") as heap:      # leaving it saves it
        heap[1] = b"one"
        print(heap.get(1), 2 in heap, list(heap))

It needs libheap.so beside this file, or its path in the variable LIBHEAP.
"""
import ctypes
import os
from collections.abc import MutableMapping

DONE, ABSENT, USAGE, MEMORY, READ, WRITE, NO_IMAGE, HEADER, OUTSIDE, SHARD = range(10)
FULL, STOPPED, ROOM = 11, 12, 13

MOST_STEPS = 2**40 - 1


class Dict(ctypes.Structure):
    """The struct heap_dict of heap.h."""

    _fields_ = [("at", ctypes.c_void_p), ("state", ctypes.c_uint64)]


class Fault(ctypes.Structure):
    """The struct heap_fault of heap.h."""

    _fields_ = [(name, ctypes.c_uint64) for name in ("cause", "shard", "at", "value")]


def _load_library():
    beside = os.path.join(os.path.dirname(os.path.abspath(__file__)), "libheap.so")
    library = ctypes.CDLL(os.environ.get("LIBHEAP", beside), use_errno=True)
    word, size, room = ctypes.c_uint64, ctypes.c_size_t, ctypes.c_void_p
    handle, fault, number = (ctypes.POINTER(it) for it in (Dict, Fault, ctypes.c_uint64))
    arguments = {
        "heap_format": [word, handle, fault],
        "heap_open_limited": [ctypes.c_char_p, size, word, handle, fault],
        "heap_put": [handle, word, ctypes.c_char_p, size],
        "heap_get": [handle, word, room, size, number],
        "heap_del": [handle, word],
        "heap_first": [handle, number],
        "heap_next": [handle, word, number],
        "heap_length": [handle],
        "heap_image": [handle, room, size, fault],
        "heap_close": [handle, room, size],
        "heap_crash": [handle, word, room, size],
        "heap_drop": [handle],
        "heap_save": [ctypes.c_char_p, ctypes.c_char_p, size],
        "heap_reason": [ctypes.c_uint32, fault, ctypes.c_char_p, size],
    }
    for name, of in arguments.items():
        call = getattr(library, name)
        call.argtypes, call.restype = of, ctypes.c_uint32
    library.heap_length.restype = word
    library.heap_drop.restype = library.heap_reason.restype = None
    return library


_library = _load_library()


class HeapError(Exception):
    """A call that was refused: its status, and the line that says what that means."""

    def __init__(self, status, fault=None):
        text = ctypes.create_string_buffer(128)
        _library.heap_reason(status, fault or Fault(), text, len(text))
        super().__init__(text.value.decode())
        self.status, self.fault = status, fault


def _as_key(key):
    if not isinstance(key, int) or not 0 <= key < 2**64:
        raise KeyError(key)
    return key


class Heap(MutableMapping):
    """A dictionary over the image in a file, if there is one, or over an empty one; `image` opens these bytes instead.

    `budget` limits the steps that it takes over an image, for tests: then it stops in the middle of a request.
    """

    def __init__(self, path=None, superblocks=16, image=None, budget=MOST_STEPS):
        self._dict, self._value, self.path = Dict(), ctypes.create_string_buffer(256), path
        if image is None and path is not None and os.path.exists(path):
            with open(path, "rb") as file:
                image = file.read()
        if image is None:
            self._check(*self._with_fault("heap_format", superblocks))
        else:
            self._check(*self._with_fault("heap_open_limited", image, len(image), budget))

    def _with_fault(self, name, *arguments):
        fault = Fault()
        return getattr(_library, name)(*arguments, self._dict, fault), fault

    @staticmethod
    def _check(status, fault=None):
        if status > ABSENT:
            raise HeapError(status, fault)
        return status == DONE

    def _call(self, name, *arguments):
        return self._check(getattr(_library, name)(self._dict, *arguments))

    def __setitem__(self, key, value):
        value = bytes(value)
        self._call("heap_put", _as_key(key), value, len(value))

    def __getitem__(self, key):
        length = ctypes.c_uint64()
        while self._call("heap_get", _as_key(key), self._value, len(self._value), length):
            if length.value <= len(self._value):
                return self._value.raw[: length.value]
            self._value = ctypes.create_string_buffer(length.value)
        raise KeyError(key)

    def __delitem__(self, key):
        if not self._call("heap_del", _as_key(key)):
            raise KeyError(key)

    def __iter__(self):
        """The keys, from the least on."""
        key = ctypes.c_uint64()
        there = self._call("heap_first", key)
        while there:
            yield key.value
            there = self._call("heap_next", key.value, key)

    def __len__(self):
        return sum(1 for _ in self)

    def _room(self):
        return ctypes.create_string_buffer(_library.heap_length(self._dict) or 1)

    def image(self):
        """The bytes of its image."""
        room, fault = self._room(), Fault()
        self._check(_library.heap_image(self._dict, room, len(room), fault), fault)
        return room.raw

    def crash(self, seed=0):
        """The bytes that a crash now may leave: the seed decides which of these. It is closed."""
        room = self._room()
        self._check(_library.heap_crash(self._dict, seed, room, len(room)))
        return room.raw

    def save(self, path=None):
        """Writes its image to the file: a crash leaves the old file or the new one."""
        image, path = self.image(), self.path if path is None else path
        self._check(_library.heap_save(os.fsencode(path), image, len(image)))

    def close(self):
        """Closes it, and nothing of it is kept that was not saved."""
        _library.heap_drop(self._dict)

    def __enter__(self):
        return self

    def __exit__(self, kind, *_):
        if kind is None and self.path is not None and self._dict.state:
            self.save()
        self.close()

    def __del__(self):
        if hasattr(self, "_dict"):
            self.close()
