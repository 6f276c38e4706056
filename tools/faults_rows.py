"""The calls whose outside tools/faults has fail: all nine commands over images of both versions, runs
by one worker and by three, and a call for each status of a refusal; and the images that they get."""

import zlib
from dataclasses import dataclass

from reference import ROOTS, VERSION, Image, kinds_begin, to_bytes, to_words

TRACE = b"put 5 6162\nput 14 -\nget 5\nmove 5 6\nput 5 63\ndel 14\nget 14\nput 1 6464\n"
SCHEDULE = b"seats 2\n0 look-used\n1 look-used\n1 take 1\n0 take 1\n"
# The calls that make the images: `closed` has the tables of the trace's shards, `open` was stopped.
CLOSED = ("format h 4", "run h --workers 1")
OPEN = CLOSED + ("run h --workers 1 --stop 60",)

LINES = {2: "usage", 3: "out of memory", 4: "read fault", 5: "write fault"}


@dataclass(frozen=True)
class Row:
    """A call: its words, the image h, the version of that, its input, and the status that it ends with."""

    words: str
    image: str = ""
    version: int = 0
    input: bytes = b""
    status: int = 0

    @property
    def command(self):
        return self.words.split()[0]

    @property
    def workers(self):
        words = self.words.split()
        return int(words[words.index("--workers") + 1]) if "--workers" in words else 0

    @property
    def puts(self):
        return self.status == 0 and self.command in ("format", "run", "rebuild")

    @property
    def gets(self):
        return self.command not in ("format", "gen") and self.status != 2

    @property
    def reads(self):
        return self.command in ("run", "replay") and self.status in (0, 10)

    def file(self):
        """The name of the file with the image."""
        return f"{self.image}.{self.version}" if self.image else "-"

    def input_file(self):
        return f"input.{zlib.crc32(self.input)}"

    def told(self):
        words = self.words if len(self.words) < 24 else self.words.replace("--workers", "-w")
        return f"{words:23} {self.image or '-':8} {self.version or '-':>7} {self.workers or '-':>7}"


HEAD = f"{'command':23} {'image':8} {'version':>7} {'workers':>7}"


def commands():
    """A call of each command, ended with 0."""
    yield Row("format h 2")
    yield Row("gen 3 1")
    for version in (1, 2):
        yield Row("show h --map", "open", version)
        yield Row("show h --par", "open", version)
        yield Row("conservative h --map", "open", version)
        yield Row("count h --map", "closed", version)
        yield Row("count h", "open", version)
        yield Row("drain h 16", "open", version)
        yield Row("run h --workers 1", "open", version, TRACE)
        yield Row("run h --workers 3", "open", version, TRACE)
        yield Row("rebuild h", "open", version)
        yield Row("replay h", "open", version, SCHEDULE)


def refusals():
    """A call for each status from 2 to 10 that needs no failure."""
    yield Row("show h --part", "open", 2, b"", 2)
    yield Row("show other", "open", 2, b"", 6)
    yield Row("count h", "cut", 2, b"", 7)
    yield Row("drain h 16", "outside", 1, b"", 8)
    yield Row("run h --workers 3", "shard", 2, TRACE, 9)
    yield Row("run h --workers 1", "open", 1, TRACE + b"put 01 aa\n", 10)
    yield Row("replay h", "open", 2, b"seats 9\n", 10)


def in_version_1(data):
    words = to_words(data)
    return to_bytes(words[:VERSION] + [1] + words[VERSION + 1:kinds_begin(words[2])])


def changed(data, word, value):
    words = to_words(data)
    words[word] = value
    return to_bytes(words)


def images(closed, opened):
    """The images that rows name, by the names of their files."""
    node = next(first for first, count in Image(opened).held() if count == 4)
    key = to_words(opened)[node + 1]
    return {
        "closed.1": in_version_1(closed), "closed.2": closed,
        "open.1": in_version_1(opened), "open.2": opened,
        "cut.2": opened[:100],
        "outside.1": in_version_1(changed(opened, ROOTS[1], 12345)),
        "shard.2": changed(opened, node + 1, key + 1),
    }
