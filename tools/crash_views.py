"""What the stops of a run left, for tools/explore: the program's text, and by reference.py what lies
in the image. A place of a block is [superblock, index]."""

import collections
import functools
import zlib

from reference import FIXED, FREE_HEAD, ROOTS, SIZES, SUPERBLOCK, USED, STATE, Image, offset_in, to_bytes
from reference_runs import SHARDS, node_bytes, shard_of

BUCKETS = 128
MOST_NODES, MOST_WORDS = 5, 12  # that are drawn of a chain, and told of what a step changed


class Left:
    """What a run printed, and the image that it left."""

    def __init__(self, said, data, count):
        lines = said.splitlines()
        self.said, self.packed = said, zlib.compress(data, 1)
        self.replies, self.rest = lines[:count], lines[count:]
        self.is_closed = self.rest[:1] == ["run closed"]
        self.unanswered = self.replies.count("unanswered")
        self.dictionary = [line for line in self.rest if line.startswith("key ")]

    def reading(self):
        return reading_of(self.packed)

    def node(self, key):
        """The first word of the key's node, and its value; None where there is none."""
        return nodes_of(self.packed).get(key, (None, None))


@functools.cache
def nodes_of(packed):
    reading = reading_of(packed)
    return {key: (node, reading.values[key]) for key, node in reading.nodes.items()}


@functools.lru_cache(maxsize=12)
def reading_of(packed):
    return Reading(zlib.decompress(packed))


class Reading:
    """An image as it lies in the file: what is durable, and what of it the roots reach."""

    def __init__(self, data):
        self.image = Image(data)
        self.words = self.image.words
        self.held = set(self.image.held())
        found = {key: it for shard in self.image.maps() for key, it in shard.items()}
        self.values = {key: value for key, (value, _) in found.items()}
        self.nodes = {key: node for key, (_, node) in found.items()}

    def block_with(self, at):
        """The block in which a word lies, or None."""
        d = self.image.superblock((at, 0))
        if not 0 <= d < self.image.used:
            return None
        start, info = self.image.start(d), self.image.info(d)
        if 1 <= info <= 20:
            size = SIZES[info] // 8
            return self.image.named(8 * (at - (at - start) % size))
        firsts = (self.image.named(8 * self.image.start(e)) for e in range(d, -1, -1))
        return next((block for block in firsts if block and block[0] + block[1] > at), None)

    def place(self, first):
        """Where a block is that begins with this word."""
        d = self.image.superblock((first, 0))
        info = self.image.info(d)
        return [d, (first - self.image.start(d)) * 8 // SIZES[info] if 1 <= info <= 20 else 0]

    def is_held(self, first):
        return self.block_with(first) in self.held

    # The way from a root to the nodes of a key's bucket.
    def table(self, key):
        root = self.words[ROOTS[0] + shard_of(key)]
        return offset_in(root) // 8 if root else None

    def bucket(self, key):
        return key // SHARDS % BUCKETS

    def chain(self, key):
        table = self.table(key)
        at, nodes = table and self.words[table + self.bucket(key)], []
        while at:
            nodes.append(offset_in(at) // 8)
            at = self.words[nodes[-1]]
        return nodes

    def node_words(self, first, value):
        """The words of a node with a value as long as this."""
        return self.words[first:first + node_bytes(value) // 8]

    def whole_node(self, key, value):
        """The first word of a node with this key and value that no root reaches, if there is one."""
        wanted = [key, len(value)] + words_of(value)
        for d in range(self.image.used):
            if 1 <= self.image.info(d) <= 20 and SIZES[self.image.info(d)] >= node_bytes(value):
                for first in self.image.blocks(d):
                    is_such = self.words[first + 1:first + 1 + len(wanted)] == wanted
                    if is_such and not self.is_held(first):
                        return first
        return None


def words_of(value):
    padded = value + bytes(-len(value) % 8)
    return [int.from_bytes(padded[at:at + 8], "little") for at in range(0, len(padded), 8)]


def short(value):
    """A value's digits, or its beginning."""
    told = value.hex() or "-"
    return told if len(told) <= 24 else f"{told[:16]}… ({len(value)} bytes)"


def says_nothing(image, at):
    """Whether nothing durable is promised of the word: a head, an anchor, or a link of a list."""
    is_descriptor = FIXED <= at < image.start(0)
    return FREE_HEAD <= at < ROOTS[0] or is_descriptor and (at - FIXED) % 8 in (1, 2)


def changed(before, after):
    """The words of which durable values differ, but those of which nothing is promised."""
    one, other, found = before.words, after.words, []
    if one is other:
        return found
    for part in range(0, len(other), 512):
        if one[part:part + 512] != other[part:part + 512]:
            found += [at for at in range(part, min(part + 512, len(other)))
                      if one[at] != other[at] and not says_nothing(after.image, at)]
    return found


def told_change(before, after, at):
    return {"at": at, "what": name_of(after, at), "from": told_word(before, before.words[at]),
            "to": told_word(after, after.words[at])}


def name_of(reading, at):
    """What a word of the image is."""
    fixed = {STATE: "the heap's state", USED: "used: how many superblocks have been taken"}
    if at in fixed:
        return fixed[at]
    if at in ROOTS:
        return f"root {at - ROOTS[0]}"
    if FIXED <= at < reading.image.start(0):
        return f"the info of superblock {(at - FIXED) // 8}"
    block = reading.block_with(at)
    if block is None:
        return f"word {at}"
    return f"{part_of(reading, block, at - block[0])} of {told_block(reading.place(block[0]))}"


def part_of(reading, block, index):
    tables = {reading.words[root] and offset_in(reading.words[root]) // 8 for root in ROOTS[:SHARDS]}
    if block[0] in tables:
        return f"the link of bucket {index}"
    return {0: "the link", 1: "the key", 2: "the length"}.get(index, "the value" if index == 3 else f"word {index}")


def told_block(place):
    return f"block {place[1]} of superblock {place[0]}"


def told_word(reading, word):
    target = reading.image.target(word)
    if target:
        return f"→ {told_block(reading.place(target[0]))}"
    return str(word) if word < 2**20 else f"{word:#x}"


def left_behind(opening, reading):
    """By superblock the blocks that were held before the run, or have bytes of it, and that no root
    reaches now; and by superblock what the file says of such as recovery frees."""
    image, places, marked = reading.image, {}, {}
    touched = {block for at in changed(opening, reading) if (block := reading.block_with(at)) and block[0] != at}
    for block in (touched | opening.held) - reading.held:
        if reading.block_with(block[0]) == block:
            d, index = reading.place(block[0])
            places.setdefault(d, []).append(index)
    used = {image.superblock(block) for block in reading.held}
    for d in set(range(image.used)) - used:
        large = image.named(8 * image.start(d))
        if 1 <= image.info(d) <= 20:
            marked[d] = f"class {image.info(d)}"
        elif large:
            marked[d] = f"large {large[1] // SUPERBLOCK}"
    return {d: sorted(found) for d, found in sorted(places.items())}, marked


# A node that no root reaches yet: its place, the words that it is to have, and which of them are durable.
NewNode = collections.namedtuple("NewNode", "place words durable")


def drawing(reading, key, new, gone):
    """The way to a key's node; a new node; and the first word of one that no root reaches any more."""
    table, nodes = reading.table(key), reading.chain(key)
    mine = reading.nodes.get(key)
    told = {"key": str(key), "shard": shard_of(key), "bucket": reading.bucket(key),
            "table": table and reading.place(table), "nodes": [], "more": max(0, len(nodes) - MOST_NODES)}
    at = nodes.index(mine) if mine in nodes else 0
    first = max(0, at + 1 - MOST_NODES)
    told["before"], told["mine"] = first, at - first if mine in nodes else None
    told["nodes"] = [old_node(reading, node) for node in nodes[first:first + MOST_NODES]]
    told["new"] = new and new_node(reading, new)
    told["gone"] = old_node(reading, gone) if gone else None
    return told


def old_node(reading, first):
    key, length = reading.words[first + 1:first + 3]
    value = to_bytes(reading.words[first + 3:first + 3 + -(-length // 8)])[:length]
    return {"place": reading.place(first), "key": str(key), "value": short(value)}


def new_node(reading, new):
    """Its words, and whether each is durable."""
    words, durable = new.words, new.durable
    link = "null" if words[0] == 0 else told_word(reading, words[0])
    rows = [["link", link, durable[0]], ["key", str(words[1]), durable[1]], ["length", str(words[2]), durable[2]]]
    if words[3:]:
        rows.append(["value", short(to_bytes(words[3:])[:words[2]]), all(durable[3:])])
    return {"place": new.place, "rows": rows, "durable": sum(durable)}
