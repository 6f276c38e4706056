#!/usr/bin/env python3
"""Writes an image all of whose 32-byte blocks are reached, as nodes of the dictionary; or one in which so many NODES of 64
bytes are, with as many superblocks as these take.

With one shard the first bucket of its table begins one chain of them all; with more, the keys go round the shards,
and in each shard round its buckets.

usage: full_image.py FILE SUPERBLOCKS [SHARDS]
       full_image.py FILE --nodes NODES [SHARDS]
"""
import array
import sys

MAGIC, TAG, SUPERBLOCK_WORDS, BUCKETS = 0x52414C4C4F433031, 0x5250 << 48, 8192, 128
SHARDS = 8  # of the dictionary: their roots have kind 1
# The class of a table, and that of a node by its words.
TABLE_CLASS, NODE_CLASS = 12, {4: 2, 8: 4}


def write(path, capacity, shards, node_words, count):
    each = SUPERBLOCK_WORDS // node_words
    kinds = 1064 + 8200 * capacity
    words = array.array("Q", bytes(8 * (kinds + 1024)))
    words[0], words[1], words[2], words[3], words[8] = MAGIC, 2, capacity, 1, capacity
    for root in range(SHARDS):
        words[kinds + root] = 1
    start = [1064 + 8 * capacity + SUPERBLOCK_WORDS * d for d in range(capacity)]
    words[1064] = TABLE_CLASS
    for shard in range(shards):
        words[40 + shard] = TAG + 8 * (start[0] + BUCKETS * shard)
    for d in range(1, capacity):
        words[1064 + 8 * d] = NODE_CLASS[node_words]
    for i in reversed(range(count)):
        first = start[1 + i // each] + node_words * (i % each)
        key = 8 * BUCKETS * i if shards == 1 else i // shards * 8 + i % shards
        link = start[0] + BUCKETS * (key % 8) + key // 8 % BUCKETS
        # the node goes in front of those of its bucket that are there
        words[first], words[first + 1] = words[link], key
        words[link] = TAG + 8 * first
    if sys.byteorder == "big":
        words.byteswap()
    with open(path, "wb") as out:
        words.tofile(out)


def main(path, *words):
    has_nodes = words[0] == "--nodes"
    number, shards = int(words[has_nodes]), int(words[has_nodes + 1]) if len(words) > has_nodes + 1 else 1
    if has_nodes:
        write(path, 1 - (-number * 8 // SUPERBLOCK_WORDS), shards, 8, number)
    else:
        write(path, number, shards, 4, SUPERBLOCK_WORDS // 4 * (number - 1))


if __name__ == "__main__":
    main(*sys.argv[1:])
