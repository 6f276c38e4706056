"""A second reading of docs/IMAGE.md and of the allocator's rules, apart from the crates: what
`heap_tool` has to say of an image. reference_runs.py says what of a run of a trace. `compare` holds
the program against both."""

import struct

MAGIC = 0x52414C4C4F433031
SIZES = [0, 16, 32, 48, 64, 96, 128, 192, 256, 384, 512, 768, 1024, 1536, 2048, 3072, 4096, 6144,
         8192, 12288, 14336]
BLOCKS = [0] + [65536 // size for size in SIZES[1:]]
LARGEST_SMALL = SIZES[-1]
FIXED = 1064  # the words before the first descriptor
FREE_HEAD = 16  # the head of the free list
ROOTS = range(40, 1064)
SUPERBLOCK = 8192
VERSION, USED, STATE = 1, 8, 3
MOST = {1: 256, 2: 4096}  # the superblocks of an image, by its version
KINDS = 3  # a kind is below it: 1 of a table, 2 of a node, 0 of a block without links
FIRST_KINDS = [1] * 8 + [0] * (len(ROOTS) - 8)  # of an empty image, and of one of version 1
LONGEST_VALUE = 131072


class Refused(Exception):
    """The tool ends with this status and prints one of these lines."""

    def __init__(self, status, lines):
        super().__init__(status, lines)
        self.status, self.lines = status, lines


def to_words(data):
    return list(struct.unpack(f"<{len(data) // 8}Q", data[:len(data) // 8 * 8]))


def to_bytes(words):
    return struct.pack(f"<{len(words)}Q", *words)


def offset_in(word):
    return word & ((1 << 48) - 1)


def kinds_begin(capacity):
    """Behind the last superblock: there an image of version 1 ends, and there one of version 2 has
    the kinds of its roots."""
    return FIXED + (8 + SUPERBLOCK) * capacity


def length_of(version, capacity):
    return kinds_begin(capacity) + (len(ROOTS) if version == 2 else 0)


def migrated(words):
    """The words as version 2 has them."""
    if words[VERSION] == 2:
        return words
    return words[:VERSION] + [2] + words[VERSION + 1:] + FIRST_KINDS


def empty_image(capacity):
    words = [0] * kinds_begin(capacity) + FIRST_KINDS
    words[0], words[VERSION], words[2], words[STATE] = MAGIC, 2, capacity, 1
    return to_bytes(words)


class Image:
    """An image with a good header, in version 2 once it is read. A block is (first word, words)."""

    def __init__(self, data, asks_kinds=True):
        cause = header_cause(data)
        if cause and (asks_kinds or cause != "kind"):
            raise Refused(7, [f"bad header {cause}"])
        self.words = migrated(to_words(data))
        self.capacity, self.used = self.words[2], self.words[USED]

    def kind_place(self, root):
        """Where the kind of the root at this word is stored."""
        return kinds_begin(self.capacity) + root - ROOTS[0]

    def kind(self, root):
        return self.words[self.kind_place(root)]

    def kinds(self):
        return self.words[kinds_begin(self.capacity):]

    def info(self, d):
        return self.words[FIXED + 8 * d]

    def anchor(self, d):
        return self.words[FIXED + 8 * d + 1]

    def link(self, d):
        return self.words[FIXED + 8 * d + 2]

    def start(self, d):
        return FIXED + 8 * self.capacity + SUPERBLOCK * d

    def blocks(self, d):
        """The first words of the blocks of a superblock of a class."""
        return range(self.start(d), self.start(d) + BLOCKS[self.info(d)] * SIZES[self.info(d)] // 8,
                     SIZES[self.info(d)] // 8)

    def superblock(self, block):
        return (block[0] - self.start(0)) // SUPERBLOCK

    def named(self, offset):
        """The block that a byte offset names, if it names one."""
        d, rest = divmod(offset - 8 * self.start(0), 65536)
        if not 0 <= d < self.used:
            return None
        info = self.info(d)
        if 1 <= info <= 20:
            is_block = rest % SIZES[info] == 0 and rest // SIZES[info] < BLOCKS[info]
            return (offset // 8, SIZES[info] // 8) if is_block else None
        count = (info - 255) // 256
        is_large = info % 256 == 255 and count >= 1 and rest == 0 and d + count <= self.used
        if is_large and not any(self.info(e) for e in range(d + 1, d + count)):
            return (offset // 8, SUPERBLOCK * count)
        return None

    def target(self, word):
        """The block that a word leads to; None where it is outside."""
        return self.named(offset_in(word)) if word >> 48 == 0x5250 else None

    def links(self, block, kind):
        """The places of a block's links: all words of a table (kind 1), the first of a node."""
        return range(block[0], block[0] + (block[1] if kind == 1 else 1)) if kind else ()

    def reached(self, roots, outside=None):
        """The blocks that some roots reach; words outside are added to a list."""
        pairs, places = set(), [(at, self.kind(at)) for at in roots]
        while places:
            at, kind = places.pop()
            word = self.words[at]
            if word == 0:
                continue
            block = self.target(word)
            if block is None:
                if outside is not None:
                    outside.append((at, word))
            elif (block, kind) not in pairs:
                pairs.add((block, kind))
                places += [(link, 2) for link in self.links(block, kind)]
        return {block for block, _ in pairs}

    def held(self):
        """The blocks that recovery keeps, in order."""
        outside = []
        held = sorted(self.reached(ROOTS, outside))
        if outside:
            raise Refused(8, [f"pointer outside at {at} value {word:016x}" for at, word in outside])
        return held

    def held_by_words(self):
        """The blocks kept with no filter, in order: every word that names one leads to it."""
        held, places = set(), list(ROOTS)
        while places:
            block = self.target(self.words[places.pop()])
            if block and block not in held:
                held.add(block)
                places += range(block[0], block[0] + block[1])
        return sorted(held)

    def state(self):
        return "clean" if self.words[STATE] == 1 else "dirty"

    def maps(self):
        """The eight shards' maps, each from a key to its value and its node's first word."""
        owners = {}
        for at in ROOTS:
            for block in self.reached([at]):
                owners.setdefault(block, set()).add(at)
        return [self.map_of(shard, owners) for shard in range(8)]

    def map_of(self, shard, owners):
        words, root, found = self.words, 40 + shard, {}

        def demand(holds, at):
            if not holds:
                raise Refused(9, [f"bad shard {shard} at {at}"])

        demand(self.kind(root) == 1, self.kind_place(root))
        if words[root] == 0:
            return found
        table = self.target(words[root])
        demand(table[1] == 128 and owners[table] == {root}, root)
        met = {table}
        for bucket in range(128):
            at = table[0] + bucket
            while words[at]:
                node = self.target(words[at])
                demand(node[1] >= 3 and node not in met and owners[node] == {root}, at)
                first, key, length = node[0], words[node[0] + 1], words[node[0] + 2]
                count = (length + 7) // 8
                demand(key % 8 == shard and key // 8 % 128 == bucket and key not in found, at)
                demand(length <= LONGEST_VALUE and count <= node[1] - 3, at)
                value = to_bytes(words[first + 3:first + 3 + count])[:length]
                found[key] = (value, first)
                met.add(node)
                at = first
        return found


def header_cause(data):
    """The first cause that holds. Those behind `version` are asked by the version."""
    if len(data) < 8 * FIXED:
        return "short"
    words = to_words(data[:8 * FIXED])
    version, capacity = words[VERSION], words[2]
    checks = [("magic", lambda: words[0] == MAGIC), ("version", lambda: version in MOST),
              ("capacity", lambda: 1 <= capacity <= MOST[version]),
              ("length", lambda: len(data) == 8 * length_of(version, capacity)),
              ("state", lambda: words[STATE] in (1, 2)), ("used", lambda: words[USED] <= capacity),
              ("kind", lambda: version == 1
               or all(kind < KINDS for kind in to_words(data[8 * kinds_begin(capacity):])))]
    return next((cause for cause, is_good in checks if not is_good()), None)


def runs_of(indexes):
    """Ascending numbers as longest runs."""
    runs = []
    for index in indexes:
        if runs and runs[-1][1] == index - 1:
            runs[-1][1] = index
        else:
            runs.append([index, index])
    return " ".join(str(a) if a == b else f"{a}-{b}" for a, b in runs)


def key_lines(values, is_sum):
    if is_sum:
        return [f"keys {len(values)} bytes {sum(map(len, values.values()))}"]
    return [f"key {key} {values[key].hex() or '-'}" for key in sorted(values)]


def held_lines(held):
    small, large = {}, {}
    for _, words in held:
        counts, size = (large, words // SUPERBLOCK) if words >= SUPERBLOCK else (small, 8 * words)
        counts[size] = counts.get(size, 0) + 1
    return ([f"held {size} {small[size]}" for size in sorted(small)]
            + [f"held large {size} {large[size]}" for size in sorted(large)])


def map_lines(image, used, info, held):
    """The lines of `--map`, of superblocks with these infos."""
    told, indexes = {}, {}
    for block in held:
        d, count = image.superblock(block), block[1] // SUPERBLOCK
        if count:
            told[d] = f"large {count}"
            told.update({e: f"inside {d}" for e in range(d + 1, d + count)})
        else:
            indexes.setdefault(d, []).append((block[0] - image.start(d)) // block[1])
    for d, found in indexes.items():
        told[d] = f"class {info(d)} held {runs_of(sorted(found))}"
    lines = [f"sb {d} {told.get(d, 'free')}" for d in range(used)]
    return [f"used {used} free {used - len(told)} fresh {image.capacity - used}"] + lines


def show(data, with_map):
    """What `show` prints."""
    image = Image(data)
    held = image.held()
    values = {key: value for found in image.maps() for key, (value, _) in found.items()}
    lines = [f"heap {image.capacity} {image.state()}"] + key_lines(values, False) + held_lines(held)
    return lines + (map_lines(image, image.used, image.info, held) if with_map else [])


def conservative(data, with_map):
    """What `conservative` prints. `kind` is the last cause, so behind it no other is hidden."""
    image = Image(data, asks_kinds=False)
    held = image.held_by_words()
    lines = [f"heap {image.capacity} {image.state()}"] + held_lines(held)
    return lines + (map_lines(image, image.used, image.info, held) if with_map else [])


def listed(image):
    """The superblocks of the free list, or None where it leads elsewhere or back."""
    found, d = [], (image.words[FREE_HEAD] % 2**24) - 1
    while d != -1:
        if d in found or not 0 <= d < image.used or image.anchor(d) & 3:
            return None
        found.append(d)
        d = image.link(d) - 1
    return found


def held_in(image, d):
    """The blocks that the anchor of a superblock of a class holds, or None where it doesn't tell."""
    blocks, anchor = image.blocks(d), image.anchor(d)
    state, first, count = anchor & 3, anchor >> 2 & (2**31 - 1), anchor >> 33
    if state == 0:
        return []
    if anchor == 2:
        return blocks
    if state != 1 or not 0 < count < len(blocks) or len(blocks) <= first:
        return None
    chain, place = [], blocks[first]
    while len(chain) < count:
        if place in chain or place not in blocks:
            return None
        chain.append(place)
        place = image.words[place]
    return [place for place in blocks if place not in chain]


def held_by_anchors(image):
    """The blocks that a closed image's anchors hold, or None where they can't be relied on."""
    free = listed(image)
    behind = range(image.used, image.capacity)
    if image.words[STATE] != 1 or free is None:
        return None
    if any(image.info(d) or image.anchor(d) or image.link(d) for d in behind):
        return None
    held, inside = [], 0
    for d in range(image.used):
        large = image.named(8 * image.start(d)) if image.info(d) > 255 else None
        if d in free or d < inside:
            if d in free and d < inside:
                return None
        elif large:
            held.append(large)
            inside = d + large[1] // SUPERBLOCK
        else:
            blocks = held_in(image, d) if 1 <= image.info(d) <= 20 else None
            if blocks is None:
                return None
            held += [(place, SIZES[image.info(d)] // 8) for place in blocks]
    return held


def count(data, with_map):
    """What `count` prints: by the anchors where they can be relied on, and else recovered."""
    image = Image(data)
    held = held_by_anchors(image)
    way = "traced" if held is None else "quick"
    held = image.held() if held is None else held
    lines = [way, f"heap {image.capacity} {image.state()}"] + held_lines(held)
    return lines + (map_lines(image, image.used, image.info, held) if with_map else [])


class Heap:
    """The allocator for one thread, over what recovery leaves: which blocks it gives, in order."""

    def __init__(self, image, held):
        self.image, self.held, self.used = image, dict(held), image.used
        self.infos = [image.info(d) if d < image.used else 0 for d in range(image.capacity)]
        self.cache = {c: [] for c in range(1, 21)}
        self.lists = {c: [] for c in range(21)}
        self.chains = {d: [] for d in range(image.used)}
        inside = {e for block in held if block[1] >= SUPERBLOCK
                  for e in range(image.superblock(block),
                                 image.superblock(block) + block[1] // SUPERBLOCK)}
        taken = {image.superblock(block) for block in held}
        for d in set(range(image.used)) - inside:
            if d in taken:
                free = [first for first in self.blocks(d) if first not in self.held]
                self.chains[d] = free
                if free:
                    self.lists[self.infos[d]].append(d)
            else:
                self.infos[d] = 0
                self.lists[0].append(d)
        for each in self.lists.values():
            each.sort()

    def blocks(self, d):
        info, start = self.infos[d], self.image.start(d)
        return [start + index * SIZES[info] // 8 for index in range(BLOCKS[info])]

    def alloc(self, size):
        """The first word of a block, or None where there is no room."""
        if size > LARGEST_SMALL:
            return self.alloc_large(-(-size // 65536))
        c = next(c for c in range(1, 21) if size <= SIZES[c])
        if not self.cache[c] and not self.refill(c):
            return None
        first = self.cache[c].pop(0)
        self.held[first] = SIZES[c] // 8
        return first

    def alloc_large(self, count):
        if self.used + count > self.image.capacity:
            return None
        d, self.used = self.used, self.used + count
        self.infos[d:d + count] = [255 + 256 * count] + [0] * (count - 1)
        self.chains.update({e: [] for e in range(d, d + count)})
        self.held[self.image.start(d)] = SUPERBLOCK * count
        return self.image.start(d)

    def refill(self, c):
        while self.lists[c]:
            d = self.lists[c].pop(0)
            if len(self.chains[d]) == BLOCKS[c]:
                self.lists[0].insert(0, d)
            else:
                self.cache[c], self.chains[d] = self.chains[d], []
                return True
        if self.lists[0]:
            d = self.lists[0].pop(0)
        elif self.used < self.image.capacity:
            d, self.used = self.used, self.used + 1
        else:
            return False
        self.infos[d], self.chains[d] = c, []
        self.cache[c] = self.blocks(d)
        return True

    def free(self, first):
        words = self.held.pop(first)
        d = self.image.superblock((first, words))
        if words >= SUPERBLOCK:
            for e in range(d, d + words // SUPERBLOCK):
                self.chains[e] = []
                self.lists[0].insert(0, e)
            return
        c = SIZES.index(8 * words)
        self.cache[c].insert(0, first)
        if len(self.cache[c]) == BLOCKS[c]:
            self.flush(c)

    def flush(self, c):
        cache, self.cache[c] = self.cache[c], []
        while cache:
            d = self.image.superblock((cache[0], 0))
            count = next((i for i, first in enumerate(cache)
                          if self.image.superblock((first, 0)) != d), len(cache))
            was_full = not self.chains[d]
            self.chains[d] = cache[:count] + self.chains[d]
            cache = cache[count:]
            if was_full:
                self.lists[0 if len(self.chains[d]) == BLOCKS[c] else c].insert(0, d)


def drain(data, c):
    """What `drain` prints."""
    image = Image(data)
    heap, offsets = Heap(image, image.held()), []
    while (first := heap.alloc(SIZES[c])) is not None:
        offsets.append(8 * first)
    return ([f"class {c} size {SIZES[c]} blocks {len(offsets)}"]
            + [str(offset) for offset in sorted(offsets)])
