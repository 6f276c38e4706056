"""A second reading of the core of the shared heap, apart from the crates: what `replay` has to
print. Its guards are those that docs/ALGORITHM.md and core_model name."""

from reference import BLOCKS, FIXED, SIZES, STATE, SUPERBLOCK, USED, Image, held_lines, to_bytes

EMPTY, PARTIAL, FULL = 0, 1, 2
MASK = (1 << 24) - 1


def pack_anchor(state, first, count):
    return state | first << 2 | count << 33


def state_of(anchor):
    return anchor & 3


def first_of(anchor):
    return anchor >> 2 & (1 << 31) - 1


def count_of(anchor):
    return anchor >> 33


class Seat:
    """What a seat has: blocks by their first words, superblocks in hand, a batch, and notes."""

    def __init__(self):
        self.ticket = False
        self.small, self.large, self.roots = set(), {}, set()
        self.cache = {c: [] for c in range(1, 21)}
        self.raw, self.split, self.cutting, self.classed = set(), set(), set(), {}
        self.batch, self.batch_of, self.is_linked = [], None, False
        self.used = self.head = self.link = self.anchor = None

    def is_raw(self, d):
        return d in self.raw or d in self.split

    def is_free_hand(self, d):
        return self.is_raw(d) or d in self.classed

    def leave(self, d):
        """The superblock is in no hand any more."""
        self.raw.discard(d)
        self.split.discard(d)
        self.cutting.discard(d)
        self.classed.pop(d, None)
        self.forget(d)

    def forget(self, d):
        if self.anchor and self.anchor[0] == d:
            self.anchor = None


class Core:
    """The words that loads see (`now`) and that a crash leaves (`kept`), and the seats."""

    def __init__(self, image, held, seats):
        self.image, self.capacity, self.tickets = image, image.capacity, 0
        self.now = recovered_words(image, held)
        self.kept = list(self.now)
        self.seats = [Seat() for _ in range(seats)]
        first = self.seats[0]
        first.roots = set(range(40, FIXED))
        for block in held:
            if block[1] >= SUPERBLOCK:
                first.large[image.superblock(block)] = block[1] // SUPERBLOCK
            else:
                first.small.add(block[0])

    # Where words stand.
    def info(self, d):
        return self.now[FIXED + 8 * d]

    def anchor(self, d):
        return self.now[FIXED + 8 * d + 1]

    def link(self, d):
        return self.now[FIXED + 8 * d + 2]

    def superblock(self, word):
        return (word - self.image.start(0)) // SUPERBLOCK

    def blocks(self, d, c):
        return [self.image.start(d) + i * SIZES[c] // 8 for i in range(BLOCKS[c])]

    def owner_part(self, seat, word):
        """Which of the seat's own words this is, and of which superblock: None if it is none."""
        if word in seat.roots:
            return "root", None
        d, part = divmod(word - FIXED, 8)
        if 0 <= d < self.capacity and part < 3:
            is_own = seat.is_raw(d) or d in seat.cutting or (part == 2 and d in seat.classed)
            return (("info", "anchor", "link")[part], d) if is_own else None
        d = self.superblock(word)
        if not self.image.start(0) <= word < self.image.start(self.capacity):
            return None
        if seat.is_raw(d) or d in seat.cutting:
            return "word", d
        if any(first <= d < first + n for first, n in seat.large.items()):
            return "word", d
        c = self.info(d)
        if 1 <= c <= 20:
            size = SIZES[c] // 8
            first = word - (word - self.image.start(d)) % size
            if first in seat.small or first in seat.cache[c] or first in seat.batch:
                return "word", d
        return None

    def may_store(self, seat, word, value):
        own = self.owner_part(seat, word)
        if own is None:
            return False
        part, d = own
        if part == "anchor":
            is_empty = state_of(self.anchor(d)) == EMPTY or d in seat.split
            return value == 0 or (value == FULL and d not in seat.cutting and is_empty)
        if part == "link":
            return d not in seat.cutting
        if part == "word":
            in_cache = any(word in cache for cache in seat.cache.values())
            return not in_cache and (word not in seat.batch or word == seat.batch[-1])
        return True

    # One line of a schedule: whether its last event was done.
    def line(self, number, verb, numbers):
        seat = self.seats[number]
        if verb == "settle":
            return self.settle(seat, *numbers)
        shift = getattr(self, f"shift_{verb}", None)
        if shift:
            return shift(seat, *numbers)
        self.draw(seat)
        if verb == "tick":
            return True
        is_done = getattr(self, "event_" + verb.replace("-", "_"))(seat, *numbers)
        seat.ticket = seat.ticket and not is_done
        return is_done

    def draw(self, seat):
        self.tickets += 1
        seat.ticket = True
        return True

    def settle(self, seat, word):
        if self.owner_part(seat, word) is None:
            return False
        self.kept[word] = self.now[word]
        return True

    # Shifts, each with a draw.
    def shift_cut(self, seat, d):
        if d not in seat.cutting or d >= self.kept[USED]:
            return False
        c = self.info(d)
        if not 1 <= c <= 20 or self.kept[FIXED + 8 * d] != c or seat.cache[c]:
            return False
        blocks = self.blocks(d, c)
        if any(self.now[a] != b for a, b in zip(blocks, blocks[1:])):
            return False
        seat.cache[c] = blocks
        seat.leave(d)
        return self.draw(seat)

    def shift_alloc(self, seat, c):
        if not seat.cache.get(c):
            return False
        seat.small.add(seat.cache[c].pop(0))
        return self.draw(seat)

    def shift_free(self, seat, block):
        if block not in seat.small:
            return False
        cache = seat.cache[self.info(self.superblock(block))]
        if cache and self.now[block] != cache[0]:
            return False
        seat.small.remove(block)
        cache.insert(0, block)
        return self.draw(seat)

    def shift_lift(self, seat, c):
        cache = seat.cache.get(c)
        if not cache:
            return False
        d = self.superblock(cache[0])
        if seat.batch and not (seat.batch_of == d and seat.is_linked
                               and self.now[seat.batch[-1]] == cache[0]):
            return False
        seat.batch.append(cache.pop(0))
        seat.batch_of, seat.is_linked = d, True
        return self.draw(seat)

    def shift_large(self, seat, d, n):
        if n < 1 or d + n > self.kept[USED]:
            return False
        for e in range(d, d + n):
            is_empty = e in seat.split or (e in seat.raw and state_of(self.anchor(e)) == EMPTY)
            info = 255 + 256 * n if e == d else 0
            if not is_empty or {self.info(e), self.kept[FIXED + 8 * e]} != {info}:
                return False
        for e in range(d, d + n):
            seat.leave(e)
        seat.large[d] = n
        return self.draw(seat)

    def shift_split(self, seat, block):
        d = self.superblock(block)
        if block != self.image.start(d) or d not in seat.large:
            return False
        for e in range(d, d + seat.large.pop(d)):
            seat.split.add(e)
            seat.forget(e)
        return self.draw(seat)

    # Events that use a ticket up.
    def event_load(self, seat, word):
        return self.owner_part(seat, word) is not None

    def event_store(self, seat, word, value):
        if not self.may_store(seat, word, value):
            return False
        part, d = self.owner_part(seat, word)
        self.now[word] = value
        if part == "anchor" and value == FULL:
            seat.raw.discard(d)
            seat.split.discard(d)
            seat.cutting.add(d)
        elif part == "anchor" and d in seat.cutting:
            seat.cutting.remove(d)
            seat.raw.add(d)
        if seat.batch and word == seat.batch[-1]:
            seat.is_linked = False
        return True

    def event_look_used(self, seat):
        seat.used = self.now[USED]
        return True

    def event_take(self, seat, n):
        used = seat.used
        if used is None or n < 1 or self.now[USED] != used or used + n > self.capacity:
            return False
        self.now[USED] = seat.used = used + n
        seat.raw.update(range(used, used + n))
        return True

    def event_keep(self, seat):
        if seat.used is None:
            return False
        self.kept[USED] = max(self.kept[USED], seat.used)
        return True

    def event_head(self, seat, number):
        if number > 20:
            return False
        seat.head, seat.link = (number, self.now[16 + number]), None
        return True

    def event_link(self, seat):
        if seat.head is None or seat.head[1] & MASK == 0:
            return False
        seat.link = self.link((seat.head[1] & MASK) - 1)
        return True

    def event_pop(self, seat):
        if seat.head is None or seat.link is None or self.now[16 + seat.head[0]] != seat.head[1]:
            return False
        number, word = seat.head
        d = (word & MASK) - 1
        self.now[16 + number] = seat.link | ((word >> 24) + 1) << 24
        seat.head = seat.link = None
        seat.forget(d)
        if number:
            seat.classed[d] = number
        else:
            seat.raw.add(d)
        return True

    def event_push(self, seat, d):
        if seat.head is None or not seat.is_free_hand(d) or d >= self.kept[USED]:
            return False
        number, word = seat.head
        state = state_of(self.anchor(d))
        is_listed = state == EMPTY if number == 0 else (
            d in seat.classed and self.info(d) == number and state in (EMPTY, PARTIAL))
        if not is_listed or self.link(d) != word & MASK or self.now[16 + number] != word:
            return False
        self.now[16 + number] = d + 1 | word >> 24 << 24
        seat.head = None
        seat.leave(d)
        return True

    def event_anchor(self, seat, d):
        if not seat.is_free_hand(d) and not (seat.batch and seat.batch_of == d):
            return False
        seat.anchor = (d, self.anchor(d))
        return True

    def event_take_all(self, seat, d):
        if d not in seat.classed or seat.anchor is None or seat.anchor[0] != d:
            return False
        word, c = seat.anchor[1], seat.classed[d]
        if state_of(word) != PARTIAL or self.anchor(d) != word or seat.cache[c]:
            return False
        block = self.image.start(d) + first_of(word) * SIZES[c] // 8
        for _ in range(count_of(word)):
            seat.cache[c].append(block)
            block = self.now[block]
        self.now[FIXED + 8 * d + 1] = FULL
        seat.leave(d)
        return True

    def event_give(self, seat, d):
        if not seat.batch or seat.batch_of != d or seat.anchor is None or seat.anchor[0] != d:
            return False
        word, c = seat.anchor[1], self.info(d)
        start, size = self.image.start(d), SIZES[c] // 8
        if self.anchor(d) != word:
            return False
        if count_of(word) and self.now[seat.batch[-1]] != start + first_of(word) * size:
            return False
        count = len(seat.batch) + count_of(word)
        state = EMPTY if count == BLOCKS[c] else PARTIAL
        self.now[FIXED + 8 * d + 1] = pack_anchor(state, (seat.batch[0] - start) // size, count)
        seat.batch, seat.batch_of, seat.anchor = [], None, None
        if state_of(word) == FULL:
            seat.classed[d] = c
        return True

    def report(self):
        """What is told of the image that a crash leaves."""
        words = list(self.kept)
        words[STATE] = 2
        image = Image(to_bytes(words))
        return [f"heap {self.capacity} dirty"] + held_lines(image.held())


def recovered_words(image, held):
    """The words that recovery leaves."""
    words = list(image.words)
    words[STATE] = 2
    lists, taken, inside = {c: [] for c in range(21)}, {}, set()
    for block in held:
        d = image.superblock(block)
        if block[1] >= SUPERBLOCK:
            inside.update(range(d, d + block[1] // SUPERBLOCK))
        else:
            taken.setdefault(d, set()).add(block[0])
    for d in range(image.capacity):
        at = FIXED + 8 * d
        words[at + 1] = words[at + 2] = 0
        if d in inside:
            words[at + 1] = FULL
        elif d not in taken:
            words[at] = 0
            if d < image.used:
                lists[0].append(d)
        else:
            c, start = words[at], image.start(d)
            free = [i for i in range(BLOCKS[c]) if start + i * SIZES[c] // 8 not in taken[d]]
            places = [start + i * SIZES[c] // 8 for i in free]
            for place, following in zip(places, places[1:]):
                words[place] = following
            words[at + 1] = pack_anchor(PARTIAL, free[0], len(free)) if free else FULL
            if free:
                lists[c].append(d)
    for number, found in lists.items():
        words[16 + number] = found[0] + 1 if found else 0
        for d, following in zip(found, found[1:] + [-1]):
            words[FIXED + 8 * d + 2] = following + 1
    return words


def replay(data, seats, lines):
    """What `replay` prints of a schedule: a line is a seat, a verb and its numbers."""
    image = Image(data)
    core = Core(image, image.held(), seats)
    answers = ["done" if core.line(*line) else "not now" for line in lines]
    return answers + [f"tickets {core.tickets}"] + core.report()
