"""Schedules at random: rows of steps as an allocator has them, by several seats in turn, with steps
among them that most often may not be done."""

from reference import FIXED, ROOTS, SIZES
from reference_core import FULL, MASK, Core, first_of, state_of
from reference_texts import VERBS

CLASSES = [20, 20, 19, 18, 17, 16, 12]


class Schedule:
    """A schedule in the making, over a core that takes each of its lines."""

    def __init__(self, chance, image, held, seats):
        self.chance, self.core = chance, Core(image, held, seats)
        self.lines, self.answers = [], []
        self.rows = [[] for _ in range(seats)]

    def text(self):
        lines = [f"seats {len(self.rows)}"]
        lines += [" ".join(map(str, [seat, verb, *numbers])) for seat, verb, numbers in self.lines]
        return ("\n".join(lines) + "\n").encode()

    def grow(self, count):
        for _ in range(count):
            number = self.chance.randrange(len(self.rows))
            if not self.rows[number]:
                self.rows[number] = self.row(self.core.seats[number])
            verb, *numbers = self.rows[number].pop(0)
            if self.chance.random() < 0.05:
                verb, numbers = self.any_step(self.core.seats[number])
            self.lines.append((number, verb, numbers))
            is_done = self.core.line(number, verb, numbers)
            self.answers.append("done" if is_done else "not now")
            if not is_done and self.chance.random() < 0.7:
                self.rows[number] = []

    def any_number(self, seat):
        chance, core = self.chance, self.core
        d = chance.randrange(core.capacity)
        own = list(seat.small) + [block for cache in seat.cache.values() for block in cache[:2]]
        own += seat.batch + [core.image.start(e) for e in seat.large]
        hand = list(seat.raw | seat.split | seat.cutting | set(seat.classed))
        return chance.choice([d, chance.randrange(24), FIXED + 8 * d + chance.randrange(4), 2, 0,
                              chance.choice(own) if own else 20, chance.choice(hand) if hand else 1,
                              core.image.start(d) + chance.randrange(8192),
                              chance.choice(ROOTS), chance.randrange(2**64)])

    def any_step(self, seat):
        verb = self.chance.choice(list(VERBS))
        return verb.decode(), [self.any_number(seat) for _ in range(VERBS[verb])]

    def row(self, seat):
        """A row of steps towards an end that the seat may have now."""
        chance = self.chance
        makers = [self.take_fresh, self.pop_list, self.hold_block, self.free_block,
                  self.lift_blocks, self.give_batch, self.push_back, self.take_blocks,
                  self.cut_blocks, self.hold_large, self.split_large, self.publish]
        for make in chance.sample(makers, len(makers)):
            row = make(seat)
            if row:
                return row
        verb, numbers = self.any_step(seat)
        return [[verb, *numbers]]

    def durably(self, word, value):
        return [["store", word, value], ["settle", word]]

    def take_fresh(self, seat):
        return [["look-used"], ["take", self.chance.choice([1, 1, 2])], ["keep"]]

    def pop_list(self, seat):
        return [["head", self.chance.choice([0, 0, *CLASSES])], ["link"], ["pop"]]

    def hold_block(self, seat):
        full = [c for c, cache in seat.cache.items() if cache]
        return full and [["alloc", self.chance.choice(full)]]

    def free_block(self, seat):
        if not seat.small:
            return None
        block = self.chance.choice(sorted(seat.small))
        cache = seat.cache[self.core.info(self.core.superblock(block))]
        return ([["store", block, cache[0]]] if cache else []) + [["free", block]]

    def lift_blocks(self, seat):
        full = [c for c, cache in seat.cache.items() if cache]
        return full and [["lift", self.chance.choice(full)]] * self.chance.randint(1, 4)

    def give_batch(self, seat):
        if not seat.batch:
            return None
        d = seat.batch_of
        anchor, c = self.core.anchor(d), self.core.info(d)
        place = self.core.image.start(d) + first_of(anchor) * SIZES[c] // 8
        link = [] if state_of(anchor) == FULL else [["store", seat.batch[-1], place]]
        return [["anchor", d], *link, ["give", d]]

    def hand(self, seat):
        return sorted(seat.raw | seat.split | set(seat.classed))

    def push_back(self, seat):
        if not self.hand(seat):
            return None
        d = self.chance.choice(self.hand(seat))
        number = self.chance.choice([0, seat.classed.get(d, 0)])
        first = self.core.now[16 + number] & MASK
        row = [["head", number], ["store", FIXED + 8 * d + 2, first], ["push", d]]
        return ([["store", FIXED + 8 * d + 1, 0]] if d in seat.split else []) + row

    def take_blocks(self, seat):
        if not seat.classed:
            return None
        d = self.chance.choice(sorted(seat.classed))
        return [["anchor", d], ["take-all", d]]

    def cut_blocks(self, seat):
        raw = sorted(seat.raw | seat.split)
        if not raw:
            return None
        d, c = self.chance.choice(raw), self.chance.choice(CLASSES)
        blocks = self.core.blocks(d, c)
        row = self.durably(FIXED + 8 * d, c) + [["store", FIXED + 8 * d + 1, FULL]]
        return row + [["store", a, b] for a, b in zip(blocks, blocks[1:])] + [["cut", d]]

    def hold_large(self, seat):
        raw = sorted(seat.raw | seat.split)
        if not raw or self.chance.random() < 0.5:
            return None
        d, n = self.chance.choice(raw), self.chance.choice([1, 2, 2, 3])
        row = self.durably(FIXED + 8 * d, 255 + 256 * n)
        for e in range(d + 1, d + n):
            row += self.durably(FIXED + 8 * e, 0)
        return row + [["large", d, n]]

    def split_large(self, seat):
        if not seat.large:
            return None
        d = self.chance.choice(sorted(seat.large))
        anchors = [["store", FIXED + 8 * e + 1, 0] for e in range(d, d + seat.large[d])]
        return [["split", self.core.image.start(d)], *anchors]

    def publish(self, seat):
        """A root leads to a held block, durably or not, or to nothing."""
        blocks = sorted(seat.small) + [self.core.image.start(d) for d in seat.large]
        if not seat.roots or not blocks:
            return None
        root, block = self.chance.choice(sorted(seat.roots)[:20]), self.chance.choice(blocks)
        # What a root of kind 1 leads to is a table, all of whose words are links.
        words = [["store", block + i, 0] for i in range([0, 8, 1][self.core.image.kind(root)])]
        value = self.chance.choice([0, 0x5250 << 48 | 8 * block, 0x5250 << 48 | 8 * block])
        return words + self.durably(root, value)
