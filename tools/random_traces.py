"""Traces at random, for the tools that hold the program against a second reading. A request is
("put", key, value), ("get", key), ("del", key) or ("move", key, other key)."""

SHORT_LENGTHS = [0, 1, 7, 8, 9, 40, 232, 1000, 4000, 14312, 14313, 20000, 65512, 65513, 131072]
LONG_LENGTHS = [0, 1, 8, 9, 40, 232, 4000, 14312, 14313, 65512, 65513, 131072]


def line_of(request):
    name, key, *rest = request
    if name == "put":
        return f"put {key} {rest[0].hex() or '-'}\n"
    return " ".join(map(str, request)) + "\n"


def text_of(trace):
    return "".join(map(line_of, trace)).encode()


def short_trace(chance, most):
    """At most so many requests, most often in a row of few keys."""
    keys = [chance.choice([0, 8, 1024, 7, 2**64 - 1, chance.randrange(64), chance.randrange(2**64)])
            for _ in range(chance.randint(1, 12))]
    lengths = chance.choice([SHORT_LENGTHS, [9000, 14312], [0, 1, 8], [14312, 20000, 65513, 131072],
                             [chance.choice(SHORT_LENGTHS)]])
    names, room = ["put"] * 4 + ["get"] + ["del"] * 2, 8_000_000
    return with_moves(chance, requests(chance, names, keys, lengths, chance.randint(0, most), room))


def long_trace(chance):
    """Up to some thousand requests, over more keys."""
    keys = [chance.choice([chance.randrange(4), chance.randrange(64), chance.randrange(2**64)])
            for _ in range(chance.randint(1, 40))]
    if chance.random() < 0.1:
        keys = [8 * key % 2**64 for key in keys]
    lengths = chance.choice([LONG_LENGTHS, [0, 8, 40], [9000, 14312], [40]])
    count, names = chance.choice([0, 1, 5, 50, 500, 3000]), ["put"] * 4 + ["get"] * 2 + ["del"] * 3
    return with_moves(chance, requests(chance, names, keys, lengths, count, 6_000_000))


def requests(chance, names, keys, lengths, count, room):
    """So many requests, or fewer, whose values have no more bytes than there is room."""
    trace = []
    for _ in range(count):
        name, key = chance.choice(names), chance.choice(keys)
        value = bytes([chance.randrange(256)]) * chance.choice(lengths)
        room -= len(value)
        if room < 0:
            break
        trace.append((name, key, value) if name == "put" else (name, key))
    return trace


def with_moves(chance, trace):
    """Half of the time the trace with moves among its requests, most of keys that are likely there."""
    if chance.random() < 0.5:
        return trace
    keys, there, mixed = [request[1] for request in trace], set(), []
    rate = chance.choice([0.05, 0.2, 0.5])
    for request in trace:
        while chance.random() < rate:
            key = chance.choice(sorted(there) if there and chance.random() < 0.8 else keys)
            there.discard(key)
            mixed.append(("move", key, target(chance, keys, key)))
        (there.add if request[0] == "put" else there.discard)(request[1])
        mixed.append(request)
    return mixed


def target(chance, keys, key):
    """Where a key may move to: another key of the trace, itself, its own shard, or any."""
    near = (key + 8 * chance.randrange(1, 200)) % 2**64
    return chance.choice([chance.choice(keys), chance.choice(keys), key, near,
                          chance.randrange(16), chance.randrange(2**64)])


def crowding_trace(chance):
    """Values of one shard that are as long as tables, until there is room for no table more, and
    moves to a few of the other shards."""
    keys = [8 * chance.randrange(300) for _ in range(chance.choice([5, 200]))]
    targets = [chance.randrange(8) for _ in range(chance.choice([1, 1, 2, 3]))]
    trace = [("put", key, bytes([chance.randrange(256)]) * 1000) for key in keys]
    for _ in range(chance.randrange(20)):
        key = chance.choice(keys)
        moved = ("move", key, 8 * chance.randrange(4) + chance.choice(targets))
        trace.insert(chance.randint(0, len(trace)), chance.choice([moved, moved, ("del", key)]))
    return trace


def stop_behind(chance, is_answered):
    """A number of steps that likely stops a run behind its requests, where what was moved arrives.
    `is_answered` says whether a run of so many steps answers all requests."""
    low, high = 0, 2**20
    while high - low > 1:
        middle = (low + high) // 2
        low, high = (low, middle) if is_answered(middle) else (middle, high)
    return high + chance.randrange(chance.choice([5, 50, 500]))
