"""A second reading of runs of a trace, apart from the crates: what a run with one worker prints, and
what one with several may answer and leave. Requests are as in random_traces.py."""

import collections

from reference import Heap, Image, held_lines, key_lines, map_lines, offset_in

SHARDS = 8
TABLE_BYTES = 1024


def shard_of(key):
    return key % SHARDS


def node_bytes(value):
    return 24 + 8 * -(-len(value) // 8)


def span_of(request):
    """The superblocks that a put's node may take. No other request takes any for itself."""
    return max(1, -(-node_bytes(request[2]) // 65536)) if request[0] == "put" else 0


def targets(trace):
    """The shards to which keys move."""
    return {shard_of(request[2]) for request in trace if request[0] == "move"}


def shards_with_tables(trace):
    """The shards for which a run may make a table."""
    return targets(trace) | {shard_of(request[1]) for request in trace if request[0] == "put"}


def needed(trace):
    """The superblocks that a run may need: where there are as many, nothing is answered `full`."""
    return (sum(map(span_of, trace)) + len(shards_with_tables(trace))
            + any(request[0] == "move" for request in trace))


def do(values, request):
    """The request is done. What a move takes out arrives behind all requests."""
    if request[0] == "put":
        values[request[1]] = request[2]
    elif request[0] in ("del", "move"):
        values.pop(request[1], None)


class Run:
    """A run of a trace that isn't stopped, with one worker."""

    def __init__(self, data, trace):
        self.image = Image(data)
        held = self.image.held()
        found = {key: it for shard in self.image.maps() for key, it in shard.items()}
        self.values = {key: value for key, (value, _) in found.items()}
        self.nodes = {key: node for key, (_, node) in found.items()}
        roots = {shard: self.image.words[40 + shard] for shard in range(SHARDS)}
        self.tables = {shard: offset_in(root) // 8 for shard, root in roots.items() if root}
        self.heap = Heap(self.image, held)
        self.before, self.trace, self.arrivals = dict(self.values), trace, []
        # before the first request, from the lowest shard on
        self.refused = {shard for shard in sorted(targets(trace)) if not self.has_table(shard)}
        self.replies = [self.reply(*request) for request in trace]
        for key, value, node in self.arrivals:
            self.set(key, value, node)

    def has_table(self, shard):
        """Whether the shard has a table. A missing one is made, if there is room."""
        if shard not in self.tables:
            table = self.heap.alloc(TABLE_BYTES)
            if table is None:
                return False
            self.tables[shard] = table
        return True

    def reply(self, name, key, other=None):
        if name == "put":
            return self.put(key, other)
        if key not in self.values:
            return "none"
        if name == "get":
            return self.values[key].hex() or "-"
        if name == "move":
            return self.move(key, other)
        del self.values[key]
        self.heap.free(self.nodes.pop(key))
        return "ok"

    def put(self, key, value):
        node = self.heap.alloc(node_bytes(value)) if self.has_table(shard_of(key)) else None
        if node is None:
            return "full"
        self.set(key, value, node)
        return "ok"

    def move(self, key, other):
        """The node is out, but held, until it arrives."""
        if shard_of(other) in self.refused:
            return "full"
        self.arrivals.append((other, self.values.pop(key), self.nodes.pop(key)))
        return "ok"

    def set(self, key, value, node):
        if key in self.nodes:
            self.heap.free(self.nodes[key])
        self.nodes[key], self.values[key] = node, value

    def values_after(self, count, arrived=0):
        """The values after the first `count` requests and the first `arrived` arrivals."""
        values = dict(self.before)
        for request, reply in list(zip(self.trace, self.replies))[:count]:
            if reply == "ok":
                do(values, request)
        values.update((key, value) for key, value, _ in self.arrivals[:arrived])
        return values

    def may_leave(self, count, is_stopped):
        """The values that may be left where the first `count` requests were answered."""
        if not is_stopped:
            return [self.values]
        if count < len(self.trace):
            return [self.values_after(count), self.values_after(count + 1)]
        return [self.values_after(count, arrived) for arrived in range(len(self.arrivals) + 1)]

    def text(self, is_sum, with_map):
        """What the run prints."""
        lines = list(self.replies)
        if is_sum:
            gets = [reply for request, reply in zip(self.trace, self.replies)
                    if request[0] == "get" and reply != "none"]
            lines = ["requests {} ok {} none {} value {} full {} unanswered 0".format(
                len(self.trace), lines.count("ok"), lines.count("none"), len(gets),
                lines.count("full"))]
        held = sorted(self.heap.held.items())
        lines += ["run closed", f"heap {self.image.capacity} clean"]
        lines += key_lines(self.values, is_sum) + held_lines(held)
        if with_map:
            lines += map_lines(self.image, self.heap.used, self.heap.infos.__getitem__, held)
        return lines


class Wrong(Exception):
    """A run did what none may do."""


def must(truth, told):
    if not truth:
        raise Wrong(told)


# What a run begins with: the values, and the superblocks that are used; how many there are, and
# the shards that have a table.
Opening = collections.namedtuple("Opening", "values used capacity tables")


def opening_of(image):
    values = {key: value for shard in image.maps() for key, (value, _) in shard.items()}
    tables = {shard for shard in range(SHARDS) if image.words[40 + shard]}
    return Opening(values, image.used, image.capacity, tables)


class Answered:
    """A run with any number of workers by its replies, and what it may leave."""

    def __init__(self, opening, trace, workers, replies, is_stopped):
        self.opening, self.trace, self.workers = opening, trace, workers
        self.replies, self.is_stopped = replies, is_stopped
        # After the answered requests alone; the keys and values that arrive, in the order of the
        # trace; by worker, its first request without an answer.
        self.values, self.arrivals, self.pending = dict(opening.values), [], {}
        must(len(replies) == len(trace), "there isn't a reply for each request")
        for request, reply in zip(trace, replies):
            self.follow(request, reply)
        must(is_stopped or not self.pending, "unanswered in a run that was not stopped")

    def worker(self, key):
        return shard_of(key) % self.workers

    def follow(self, request, reply):
        name, key, *rest = request
        if reply == "unanswered":
            self.pending.setdefault(self.worker(key), request)
            return
        must(self.worker(key) not in self.pending, "a request is answered behind one that is not")
        must(reply in self.answers(name, key, *rest), f"{name} {key}: {reply}")
        if reply == "ok":
            if name == "move":
                self.arrivals.append((rest[0], self.values[key]))
            do(self.values, request)

    def answers(self, name, key, other=None):
        """The answers that are right for what the dictionary holds."""
        if name == "put":
            return ["ok", "full"]
        if key not in self.values:
            return ["none"]
        if name == "get":
            return [self.values[key].hex() or "-"]
        has_table = name == "del" or shard_of(other) in self.opening.tables
        return ["ok"] if has_table else ["ok", "full"]

    def check(self, budget, found, used):
        """That the run was stopped, answered `full`, and left these values with a cause."""
        requests, keys = len(self.trace), len(self.opening.values)
        bound = ((3 * requests + 2 * self.workers) * self.workers * 2**20
                 + requests * (2**16 + 8 * (keys + requests)))
        must(not self.is_stopped or budget < bound, "stopped with a budget that is enough")
        self.check_full()
        self.check_moves()
        self.check_left(found)
        most = self.opening.used + sum(self.spans().values()) + len(shards_with_tables(self.trace))
        must(self.opening.used <= used <= most, f"used {used}, {self.opening.used} before")

    def spans(self):
        """By worker, the superblocks that its nodes may have taken."""
        spans = collections.Counter({worker: span_of(r) for worker, r in self.pending.items()})
        for request, reply in zip(self.trace, self.replies):
            if reply == "ok":
                spans[self.worker(request[1])] += span_of(request)
        return spans

    def check_full(self):
        """A put finds no room behind what its worker took before it, and others at any time."""
        room, spans = self.opening.capacity - self.opening.used, self.spans()
        must("full" not in self.replies or room < needed(self.trace), "full in a heap with room")
        tables, before = len(shards_with_tables(self.trace)), collections.Counter()
        for request, reply in zip(self.trace, self.replies):
            worker, span = self.worker(request[1]), span_of(request)
            if reply == "ok":
                before[worker] += span
            elif reply == "full" and request[0] == "put":
                beside = sum(spans.values()) - spans[worker]
                must(room < span + before[worker] + beside + tables,
                     f"{request[:2]} is full without a cause")

    def check_moves(self):
        """A move finds no room for a table before the first request, and then each move to its
        shard does. Until then nothing but tables was taken."""
        room, told = self.opening.capacity - self.opening.used, {}
        for request, reply in zip(self.trace, self.replies):
            if request[0] == "move" and reply in ("ok", "full"):
                must(told.setdefault(shard_of(request[2]), reply) == reply,
                     f"{request} is {reply}, and not each move to this shard")
        missing = targets(self.trace) - self.opening.tables
        must("full" not in told.values() or room < len(missing), "a move is full without a cause")

    def may_leave(self, worker):
        """What the shards of a worker may hold."""
        values = self.of_worker(worker, self.values)
        if worker in self.pending:
            yield dict(values)
            do(values, self.pending[worker])
            yield values
            return
        arrivals = [each for each in self.arrivals if self.worker(each[0]) == worker]
        if not self.is_stopped:
            values.update(arrivals)
            arrivals = []
        yield dict(values)
        for key, value in arrivals:
            values[key] = value
            yield dict(values)

    def of_worker(self, worker, values):
        return {key: value for key, value in values.items() if self.worker(key) == worker}

    def check_left(self, found):
        for worker in range(self.workers):
            must(self.of_worker(worker, found) in self.may_leave(worker),
                 f"the shards of worker {worker} hold what no run leaves")


def keeps_others(before, left):
    """Whether an image has the roots that are no shard's, and the blocks that these reach, as
    another one has them."""
    others = before.reached(range(40 + SHARDS, 1064))
    kept = list(range(40 + SHARDS, 1064)) + [at for first, n in others
                                             for at in range(first, first + n)]
    return others <= set(left.held()) and all(left.words[at] == before.words[at] for at in kept)
