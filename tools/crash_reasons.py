"""Why a stop left what it left, in sentences, for tools/explore. The page puts numbers for {stop}, for
{last}, the last step that was done, and for {from}, the first one behind the stop before."""

from crash_views import short, told_block
from reference_runs import shard_of


class Reasons:
    """Of one stop: its points are the requests under way, or else the last ones."""

    def __init__(self, stop, points, words, marked):
        self.stop, self.points, self.words, self.marked = stop, points, words, marked
        self.left, self.reading = stop.left, stop.reading

    def told(self):
        pending = [point for point in self.points if point.is_pending]
        ways = [self.way(point) for point in self.points]
        return {"head": self.head(), "replies": self.replies(),
                "dictionary": " ".join(dict.fromkeys(map(self.left_of, pending))) if pending else self.settled(),
                "ways": ways, "map": self.map(), "words": self.became()}

    def head(self):
        """What gives way to what, in a few words."""
        if self.left.is_closed:
            return "The run ended by itself: all is durable, and the heap is closed."
        if not self.stop.run.pending:
            if self.stop.run.arrivals:
                return "All requests are answered, and what moves is brought to its keys."
            return "All requests are answered: every crash from here on leaves what they made."
        firsts = [self.in_short(point) for point in self.points if point.is_pending and point.key == point.request[1]]
        return " ".join(dict.fromkeys(firsts))

    def in_short(self, point):
        name, key = point.request[:2]
        if name == "get":
            return f"{told(point.request)} is under way, and changes nothing."
        if is_done(point):
            end = "is gone" if name in ("del", "move") else "has the new value"
            return f"Key {key} {end}, though nobody was told yet."
        if name in ("del", "move"):
            return f"Key {key} is still there." if point.node else f"Key {key} is not there, and nothing changes."
        return f"Key {key} still has the old value." if point.node else f"Key {key} is not there yet."

    def replies(self):
        run = self.stop.run
        if self.left.is_closed:
            return "Each request was answered, and the run closed the heap."
        if not run.pending:
            return ("Each request was answered. A worker gives back the blocks that its caches keep, and the heap "
                    "isn't closed yet.")
        names = [told(request) for request in run.pending.values()]
        if len(names) == 1:
            return (f"{names[0]} is under way and not answered, so a crash may leave it done or not done. "
                    "What was answered before it stays.")
        return (f"{', '.join(names[:-1])} and {names[-1]} are under way and not answered: a crash may leave each "
                "of them done or not done. What was answered before them stays.")

    def left_of(self, point):
        """Which node recovery finds under the key of a request under way."""
        name, key = point.request[0], point.key
        if point.node is None:
            return f"Recovery follows durable links, and none leads to a node of key {key}."
        if name == "get":
            return f"The links to the node of key {key} were durable before."
        if name != "put":
            return f"Recovery follows durable links, and one still leads to the node of key {key}."
        which = "new" if is_done(point) else "old"
        return f"Recovery follows durable links, and these lead to the {which} node of key {key}."

    def settled(self):
        moves = any(request[0] == "move" for request in self.stop.page.trace)
        if self.left.is_closed:
            return "This is what the answered requests made" + (", with all that moved." if moves else ".")
        if moves:
            return ("This is what the answered requests made, and of the values that move those that arrived. "
                    "The others are on their way: no root reaches them, and a crash loses them.")
        return ("This is what the answered requests made. A reply comes only behind the fence that makes the "
                "request's link durable, so no crash takes it back.")

    def way(self, point):
        """Why the request's key has what it has."""
        name, key = point.request[0], point.key
        if name == "move" and key != point.request[1]:
            return self.arrival(point)
        if name == "get":
            return f"{told(point.request)} only reads, and changes nothing."
        if not point.is_pending:
            return self.answered(point)
        if is_done(point):
            return self.done(point)
        if name == "put":
            return self.put_not_done(point)
        if point.node is None:
            return f"Key {key} isn't there, so {told(point.request)} has nothing to take out."
        return (f"Key {key} is still there: the link that leads to its node is the old one, since the link past "
                "the node is not durable yet.")

    def answered(self, point):
        if point.reply == "ok":
            return f"{told(point.request)} was answered: its link was made durable before the reply."
        return f"{told(point.request)} was answered with {point.reply}, and changed nothing."

    def done(self, point):
        by = self.by_chance(point)
        if point.request[0] == "put":
            return (f"Key {point.key} has {short(point.request[2])} already, though its put isn't answered: the link "
                    f"to the new node is durable.{by}")
        return (f"Key {point.key} is gone already, though the request isn't answered: the link past its node is "
                f"durable.{by}")

    def by_chance(self, point):
        """Whether it is chance, which another seed did not have."""
        if self.stop.workers > 1:
            return ""
        mine = self.left.node(point.key)[1]
        found = [other.node(point.key)[1] == mine for other in self.stop.others()]
        if found and not all(found):
            return " Chance wrote it back early: other seeds leave the old link here."
        return " Each seed here leaves it, as behind its fence." if found else ""

    def put_not_done(self, point):
        key, has = point.key, f"Key {point.key} is not there"
        if point.node is not None:
            has = f"Key {key} has its old value {short(self.reading.values[key])}"
        if self.reading.table(key) is None:
            return (f"{has}: shard {shard_of(key)} has no table yet, since nothing durable leads from its root to "
                    "one.")
        if point.new is None:
            return f"{has}: no durable link leads to a new node yet."
        durable, words = sum(point.new.durable), len(point.new.words)
        if durable == words:
            return (f"{has}: the new node is whole and durable, but the link to it is not durable yet. It still leads "
                    f"to {'the old node' if point.node else 'what was there before'}.")
        if durable == 0:
            return f"{has}: of the new node no word is durable yet."
        return (f"{has}: of the {words} words of the new node only {durable} "
                f"{'is' if durable == 1 else 'are'} durable, and no link leads to them.")

    def arrival(self, point):
        """What became of the other key of a move."""
        key, source = point.key, point.request[1]
        if point.is_pending:
            return f"Key {key} gets the value that moves from key {source} only when all requests are answered."
        if point.reply != "ok":
            return self.answered(point)
        if (key, self.reading.values.get(key)) in self.stop.run.arrivals:
            return f"Key {key} has the value that moved from key {source}: it arrived behind all requests."
        return (f"The value that moves from key {source} to key {key} is on its way: no durable link leads to its "
                "node, so a crash loses it.")

    def map(self):
        """What recovery frees, and why."""
        parts, end = [], "was freed" if self.left.is_closed else "is reached by no root any more, so recovery frees it"
        for point in self.points:
            if point.new and any(point.new.durable):
                where = told_block(point.new.place)
                parts.append(f"The new node, {where}, is reached by no root, so recovery frees it.")
            if point.gone:
                parts.append(f"The old node, {told_block(self.reading.place(point.gone))}, {end}.")
        for d, what in list(self.marked.items())[:2]:
            parts.append(f"The file has superblock {d} as {what}, and no root reaches a block of it: recovery makes "
                         "it free.")
        count = len(self.reading.held)
        blocks = f"{count} {'block' if count == 1 else 'blocks'}"
        kept = f"Recovery keeps the {blocks} that the roots reach."
        if self.left.is_closed:
            kept = f"The heap holds {blocks}."
        return " ".join(dict.fromkeys(parts + [kept if count else "No root reaches a block."]))

    def became(self):
        """Why words became durable since the stop before."""
        count = len(self.words)
        told_words = "one word" if count == 1 else f"{count} words"
        if self.stop.at == 0:
            return "Opening the heap marks it as dirty." if count else "Nothing changed yet."
        if self.stop.workers > 1:
            return ("Each stop is a run of its own, in which threads take turns as they like: these words differ from "
                    "the stop before." if count else "No durable word differs from the stop before.")
        if self.left.is_closed:
            return "Closing the heap marks it as clean, and makes durable what was not."
        if self.stop.stops[self.stop.at - 1] < self.stop.stop - 1:
            return f"Steps {{from}} to {{last}} made {told_words if count else 'no word'} durable."
        if count == 0:
            return "Step {last} made no word durable: a crash leaves the same as one step before."
        if count > 1:
            return (f"Step {{last}} is a fence: it made {told_words} durable at once, which had been stored and "
                    "written back.")
        return self.one_word()

    def one_word(self):
        at = self.words[0]
        same = [other.reading().words[at] == self.reading.words[at] for other in self.stop.others()]
        if not same:
            return "Step {last} made one word durable."
        if all(same):
            return "Step {last} made one word durable, with each seed here, as a fence does."
        return "At step {last} chance wrote one word back early: with another seed it is not durable here."


def told(request):
    name, *words = request
    return " ".join([name, *(short(word) if isinstance(word, bytes) else str(word) for word in words)])


def is_done(point):
    """Whether a request under way is done in what the stop left. A put of the value that was there
    before is, once the key has another node."""
    name, key = point.request[:2]
    before = point.stop.run.values
    if name == "put":
        if before.get(key) != point.request[2]:
            return point.reading.values.get(key) == point.request[2]
        return point.gone is not None and point.new is None
    return name in ("del", "move") and key in before and point.node is None
