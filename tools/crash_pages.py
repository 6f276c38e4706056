"""The data of the page of tools/explore: what each stop left, each different state once."""

import json

from crash_reasons import Reasons
from crash_views import MOST_WORDS, NewNode, Reading, changed, drawing, left_behind, told_change
from reference import BLOCKS, SIZES, held_lines, key_lines, map_lines, show
from reference_runs import Answered, must, opening_of
from reference_texts import lines_of, requests_of


class Once:
    """Values, each once; what stands for one is its number."""

    def __init__(self):
        self.values, self.numbers = [], {}

    def number(self, value):
        name = json.dumps(value, sort_keys=True)
        if name not in self.numbers:
            self.numbers[name] = len(self.values)
            self.values.append(value)
        return self.numbers[name]


class Page:
    def __init__(self, data, text, names, seeds):
        self.opening, self.trace = Reading(data), requests_of(text)
        self.began = opening_of(self.opening.image)
        self.names, self.seeds, self.choices = names, seeds, []
        self.requests = [line.decode() for line in lines_of(text)]
        self.lines, self.texts, self.parts, self.views = Once(), Once(), Once(), Once()
        self.before = self.text_of(show(data, True))

    def text_of(self, lines):
        """A text as runs of lines: a line's number, and how often it follows."""
        runs = []
        for line in lines:
            number = self.lines.number(line)
            if runs and runs[-1][0] == number:
                runs[-1][1] += 1
            else:
                runs.append([number, 1])
        return self.texts.number([number if count == 1 else [number, count] for number, count in runs])

    def add(self, workers, stops, rows):
        """What the runs with so many workers left, by seed and by stop."""
        views = [self.row(workers, stops, rows, number) for number in range(len(rows))]
        self.choices.append({"workers": workers, "stops": stops, "views": views})

    def row(self, workers, stops, rows, number):
        return [self.views.number(Stop(self, workers, stops, rows, number, at).view()) for at in range(len(stops))]

    def told(self):
        return {"image": self.names[0], "trace": self.names[1], "capacity": self.opening.image.capacity,
                "requests": self.requests, "seeds": [str(seed) for seed in self.seeds], "before": self.before,
                "sizes": SIZES, "blocks": BLOCKS, "choices": self.choices, "lines": self.lines.values,
                "texts": self.texts.values, "parts": self.parts.values, "views": self.views.values}


class Stop:
    """One stop, beside the stops before and behind it and the same stop by other seeds."""

    def __init__(self, page, workers, stops, rows, number, at):
        self.page, self.workers, self.stops, self.at, self.number = page, workers, stops, at, number
        self.rows, self.row, self.left = rows, rows[number], rows[number][at]
        self.stop, self.reading = stops[at], self.left.reading()
        self.run = self.judged()

    def judged(self):
        """The run by its replies, if it may be so."""
        left, reading = self.left, self.reading
        run = Answered(self.page.began, self.page.trace, self.workers, left.replies, not left.is_closed)
        image = reading.image
        must(left.rest[1:] == [f"heap {image.capacity} {image.state()}"] + report(reading),
             f"the report of stop {self.stop} is of another image")
        run.check(self.stop, reading.values, image.used)
        return run

    def view(self):
        page, part = self.page, self.page.parts.number
        points = [Point(self, number, key) for number, key in self.requests()]
        places, marked = left_behind(page.opening, self.reading)
        before = self.row[self.at - 1].reading() if self.at else page.opening
        words = changed(before, self.reading)
        reasons = Reasons(self, points, words, marked)
        told = [told_change(before, self.reading, at) for at in words[:MOST_WORDS]]
        return {"text": page.text_of(self.left.said.splitlines()), "why": part(reasons.told()),
                "ways": [part(point.drawing()) for point in points],
                "behind": part([places, marked]), "words": part([told, len(words)])}

    def requests(self):
        """By worker the number of the request that is under way, or else of the last one that changes
        something; for each of its keys."""
        numbered = list(enumerate(zip(self.page.trace, self.left.replies)))
        for worker in range(self.workers):
            mine = [each for each in numbered if self.run.worker(each[1][0][1]) == worker]
            found = [each for each in mine if each[1][1] == "unanswered"][:1]
            found = found or [each for each in mine if each[1][0][0] != "get"][-1:] or mine[-1:]
            for number, (request, _) in found:
                for key in request[1:3] if request[0] == "move" else request[1:2]:
                    yield number, key

    def others(self):
        """What other seeds left at this stop."""
        return [row[self.at] for number, row in enumerate(self.rows) if number != self.number]


def report(reading):
    """What is told of an image behind its capacity and state."""
    image, held = reading.image, sorted(reading.held)
    return key_lines(reading.values, False) + held_lines(held) + map_lines(image, image.used, image.info, held)


class Point:
    """A request at a stop, and the nodes of its key."""

    def __init__(self, stop, number, key):
        self.stop, self.number, self.key = stop, number, key
        self.request = stop.page.trace[number]
        self.reply = stop.left.replies[number]
        self.is_pending = self.reply == "unanswered"
        self.reading, self.node = stop.reading, stop.reading.nodes.get(key)
        self.new = self.new_node() if self.is_pending and self.request[0] == "put" else None
        self.gone = self.gone_node()

    def new_node(self):
        """The node of a put that no root reaches yet: its place, and its words beside those that it is
        to have, of which none counts that was there before the run."""
        value, first, reading = self.request[2], None, self.reading
        if self.stop.workers > 1:
            first = reading.whole_node(self.key, value)
        elif later := self.later_stop():
            first, reading = later.node(self.key)[0], later.reading()
        if first is None:
            return None
        wanted, has = reading.node_words(first, value), self.reading.node_words(first, value)
        was = self.stop.page.opening.node_words(first, value)
        is_begun = any(now == to and now != old for now, to, old in zip(has, wanted, was))
        return NewNode(reading.place(first), wanted, [is_begun and now == to for now, to in zip(has, wanted)])

    def later_stop(self):
        """The first later stop at which the key has the node of this put."""
        for later in self.stop.row[self.stop.at + 1:]:
            if later.replies[self.number] not in ("unanswered", "ok"):
                return None
            first, found = later.node(self.key)
            if first != self.node:
                return later if found == self.request[2] else None
        return None

    def gone_node(self):
        """The node that the key had at an earlier stop, where none reaches it any more."""
        earlier = [left.node(self.key)[0] for left in self.stop.row[:self.stop.at][::-1]]
        for first in earlier + [self.stop.page.opening.nodes.get(self.key)]:
            if first and first != self.node:
                is_left = not self.reading.is_held(first) and self.reading.words[first + 1] == self.key
                return first if is_left else None
        return None

    def drawing(self):
        return drawing(self.reading, self.key, self.new, self.gone)
