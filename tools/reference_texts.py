"""A second reading of the grammars of traces and schedules, apart from the crates: the first line
of a text that is outside."""

import re

VERBS = {b"tick": 0, b"cut": 1, b"alloc": 1, b"free": 1, b"lift": 1, b"large": 2, b"split": 1,
         b"load": 1, b"store": 2, b"settle": 1, b"look-used": 0, b"take": 1, b"keep": 0,
         b"head": 1, b"link": 0, b"pop": 0, b"push": 1, b"anchor": 1, b"take-all": 1, b"give": 1}


def lines_of(text):
    """The lines; the last one may lack its line feed."""
    lines = text.split(b"\n")
    return lines if lines[-1] else lines[:-1]


def is_number(word, most=2**64 - 1):
    return bool(re.fullmatch(b"0|[1-9][0-9]*", word)) and int(word) <= most


def is_value(word):
    return word == b"-" or len(word) <= 262144 and bool(re.fullmatch(b"([0-9a-fA-F]{2})+", word))


def is_request(line):
    name, *words = line.split(b" ")
    if name == b"put":
        return len(words) == 2 and is_number(words[0]) and is_value(words[1])
    count = {b"get": 1, b"del": 1, b"move": 2}.get(name)
    return len(words) == count and all(map(is_number, words))


def is_step(line, seats):
    seat, *words = line.split(b" ")
    is_known = len(words) >= 1 and len(words) - 1 == VERBS.get(words[0])
    return is_number(seat, seats - 1) and is_known and all(map(is_number, words[1:]))


def bad_request(text):
    """The number of the first line that is no request, if there is one."""
    return next((at for at, line in enumerate(lines_of(text), 1) if not is_request(line)), None)


def bad_step(text):
    """The number of the first line of a schedule that is outside its grammar, if there is one."""
    first, *further = lines_of(text) or [b""]
    name, *words = first.split(b" ")
    is_first = name == b"seats" and len(words) == 1 and is_number(words[0], 8)
    if not is_first or words[0] == b"0":
        return 1
    seats = int(words[0])
    return next((at for at, line in enumerate(further, 2) if not is_step(line, seats)), None)


def requests_of(text):
    """The requests of a trace in the grammar, as random_traces.py has them."""
    requests = []
    for line in lines_of(text):
        name, *words = line.decode().split(" ")
        if name == "put":
            value = bytes.fromhex("" if words[1] == "-" else words[1])
            requests.append((name, int(words[0]), value))
        else:
            requests.append((name, *map(int, words)))
    return requests
