#!/usr/bin/env python3
"""Measures Judy1, JudyL and JudySL beside sortedcontainers' SortedSet and SortedDict, and dict and set, in one run.

    PYTHONPATH=out/python bench/sorted.py [KEYS]

It prints a line for each figure, as the measuring programs in C do: KIND LIBRARY PATTERN KEYS CALL NUMBER, the
number being nanoseconds of processor time a key, the least of five runs, which take turns. `plain` is a dict or a
set, which have no order and so lack most of the calls. `range` is a walk over Python's own range of the same
numbers, which makes each anew as a walk through a Judy array does. Of strings there are a quarter of so many. """

import random
import sys
import time

from sellumaq import BINDING, Judy1, JudyL, JudySL
from sortedcontainers import SortedDict, SortedSet

# By the ctypes binding another name, since its figures are others.
OURS = "sellumaq" if BINDING == "extension" else f"sellumaq-{BINDING}"


def use_all(walk):
    for _ in walk:
        pass


# What is done to a set and to a dict: each takes the array, the keys in another order, and as many places.
SETS = {
    "in": lambda it, keys, _: [key in it for key in keys],
    "add": lambda it, keys, _: [it.add(key ^ 1) for key in keys],
    "discard": lambda it, keys, _: [it.discard(key ^ 1) for key in keys],
    "n-th": lambda it, _, places: [it[place] for place in places],
    "rank": lambda it, keys, _: [it.bisect_left(key) for key in keys],
    "walk": lambda it, *_: use_all(it),
}
DICTS = {
    "get": lambda it, keys, _: [it[key] for key in keys],
    "in": SETS["in"],
    "set": lambda it, keys, _: [it.__setitem__(key ^ 1, key) for key in keys],
    "del": lambda it, keys, _: [it.__delitem__(key ^ 1) for key in keys],
    "n-th": lambda it, _, places: [it.peekitem(place) for place in places],
    "rank": SETS["rank"],
    "walk": SETS["walk"],
    "items": lambda it, *_: use_all(it.items()),
}
# Walks come first: a key that was put in beside another one, and taken out again, leaves levels behind.
STRINGS = {
    "walk": DICTS["walk"],
    "items": DICTS["items"],
    "values": lambda it, *_: use_all(it.values()),
    "back": lambda it, *_: use_all(reversed(it)),
    "slice": lambda it, *_: it.keys()[:],
    "slice-back": lambda it, *_: it.keys()[::-1],
    "copy": lambda it, *_: it.copy(),
    "get": DICTS["get"],
    "in": DICTS["in"],
    "n-th": DICTS["n-th"],
    "rank": DICTS["rank"],
    "set": lambda it, keys, _: [it.__setitem__(key + "+", 1) for key in keys],
    "del": lambda it, keys, _: [it.__delitem__(key + "+") for key in keys],
}
# What an array without order lacks.
BY_PLACES = ("n-th", "rank", "slice", "slice-back")


def seconds(work, array, keys, places):
    begun = time.process_time()
    work(array, keys, places)
    return time.process_time() - begun


def measure(named, operations, keys, places):
    """The least time of each operation, by the array's name."""
    least = {name: dict.fromkeys(operations, float("inf")) for name in named}
    for _ in range(5):
        for operation, work in operations.items():
            for name, array in named.items():
                if hasattr(array, "bisect_left") or operation not in BY_PLACES:
                    least[name][operation] = min(least[name][operation], seconds(work, array, keys, places))
    return least


def show(kind, pattern, keys, least):
    for library, times in least.items():
        for call, time in times.items():
            if time < float("inf"):
                print(f"{kind} {library} {pattern} {keys} {call} {time / keys * 1e9:.2f}", flush=True)


def measure_pattern(pattern, keys, chance):
    """A set and a dict of these keys, and beside them the walk that does nothing but make the numbers."""
    count = len(keys)
    places = [chance.randrange(count) for _ in range(count)]
    sets = {OURS: Judy1(keys), "sortedcontainers": SortedSet(keys), "plain": set(keys)}
    show("judy1", pattern, count, measure(sets, SETS, keys, places))
    if pattern == "multiples-of-16":
        numbers = range(0, max(keys) + 1, 16)
        least = min(seconds(SETS["walk"], numbers, (), ()) for _ in range(15))
        show("judy1", pattern, count, {"range": {"walk": least}})
    pairs = {key: n for n, key in enumerate(keys)}
    chance.shuffle(keys)
    dicts = {OURS: JudyL(pairs), "sortedcontainers": SortedDict(pairs), "plain": pairs}
    show("judyl", pattern, count, measure(dicts, DICTS, keys, places))


def measure_strings(pattern, keys, chance):
    """A dict of these strings."""
    places = [chance.randrange(len(keys)) for _ in keys]
    pairs = {key: n for n, key in enumerate(keys)}
    chance.shuffle(keys)
    dicts = {OURS: JudySL(pairs), "sortedcontainers": SortedDict(pairs), "plain": pairs}
    show("judysl", pattern, len(keys), measure(dicts, STRINGS, keys, places))


def word_of_10(chance):
    """Five syllables, as bench/texts.h has them."""
    return "".join(chance.choice(letters) for letters in ("bcdfghjklmnprstvwxyz", "aeiou") * 5)


def url_of_100(chance):
    url = f"https://www.site-{chance.randrange(200):03}.example/section-{chance.randrange(1000):04}/page-"
    return url + "".join(chance.choices("abcdefghijklmnopqrstuvwxyz", k=100 - len(url)))


def main():
    count = int(sys.argv[1]) if len(sys.argv) > 1 else 200_000
    chance = random.Random(1)
    patterns = {
        "random-words": chance.sample(range(0, 2**63, 2), count),
        "multiples-of-16": [n * 16 for n in range(count)],
    }
    for pattern, keys in patterns.items():
        chance.shuffle(keys)
        measure_pattern(pattern, keys, chance)
    for pattern, make in {"words-of-10": word_of_10, "urls-of-100": url_of_100}.items():
        measure_strings(pattern, list({make(chance): None for _ in range(count // 4)}), chance)


if __name__ == "__main__":
    main()
