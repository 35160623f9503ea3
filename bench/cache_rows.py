"""Caches of so many keys, each of a size of its own, in an atlas that has room for all: keys that are there, new ones,
and new ones for which the least recently used goes.
"""

import random

from rows import ROUNDS, Row

SIDES = {100: 512, 1000: 1600, 10000: 5000}
"""For each number of keys the side of a square atlas with room for twice as much."""


def placed(keys):
    """Places each of these keys."""
    chooser = random.Random(14)
    return [f"p {key} {chooser.randint(6, 40)} {chooser.randint(6, 40)}" for key in keys]


def filled(keys):
    """A cache of so many keys, and the calls that fill it."""
    return [f"cache {SIDES[keys]} {SIDES[keys]} {keys}", *placed(range(keys))]


def hits(keys):
    chooser = random.Random(15)
    return lambda _: (filled(keys), [f"g {chooser.randrange(keys)}" for _ in range(ROUNDS)])


def misses_with_room(keys):
    return lambda _: (filled(keys), [])


def evictions(keys):
    return lambda _: (filled(keys), placed(range(keys, keys + ROUNDS)))


def rows_of(keys, room, eviction):
    """The rows of so many keys, with what a miss takes in the original, and what it took here before. What it took here
    was counted with dropping the keys in the end; what it takes in the original may be, too.
    """
    return {
        f"{keys} keys: a hit": Row(hits(keys), most=100),
        f"{keys} keys: a miss with room": Row(misses_with_room(keys), room[0], "filling", room[1], 1000),
        f"{keys} keys: a miss for which one is evicted": Row(evictions(keys), eviction[0], "later", eviction[1], 1200),
    }


ROWS = {
    **rows_of(100, (677, 2947), (999, 3034)),
    **rows_of(1000, (953, 2894), (1112, 3251)),
    **rows_of(10000, (1867, 3300), (1170, 3258)),
}
