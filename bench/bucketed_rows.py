"""Scripts on which a call of a bucketed atlas is to leave alone what it doesn't touch: shelves of thousands of buckets,
and thousands of shelves. Wanted are at most 1000 instructions a call, and no more than the Rust crate takes.
"""

import random

from rows import ROUNDS, Row, comes_and_goes, goes_and_comes

BUCKETS = 4095
"""How many buckets there are at most, and so how many shelves."""


def long_shelf():
    """A shelf of 4095 buckets 16 wide, of which the first has given an item."""
    return ["bucketed 65534 1 1 1 1 h", "a 1 1"]


def same_item(_program):
    return long_shelf(), comes_and_goes(1, "a 16 1")


def filled_by(width):
    return long_shelf() + [f"a {width} 1"] * (BUCKETS - 1), []


def two_widths(_program):
    """Two widths in turn, of which the wider needs a whole bucket."""
    return long_shelf() + ["a 9 1", "a 16 1"] * (BUCKETS // 2), []


def full_shelf(position):
    """A full shelf of 4095 buckets, of which the one at a position goes and comes."""
    filling = long_shelf() + ["a 15 1"] + ["a 16 1"] * (BUCKETS - 1)
    return filling, goes_and_comes([position] * ROUNDS, len(filling) - 1, "a 16 1")


def some_go(filling, some, asked):
    """So many items go, any of those there are, and as many come, again and again."""
    chooser = random.Random(11)
    count = len(filling) - 1
    live, lines = list(range(count)), []
    for _ in range(ROUNDS // some):
        for _ in range(some):
            lines.append(f"r {live.pop(chooser.randrange(len(live)))}")
        for _ in range(some):
            live.append(count + len(lines))
            lines.append(asked(chooser))
    return filling, lines


def whole_buckets_go(_program):
    """Of a full shelf of 4095 buckets eight go, and then eight come."""
    return some_go(long_shelf() + ["a 15 1"] + ["a 16 1"] * (BUCKETS - 1), 8, lambda _: "a 16 1")


def of_two_widths(chooser):
    return chooser.choice(["a 9 1", "a 16 1"])


def two_widths_go(_program):
    """The same with 3000 items of two widths, of which the narrower leaves room for none in its bucket."""
    chooser = random.Random(12)
    return some_go(long_shelf() + [of_two_widths(chooser) for _ in range(3000)], 8, of_two_widths)


def some_of_row(buckets, some):
    """Of a full shelf of so many buckets some go, and then as many come."""
    filling = [f"bucketed {64 * buckets} 4 1 1 1 h", "a 4 4", "a 60 4"] + ["a 64 4"] * (buckets - 1)
    return some_go(filling, some, lambda _: "a 64 4")


def little_left(buckets):
    """A row of buckets 64 wide, in each of which 4 are left, and of which any goes and comes."""
    chooser = random.Random(3)
    filling = [f"bucketed {64 * buckets} 4 1 1 1 h", "a 4 4"] + ["a 60 4"] * buckets
    return filling, goes_and_comes([1 + chooser.randrange(buckets) for _ in range(ROUNDS)], len(filling) - 1, "a 60 4")


def whole_shelf(_program):
    """The only item of a shelf of 4095 buckets, which is added with it and dropped with it."""
    return ["bucketed 65534 1 1 1 1 h"], comes_and_goes(0, "a 1 1")


def shelf_alone(_program):
    """The only item of a shelf of 512 buckets, which is added with it and dropped with it."""
    return ["bucketed 64000 8 1 1 1 h"], comes_and_goes(0, "a 8 8")


def full_shelves():
    """4095 shelves of a bucket each, all of it given."""
    return ["bucketed 16 32760 1 1 1 h"] + ["a 16 8"] * BUCKETS


def first_goes(_program):
    return full_shelves(), goes_and_comes([0] * ROUNDS, BUCKETS, "a 16 8")


def any_goes(_program):
    chooser = random.Random(9)
    return full_shelves(), goes_and_comes([chooser.randrange(BUCKETS) for _ in range(ROUNDS)], BUCKETS, "a 16 8")


def emptied(shelves):
    """Full shelves of a bucket each, of which all but the last are emptied, in any order."""

    def make(_program):
        order = list(range(shelves - 1))
        random.Random(5).shuffle(order)
        return [f"bucketed 16 {8 * shelves} 1 1 1 h"] + ["a 16 8"] * shelves, [f"r {position}" for position in order]

    return make


def every_second_goes(shelves):
    """Shelves of a bucket each, whose items leave a little room, of which every second goes."""

    def make(_program):
        filling = [f"bucketed 64 {16 * shelves} 1 1 1 h"] + ["a 60 16"] * shelves
        return filling, [f"r {position}" for position in range(1, shelves - 1, 2)]

    return make


def emptied_from_last(shelves):
    """Full shelves of a bucket each, which all but the first go, from the last on."""

    def make(_program):
        filling = [f"bucketed 16 {8 * shelves} 1 1 1 h"] + ["a 16 8"] * shelves
        return filling, [f"r {position}" for position in reversed(range(1, shelves))]

    return make


def last_of_two_go(shelves):
    """Shelves of two items, of which the first went: the others go, from the last on."""

    def make(_program):
        filling = [f"bucketed 16 {8 * shelves} 1 1 1 h"] + ["a 8 8"] * (2 * shelves)
        filling += [f"r {2 * shelf}" for shelf in range(shelves)]
        return filling, [f"r {2 * shelf + 1}" for shelf in reversed(range(1, shelves))]

    return make


def some_left_go(shelves, apart):
    """Shelves of two items, of which one in so many holds one: these go from the last on, and the empty ones behind with them."""

    def make(_program):
        filling = [f"bucketed 160 {8 * shelves} 1 1 1 h"] + ["a 80 8"] * (2 * shelves)
        filling += [f"r {item}" for item in range(2 * shelves) if item % (2 * apart)]
        return filling, [f"r {item}" for item in reversed(range(2 * apart, 2 * shelves, 2 * apart))]

    return make


def labels_from_last(count):
    """Labels of three heights, which go from the last on."""

    def make(_program):
        chooser = random.Random(7)
        sizes = [(chooser.randint(100, 250), chooser.choice((16, 20, 24))) for _ in range(count)]
        filling = ["bucketed 256 8000 1 1 1 h"] + [f"a {width} {height}" for width, height in sizes]
        return filling, [f"r {position}" for position in reversed(range(1, count))]

    return make


def grown_in_columns(_program):
    """An atlas of six columns that grows again and again to the size that it has."""
    return ["bucketed 1000 64 1 1 6 h"] + ["a 2 1"] * 160, ["g 1000 64"] * ROUNDS


def any_go(shelves):
    """Full shelves of a bucket each, of which any two go and two come."""

    def make(_program):
        chooser = random.Random(11)
        holders, lines = list(range(shelves)), []
        for _ in range(ROUNDS // 4):
            some = sorted(chooser.sample(range(shelves - 1), 2))
            lines += [f"r {holders[shelf]}" for shelf in reversed(some)]
            for shelf in some:
                holders[shelf] = shelves + len(lines)
                lines.append("a 16 8")
        return [f"bucketed 16 {8 * shelves} 1 1 1 h"] + ["a 16 8"] * shelves, lines

    return make


def refused(_program):
    return full_shelves(), ["a 16 8"] * ROUNDS


def merges(_program):
    """4094 empty shelves before one in use, and items of which each has two of them merged."""
    return full_shelves() + [f"r {position}" for position in range(BUCKETS - 1)], ["a 16 16"] * ROUNDS


def merge_looked_for(_program):
    return full_shelves(), ["a 16 16"] * ROUNDS


def narrow_rooms(_program):
    """4095 shelves that have a little room each, while what is asked for is wider."""
    return ["bucketed 16 32760 1 1 1 h"] + ["a 12 8"] * BUCKETS, ["a 8 8"] * ROUNDS


def too_tall(_program):
    """4095 shelves with room, all taller than what is asked for, and small items that come and go."""
    filling = ["bucketed 16 65520 1 1 1 h"] + ["a 8 16"] * BUCKETS
    return filling, comes_and_goes(BUCKETS, "a 8 4")


def cleared(_program):
    """An atlas is cleared and gets an item."""
    return ["bucketed 1024 64 1 1 1 h"], ["c", "a 757 17"] * ROUNDS


def cleared_of_four(_program):
    """An atlas is cleared and gets an item, with a shelf of four buckets."""
    return ["bucketed 512 512 1 1 1 h"], ["c", "a 8 8"] * ROUNDS


def cleared_aligned(_program):
    """An atlas with an alignment is cleared and gets an item, with a shelf of four buckets."""
    return ["bucketed 380 76 4 4 1 h"], ["c", "a 18 49"] * ROUNDS


def cleared_empty(_program):
    """An atlas without shelves, which is cleared again and again."""
    return ["bucketed 1024 64 1 1 1 h"], ["c"] * ROUNDS


def filled_anew(_program):
    """An atlas is cleared and gets 16 items, of which each adds a shelf."""
    return ["bucketed 1024 2048 1 1 1 h"], (["c"] + [f"a 600 {8 * (n % 4) + 1}" for n in range(16)]) * (ROUNDS // 16)


def empty_shelves(_program):
    """4000 empty shelves of a bucket each before one in use, and an item that is a pixel narrower than they are."""
    filling = ["bucketed 8 32000 1 1 1 h"] + ["a 8 8"] * 4000 + [f"r {position}" for position in range(3999)]
    return filling, comes_and_goes(len(filling) - 1, "a 7 8")


def last_low_ones(shelves):
    """Items for which all shelves are too tall, so that each adds one, of which the last eight go and eight come."""

    def make(_program):
        holders, lines = list(range(shelves)), []
        for _ in range(ROUNDS // 16):
            lines += [f"r {holders.pop()}" for _ in range(8)]
            for _ in range(8):
                holders.append(shelves + len(lines))
                lines.append("a 23 1")
        return ["bucketed 61 848 2 2 1 h"] + ["a 23 1"] * shelves, lines

    return make


def low_and_tall(_program):
    """An item in an atlas whose 41 shelves have no room, are too low, or too tall: its shelf is added and dropped."""
    filling = ["bucketed 102 4080 1 1 1 h"]
    filling += [f"a 102 {32 if shelf % 16 == 8 else 8}" for shelf in range(41)]
    filling += [f"r {shelf}" for shelf in range(41) if shelf % 16 != 8]
    return filling, comes_and_goes(len(filling) - 1, "a 2 32")


def last_ones_go(shelves, some):
    """Shelves of which most are too low and the others full, in four columns, and items of two heights: as many as some, each
    in a shelf of its own at the end, come and go in any order.
    """

    def make(_program):
        heights = [32 if shelf % 16 == 8 or shelf == shelves - 1 else 8 for shelf in range(shelves)]
        side = (sum(heights) + some * 32 + 3) // 4 + 40
        filling = [f"bucketed 408 {side} 1 1 4 h"] + [f"a 102 {height}" for height in heights]
        filling += [f"r {shelf}" for shelf in range(shelves) if heights[shelf] == 8]
        chooser, live, lines, count = random.Random(11), [], [], len(filling) - 1
        for _ in range(ROUNDS):
            if not live or len(live) < some and chooser.random() < 0.5:
                live.append(count + len(lines))
                lines.append(f"a 102 {chooser.choice((32, 24))}")
            else:
                lines.append(f"r {live.pop(chooser.randrange(len(live)))}")
        return filling, lines

    return make


def first_ones_go(shelves, some, width=256):
    """Shelves of a bucket each, that have an item of this width, of which some of the first go, and as many full ones come."""

    def make(_program):
        filling, holders, lines = [f"bucketed 256 {16 * shelves} 1 1 1 h"] + [f"a {width} 16"] * shelves, range(some), []
        for _ in range(ROUNDS // 4):
            lines += [f"r {position}" for position in holders]
            holders = range(shelves + len(lines), shelves + len(lines) + some)
            lines += ["a 256 16"] * some
        return filling, lines

    return make


def first_two_in_turn(shelves):
    """Full shelves of a bucket each, of which the first two go and come in turn."""

    def make(_program):
        filling = [f"bucketed 256 {8 * shelves} 1 1 1 h"] + ["a 256 8"] * shelves
        return filling, goes_and_comes([0, 1] * (ROUNDS // 2), shelves, "a 256 8")

    return make


def grown(_program):
    """An atlas with three items grows by a pixel each time."""
    sizes = [f"g {101 + times} {66 + times}" for times in range(ROUNDS)]
    return ["bucketed 100 65 2 2 1 h", "a 30 20", "a 25 18", "a 30 30"], sizes


def shelves_too_tall(_program):
    """3000 items for which all shelves are too tall, so that each adds one."""
    return ["bucketed 61 32760 2 2 1 h"], ["a 23 1"] * 3000


def too_low(_program):
    """3000 shelves that have room and are too low, and an item that comes and goes beside another of its height."""
    filling = ["bucketed 512 60000 1 1 1 h"] + ["a 300 16"] * 3000 + ["a 100 24"]
    return filling, comes_and_goes(len(filling) - 1, "a 100 24")


MOST = 1000
"""So many instructions are wanted at most for a call on so many shelves or buckets."""

ROWS = {
    "a shelf of 4095 buckets: the same item comes and goes": Row(same_item, 180, before=43214),
    "the same, filled by items as wide as a bucket": Row(lambda _: filled_by(16), 8365, "filling", 98129, MOST),
    "the same, filled by items of half a bucket": Row(lambda _: filled_by(9), 26839, "filling", most=MOST),
    "the same, by two widths in turn": Row(two_widths, 26833, "filling", most=MOST),
    "a full shelf of 4095 buckets: the second goes and comes": Row(lambda _: full_shelf(2), 169),
    "the same, the last": Row(lambda _: full_shelf(BUCKETS), 26774, most=MOST),
    "the same, any eight go and eight come": Row(whole_buckets_go, most=MOST),
    "the same with items of two widths": Row(two_widths_go, most=MOST),
    "the same, added with its only item and dropped with it": Row(whole_shelf),
    # What the crate takes here was counted with plain geometry types in place of its own.
    "a shelf of 512, the same": Row(shelf_alone, 9679, before=10321),
    # Counted likewise, as the next ones.
    "a shelf of 16 buckets with a little left: any goes and comes": Row(lambda _: little_left(16), 217, before=390),
    "a shelf of 64, the same": Row(lambda _: little_left(64), 379, before=927),
    "a full shelf of 64 buckets: any two go and two come": Row(lambda _: some_of_row(64, 2), 364, before=729),
    "the same with 256": Row(lambda _: some_of_row(256, 2), 994, before=2351),
    "the same with 128, any sixteen": Row(lambda _: some_of_row(128, 16), 582),
    "4095 full shelves: the first goes and comes": Row(first_goes, 158, before=26829),
    "the same, any": Row(any_goes, 49080, before=26829, most=MOST),
    # Counted likewise, as the next ones.
    "16 full shelves that are emptied in any order": Row(emptied(16), 80, before=136),
    "40 such shelves": Row(emptied(40), 80, before=194),
    "4095 such shelves": Row(emptied(BUCKETS), 80, before=245),
    # Counted with plain geometry types.
    "1100 shelves with a little room, of which every second goes": Row(every_second_goes(1100), 80, before=176),
    "1000 full shelves, from the last on": Row(emptied_from_last(1000), 143, before=257),
    "200 labels that go from the last on": Row(labels_from_last(200), 132, before=250),
    "4095 shelves of two items, of which one went: the others go, from the last on": Row(last_of_two_go(BUCKETS), 143, before=281),
    "1600 shelves, of which each eighth has an item: these go, from the last on": Row(some_left_go(1600, 8), 416, before=594),
    "17 full shelves: any two go and two come": Row(any_go(17), 322, before=353),
    "64 full shelves, the same": Row(any_go(64), 868, before=370),
    "4095 full shelves: a refused size": Row(refused, 311351, before=82013, most=MOST),
    "the same, a merge looked for": Row(merge_looked_for, 204872, before=67679, most=MOST),
    "4095 shelves with little room: a wider item is refused": Row(narrow_rooms, 311349, most=MOST),
    "4095 shelves that are too tall: the same item comes and goes": Row(too_tall, 16626, most=MOST),
    # Counted likewise, as the next ones.
    "3000 shelves that are too low: the same item comes and goes": Row(too_low, 10673, most=MOST),
    "44 shelves that are too tall: eight more come and go": Row(last_low_ones(44), 551, before=690),
    "41 low or full shelves: an item comes, and its shelf goes with it": Row(low_and_tall, 436, before=668),
    "40 low or full shelves in four columns: three more come and go": Row(last_ones_go(40, 3), 466, before=554),
    "256 full shelves: the first two go, and two come": Row(first_ones_go(256, 2), 162, before=361),
    "the same, one after the other": Row(first_two_in_turn(256), 161, before=314),
    "65 shelves with a little room: the first three go, and three come": Row(first_ones_go(65, 3, 192), 177, before=388),
    "three items: a grow": Row(grown, 128, before=6127),
    "six columns: a grow again and again": Row(grown_in_columns, 68, before=109),
    "3000 items that add a shelf each, since all are too tall": Row(shelves_too_tall, 24337, before=17944, most=MOST),
    "4000 empty shelves: a narrower item comes and goes": Row(empty_shelves, 94132, before=88714, most=MOST),
    "4094 empty shelves: each item has two of them merged": Row(merges, 154910, before=118894, most=MOST),
    "an atlas is cleared and gets an item": Row(cleared, 164, before=1501),
    "the same with a shelf of four buckets": Row(cleared_of_four, 204, before=333),
    "the same in 380x76 with an alignment of 4": Row(cleared_aligned, 181, before=287),
    "an atlas without shelves is cleared": Row(cleared_empty, 23, before=53),
    "an atlas is cleared and gets 16 items that add a shelf each": Row(filled_anew, 434, before=772),
}

IN_THE_END = {
    "4095 shelves of a bucket each restored, for each shelf": (
        Row(lambda _: (full_shelves(), [])), BUCKETS, "restored", "saved", 370
    ),
    "a shelf of 4095 buckets restored, for each bucket": (Row(lambda _: filled_by(16)), BUCKETS, "restored", "saved", 120),
    "4095 shelves of a bucket each drawn, for each bucket": (
        Row(lambda _: (full_shelves(), [])), BUCKETS, "drawn", "again", 300
    ),
}
"""As in `shelf_rows`."""
