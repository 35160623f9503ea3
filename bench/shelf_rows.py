"""Scripts on which a call of a shelf atlas is to leave alone what it doesn't touch: shelves that are too tall for what is
asked for, narrow free items, thousands of shelves that come and go, thousands of columns.
"""

import random

from rows import ROUNDS, Row, comes_and_goes, goes_and_comes
from workloads import Script


def small_after_large(side, large, small=(8, 14)):
    """A page filled with one size, of which half goes, and then a smaller size that comes and goes."""

    def make(program):
        script = Script(program, f"atlas {side} {side} 1 1 1 h", 10)
        for _ in range(side * side * 9 // (sum(large) ** 2 * 2)):
            script.allocate_between(*large)
        script.look()
        for _ in range(len(script.live) // 2):
            script.give_back_any()
        script.live = []
        for _ in range(ROUNDS // 2):
            script.allocate_between(*small)
        script.look()
        filled = len(script.commands)
        script.churn(2 * ROUNDS, lambda: script.allocate_between(*small))
        return [script.header, *script.commands[:filled]], script.commands[filled:]

    return make


def narrow_gaps(shelves, gaps, height_of, asked, side=65528):
    """Shelves that are full but for narrow free items, in an atlas that is so tall, and an item that comes and goes."""

    def make(_program):
        heights = [height_of(shelf) for shelf in range(shelves)]
        filling = [f"atlas {gaps * 4} {side} 1 1 1 h"]
        for height in heights:
            filling += [f"a 2 {height}"] * (2 * gaps)
        filling += [f"r {position}" for position in range(shelves * 2 * gaps) if position % 2]
        return filling, comes_and_goes(len(filling) - 1, f"a {asked}")

    return make


def split_beside(items, gap=2):
    """A shelf filled with narrow items, of which every other goes, while the shelf behind it splits and merges, and then
    wide items that come and go, some in each of these two shelves.
    """

    def make(_program):
        filling = [f"atlas {items * gap} 4000 1 1 1 h", f"a {items * gap} 8"]
        narrow = []
        for number in range(items):
            narrow.append(len(filling) - 1)
            filling.append(f"a {gap} 16")
            if number % 3 == 2:
                filling += ["a 50 64", f"r {len(filling) - 1}"]
        filling += [f"r {position}" for position in narrow[::2]]
        later, count = [], len(filling) - 1
        for _ in range(ROUNDS // 2):
            for height in (16, 64):
                later += [f"a 50 {height}", f"r {count + len(later)}"]
        return filling, later

    return make


def too_tall(shelves, height, taller=None):
    """Shelves that have room and are too tall for what comes and goes, and perhaps an empty one that is taller."""

    def make(_program):
        columns = -(-shelves * height // 60000)
        filling = [f"atlas {columns * 1000} 65528 1 1 {columns} h"] + [f"a 900 {height}"] * shelves
        if taller:
            filling += [f"a 900 {taller}", f"r {shelves}"]
        return filling, comes_and_goes(len(filling) - 1, "a 50 1")

    return make


def refused_full(shelves):
    """Full shelves, and an item that is refused again and again."""
    return lambda _program: ([f"atlas 64 {8 * shelves} 1 1 1 h"] + ["a 64 8"] * shelves, ["a 64 8"] * ROUNDS)


def drained(shelves, in_order):
    """Shelves of one item each, of which all go."""

    def make(_program):
        columns = -(-shelves // 8000)
        filling = [f"atlas {8 * columns} 64000 1 1 {columns} h"] + ["a 8 8"] * shelves
        positions = list(range(shelves))
        if not in_order:
            random.Random(11).shuffle(positions)
        return filling, [f"r {position}" for position in positions]

    return make


def drained_of_heights(shelves):
    """Shelves of one item each, of five heights, that are drained in any order."""

    def make(_program):
        chooser = random.Random(shelves)
        filling = ["atlas 16 8192 1 1 1 h"] + [f"a 16 {chooser.randrange(1, 40)}" for _ in range(shelves)]
        order = list(range(shelves))
        chooser.shuffle(order)
        return filling, [f"r {position}" for position in order]

    return make


def cleared_empty(_program):
    """An atlas of one column without items, which is cleared again and again."""
    return ["atlas 1024 1024 1 1 1 h"], ["c"] * ROUNDS


def columns_anew(_program):
    """An atlas of 13 columns is cleared and gets four items."""
    return ["atlas 111 45864 1 1 13 v"], ["c", "a 61 153", "a 62 153", "a 61 153", "a 61 153"] * (ROUNDS // 5)


def same_in_columns(_program):
    """The same item in an atlas of 30 columns."""
    return ["atlas 336 410 3 8 30 h"], comes_and_goes(0, "a 2 1")


def bad_fits(heights, columns):
    """Shelves with room of so many heights in each of some columns, and an item that comes and goes, for which all are too
    tall.
    """

    def make(_program):
        steps = [*range(32, 128, 16), *range(128, 512, 32), *range(512, 4096, 64)][:heights]
        filling = [f"atlas {130 * columns} {sum(steps)} 1 1 {columns} h"]
        filling += [f"a 100 {height}" for height in steps] * columns
        return filling, comes_and_goes(len(filling) - 1, "a 20 8")

    return make


def columns_split(columns, splits):
    """Empty columns, so many of which are split by an item each, and merge again."""

    def make(_program):
        later = []
        for _ in range(ROUNDS // splits):
            first = len(later)
            later += ["a 64 40"] * splits
            later += [f"r {first + split}" for split in range(splits)]
        return [f"atlas {64 * columns} 64 1 1 {columns} h"], later

    return make


def beside_low_ones(_program):
    """Low items of which every other went, an empty shelf that splits and merges, and a size that is refused each time."""
    filling = ["atlas 660 151 1 1 1 h"] + ["a 11 9"] * 240 + [f"r {position}" for position in range(0, 240, 2)]
    later = []
    for _ in range(ROUNDS // 5):
        first = len(filling) - 1 + len(later)
        later += ["a 38 56", "a 6 2", "a 39 112", f"r {first}", f"r {first + 1}"]
    return filling, later


def beside_gaps(shelves, gaps):
    """Low shelves with so many narrow gaps each, an empty shelf that splits and merges, and a size that fits no gap."""

    def make(_program):
        filling = [f"atlas 660 {shelves * 16 + 87} 1 1 1 h"] + ["a 44 9"] * (15 * shelves)
        filling += [f"r {15 * shelf + 2 * gap}" for shelf in range(shelves) for gap in range(gaps)]
        later = []
        for _ in range(ROUNDS // 6):
            first = len(filling) - 1 + len(later)
            later += ["a 38 56", "a 6 2", "a 50 9", f"r {first + 2}", f"r {first}", f"r {first + 1}"]
        return filling, later

    return make


def first_ones_empty(shelves, empty):
    """Shelves of one item each, of two heights, of which the first go two at a time, and one behind them that splits and
    merges, meanwhile and after that.
    """

    def make(_program):
        chooser = random.Random(3)
        filling = ["atlas 8 65528 1 1 1 h"]
        filling += [f"a 8 {chooser.choice((8, 16))}" for _ in range(shelves)]
        for position in range(0, empty, 2):
            filling += [f"r {position}", f"r {position + 1}", "a 8 64"]
            filling.append(f"r {len(filling) - 2}")
        return filling, comes_and_goes(len(filling) - 1, "a 8 24")

    return make


def half_empty(columns, rows):
    """Shelves of one item each, of which every other is empty, and shelves that split and merge."""

    def make(_program):
        shelves = columns * rows
        filling = [f"atlas {columns * 8} {rows * 32} 1 1 {columns} h"] + ["a 8 32"] * shelves
        filling += [f"r {position}" for position in range(0, shelves, 2)]
        return filling, comes_and_goes(len(filling) - 1, "a 8 8")

    return make


def same_item(beside):
    def make(_program):
        filling = ["atlas 1024 1024 1 1 1 h"] + ["a 16 16"] * beside
        return filling, comes_and_goes(len(filling) - 1, "a 16 16")

    return make


def in_columns(columns):
    def make(_program):
        filling = [f"atlas {columns} 64 1 1 {columns} h"]
        return filling, comes_and_goes(0, "a 1 64")

    return make


def full_shelves(choose):
    """8000 shelves of an item each, of which the first, or any, goes and comes."""

    def make(_program):
        filling = ["atlas 8 64000 1 1 1 h"] + ["a 8 8"] * 8000
        chooser = random.Random(12)
        return filling, goes_and_comes([choose(chooser) for _ in range(ROUNDS)], 8000, "a 8 8")

    return make


def second_half_drained(shelves):
    """Full shelves, of which every second went: the others go, from the last on."""

    def make(_program):
        filling = [f"atlas 16 {8 * shelves} 1 1 1 h"] + ["a 16 8"] * shelves
        filling += [f"r {position}" for position in range(0, shelves, 2)]
        return filling, [f"r {position}" for position in reversed(range(1, shelves, 2))]

    return make


def first_search(shelves):
    """Full shelves of two heights in turn, of which every third went, and then an item of either height that comes and goes."""

    def make(_program):
        heights = [8 * (1 + shelf % 2) for shelf in range(shelves)]
        filling = [f"atlas 112 {sum(heights)} 1 1 1 h"] + [f"a 112 {height}" for height in heights]
        filling += [f"r {position}" for position in range(0, shelves, 3)]
        count = len(filling) - 1
        return filling, [line for n in range(ROUNDS) for line in (f"a 16 {8 * (1 + n % 2)}", f"r {count + 2 * n}")]

    return make


def first_of_each_goes(shelves, columns):
    """Full shelves of two heights in turn and two items each, of which the first goes, of one shelf after the other."""

    def make(_program):
        heights = [32 + 16 * (shelf % 2) for shelf in range(shelves)]
        across = sum(heights) // columns + 48
        filling = [f"atlas {112 * columns} {across} 1 1 {columns} h"]
        filling += [f"a 56 {height}" for height in heights for _ in range(2)]
        return filling, [f"r {2 * shelf}" for shelf in range(shelves)]

    return make


def first_of_heights_in_turn(shelves, count):
    """Full shelves of so many heights in turn, of which as many first ones go and come, one after the other."""

    def make(_program):
        heights = [8 * (1 + shelf % count) for shelf in range(shelves)]
        filling = [f"atlas 64 {sum(heights)} 1 1 1 h"] + [f"a 64 {height}" for height in heights]
        items, lines = list(range(count)), []
        for turn in range(ROUNDS):
            shelf = turn % count
            lines.append(f"r {items[shelf]}")
            items[shelf] = shelves + len(lines)
            lines.append(f"a 64 {heights[shelf]}")
        return filling, lines

    return make


def narrower_just_after(shelves):
    """Shelves of five heights that were just filled but for a gap each, and an item for the first gap that comes and goes."""

    def make(_program):
        heights = [(8, 12, 16, 24, 40)[shelf % 5] for shelf in range(shelves)]
        filling = [f"atlas 64 {sum(heights) + 4 * shelves} 1 1 1 h"] + [f"a 54 {height}" for height in heights]
        return filling, [line for n in range(50) for line in ("a 10 8", f"r {shelves + 2 * n}")]

    return make


def cleared_after(shelves):
    """Full shelves of three heights, and then a clear and nine items, again and again."""

    def make(_program):
        heights = [8 * (1 + shelf % 3) for shelf in range(shelves)]
        filling = [f"atlas 64 {sum(heights)} 1 1 1 h"] + [f"a 64 {height}" for height in heights]
        return filling, [line for _ in range(10) for line in ["c"] + [f"a 64 {8 * (1 + n % 3)}" for n in range(9)]]

    return make


def first_among_holes(shelves, columns):
    """Full shelves of three heights in turn, of which every second went, and then the first one goes and comes."""

    def make(_program):
        heights = [(80, 64, 48)[shelf % 3] for shelf in range(shelves)]
        across = sum(heights) // columns + 80
        filling = [f"atlas {64 * columns} {across} 1 1 {columns} h"] + [f"a 64 {height}" for height in heights]
        filling += [f"r {shelf}" for shelf in range(1, shelves, 2)]
        count = len(filling) - 1
        return filling, goes_and_comes([0] * ROUNDS, count, f"a 64 {heights[0]}")

    return make


def cleared_in_columns(columns, some):
    """A clear of an atlas of columns, and so many items of six heights, again and again."""
    heights = (8, 16, 24, 32, 48, 64)
    lines = [line for _ in range(ROUNDS // some) for line in ["c"] + [f"a {heights[n % 6]} 13" for n in range(some)]]
    return lambda _program: ([f"atlas 74 {48 * columns} 2 2 {columns} v"], lines)


def drained_beside_first(shelves, later=("a 16 8", "a 4104 8")):
    """Full shelves that go in any order, while after each an item comes to the first shelf, and one is refused."""

    def make(_program):
        positions = list(range(1, shelves + 1))
        random.Random(1).shuffle(positions)
        filling = [f"atlas 4096 {8 * (shelves + 1)} 1 1 1 h", "a 16 8"] + ["a 4096 8"] * shelves
        return filling, [line for position in positions for line in (f"r {position}", *later)]

    return make


def drained_by_many(shelves, some, per_shelf=1):
    """Shelves in two columns, full of so many items each, that go in any order, and after some of them an item comes."""

    def make(_program):
        width = 128 // per_shelf
        items = 2 * shelves * per_shelf
        positions = list(range(items))
        random.Random(1).shuffle(positions)
        filling = [f"atlas 256 {8 * shelves} 1 1 2 h"] + [f"a {width} 8"] * items
        lines = []
        for at in range(0, items - some, some):
            lines += [f"r {position}" for position in positions[at : at + some]] + [f"a {width} 8"]
        return filling, lines

    return make


LABELS = (16, 24, 32, 40)
"""How tall labels are, each of which has a shelf for itself."""


def labels(count):
    """A new atlas that gets so many labels, and what chose them."""
    chooser = random.Random(count)
    heights = [chooser.choice(LABELS) for _ in range(count)]
    return [f"atlas 256 {sum(heights)} 1 1 1 h"] + [f"a 256 {height}" for height in heights], chooser


def labels_filled(count):
    return lambda _program: (labels(count)[0], [])


def labels_drained(count, some):
    """So many labels, of which again and again some go, in any order, and then one comes, until few are left."""

    def make(_program):
        filling, chooser = labels(count)
        holders, lines = list(range(count)), []
        while len(holders) > some:
            for _ in range(some):
                lines.append(f"r {holders.pop(chooser.randrange(len(holders)))}")
            holders.append(count + len(lines))
            lines.append(f"a 256 {chooser.choice(LABELS)}")
        return filling, lines

    return make


def gaps_filled(_program):
    """200 shelves of four heights, of which every third went once two more were refused: an item of each height comes, and
    they go in any order.
    """
    heights = (16, 24, 32, 48)
    filling = ["atlas 256 6000 1 1 1 h"] + [f"a 256 {heights[shelf % 4]}" for shelf in range(202)]
    filling += [f"r {shelf}" for shelf in range(0, 200, 3)]
    chooser, lines, count = random.Random(3), [], len(filling) - 1
    for _ in range(ROUNDS // 8):
        holders = [count + len(lines) + number for number in range(4)]
        lines += [f"a 256 {height}" for height in heights]
        chooser.shuffle(holders)
        lines += [f"r {position}" for position in holders]
    return filling, lines


def frames_of_sprites(_program):
    """Frames of eight sprites in four columns, each ended by a clear."""
    chooser, lines = random.Random(5), []
    for _ in range(ROUNDS // 9):
        lines += [f"a {chooser.randint(32, 256)} {chooser.randint(32, 256)}" for _ in range(8)] + ["c"]
    return ["atlas 2048 2048 8 8 4 h"], lines


ROWS = {
    "4096x4096, 25 to 32 pixels, half returned, then 8 to 14 come and go": Row(
        small_after_large(4096, (25, 32)), 1339, before=18576
    ),
    "1024x1024, 33 to 48, then 8 to 14": Row(small_after_large(1024, (33, 48)), 525, before=2000),
    "2048x2048, the same": Row(small_after_large(2048, (33, 48)), 672, before=1182),
    # What the crate takes here was counted with plain geometry types in place of its own, which take some 4 % less.
    "1024x1024, 20 to 36, then 4 and 5: shelves of six heights": Row(small_after_large(1024, (20, 36), (4, 5)), 453),
    "54 shelves with 590 narrow free items each, lower ones behind higher ones": Row(
        narrow_gaps(54, 590, lambda shelf: 1900 - 28 * shelf, "1 8"), 752, before=179216
    ),
    "180 shelves with 180 narrow free items each, a bad fit": Row(
        narrow_gaps(180, 180, lambda _: 320, "1 8"), 1857, before=200600
    ),
    # Counted likewise, as the next four.
    "10 shelves with 81": Row(narrow_gaps(10, 81, lambda _: 800, "1 8"), 365),
    "3 shelves with 81": Row(narrow_gaps(3, 81, lambda _: 800, "1 8"), 325),
    "a shelf with 81 that fills its atlas": Row(narrow_gaps(1, 81, lambda _: 320, "1 8", 320), 215),
    "a shelf with 2000 beside one that splits and merges": Row(split_beside(4000), 6266),
    "5000 full shelves of which the first 132 went: a split and a merge": Row(first_ones_empty(5000, 132), 31905),
    "2000 with 15": Row(narrow_gaps(2000, 15, lambda _: 32, "1 8"), 17710, before=435207),
    "1600 shelves with room that are too tall": Row(too_tall(1600, 40), 13902, before=213654),
    "8000 such shelves": Row(too_tall(8000, 16), 68318, before=1112996),
    "8000 such shelves, and an empty taller one": Row(too_tall(8000, 16, 1000), 68318, before=486340),
    # Counted with plain geometry types, as the next one.
    "64 such shelves of 40, and an empty taller one": Row(too_tall(64, 40, 1000), 844, before=1013, most=1012),
    "one full shelf: an item is refused": Row(refused_full(1), 152, before=211),
    "8000 shelves drained in order": Row(drained(8000, True), 134, before=4954),
    "16000 shelves drained in any order": Row(drained(16000, False), 134, before=7947),
    "32000 shelves drained in any order": Row(drained(32000, False), before=14068, most=600),
    # Counted likewise, as the next two.
    "100 shelves drained in any order": Row(drained(100, False), 136, before=242),
    "100 shelves of five heights, the same": Row(drained_of_heights(100), 135, before=260),
    "1600 full shelves of which every second went: the others go, from the last on": Row(second_half_drained(1600), 159),
    "3000 shelves of two heights, of which every third went: an item of either comes and goes": Row(first_search(3000), 236),
    # Counted with plain geometry types, as the four behind it.
    "600 full shelves of two heights and two items each: the first of each goes": Row(first_of_each_goes(600, 1), 95, before=224),
    "1000 such shelves in 16 columns": Row(first_of_each_goes(1000, 16), 95, before=324),
    "500 full shelves of three heights: the first three go and come, in turn": Row(first_of_heights_in_turn(500, 3), 181, before=291),
    "1000 shelves that were just filled but for a gap each: an item comes and goes": Row(narrower_just_after(1000), 164, before=3364),
    "500 full shelves that are cleared, for nine items: again and again": Row(cleared_after(500), 403, before=589),
    # Counted with its own types, as the next one.
    "3000 full shelves of three heights in 16 columns, of which every second went: the first goes and comes": Row(
        first_among_holes(3000, 16), 209, before=479
    ),
    "64 columns that are cleared for 18 items: again and again": Row(cleared_in_columns(64, 18), 740, before=996),
    "an atlas without items is cleared": Row(cleared_empty, 115, before=201),
    "an atlas of 13 columns is cleared and gets four items": Row(columns_anew, 422, before=579),
    "4096 shelves, half of them empty: a split and a merge": Row(half_empty(16, 256), 26893, before=1754),
    "32000 such shelves": Row(half_empty(16, 2000), before=9120, most=600),
    "the same item alone: its shelf splits and merges": Row(same_item(0), 285, before=772),
    "the same item beside another": Row(same_item(1), 208, before=301),
    # Counted with plain geometry types, as the next two.
    "30 columns, the same item": Row(same_in_columns, 488),
    "25 columns, of which four split and merge": Row(columns_split(25, 4), 440, before=586),
    "100 columns, of which six do": Row(columns_split(100, 6), 946, before=1169),
    "two columns with shelves of 30 heights: a bad fit": Row(bad_fits(30, 2), 713, before=2469),
    "low items of which half went, beside a shelf that splits and merges": Row(beside_low_ones, 304),
    "9 low shelves with two narrow gaps each, beside one that splits and merges": Row(
        beside_gaps(9, 2), 418, before=683
    ),
    # Counted likewise, as the next two.
    "150 full shelves go in any order, after each an item comes to the first": Row(drained_beside_first(150), 163, before=334),
    "300 full shelves, the same but that none is refused": Row(drained_beside_first(300, ["a 16 8"]), 213, before=337),
    "2000 full shelves go in any order, after each 100 an item comes": Row(drained_by_many(1000, 100), 144, before=2251),
    "250 shelves of four items, after each 12 that go one comes": Row(drained_by_many(125, 12, 4), 159, before=363),
    "600 labels of four heights: eight go in any order, and then one comes": Row(
        labels_drained(600, 8), 302, before=494
    ),
    "200 labels, the same with three": Row(labels_drained(200, 3), 426, before=611),
    "100 labels, the same with 16": Row(labels_drained(100, 16), 169, before=308),
    "a new atlas gets 20 labels": Row(labels_filled(20), 702, "filling", 875),
    "200 shelves of four heights with gaps that are filled and emptied": Row(gaps_filled, 230, before=567),
    "eight sprites in four columns, and a clear": Row(frames_of_sprites, 402, before=510),
    "65535 columns, the same item": Row(in_columns(65535), 182, before=363),
    "8000 full shelves: the first goes and comes": Row(full_shelves(lambda _: 0), 181, before=347),
    "8000 full shelves: any goes and comes": Row(full_shelves(lambda chooser: chooser.randrange(8000)), 72703),
}


def cleared(columns):
    def make(_program):
        return [f"atlas {columns} 64 1 1 {columns} h"], ["c"] * 10

    return make


def grown_across(shelves, heights):
    """Shelves of one item each, of so many heights, in an atlas that becomes taller again and again."""

    def make(_program):
        filling = [f"atlas 64 {32 * shelves} 1 1 1 h"]
        filling += [f"a 64 {8 + 8 * (number % heights)}" for number in range(shelves)]
        return filling, [f"g 64 {32 * shelves + 8 * more}" for more in range(1, 21)]

    return make


THROUGH_ALL = {
    "60000 columns cleared, for each column": (Row(cleared(60000)), 60000, 50),
    "2000 shelves of one height in an atlas that grows, for each shelf": (Row(grown_across(2000, 1)), 2000, 100),
    "2000 shelves of 3 heights, the same": (Row(grown_across(2000, 3)), 2000, 100),
}
"""Calls that go through all columns or shelves, how many these are, and how many instructions are wanted for each."""


def long_shelves(shelves, items):
    """Full shelves, each of so many items."""

    def make(_program):
        filling = [f"atlas {8 * items} {8 * shelves} 1 1 1 h"]
        return filling, ["a 8 8"] * (shelves * items)

    return make


IN_THE_END = {
    "8000 shelves of an item each restored, for each shelf": (Row(long_shelves(8000, 1)), 8000, "restored", "saved", 370),
    "16 shelves of 1000 items each restored, for each item": (
        Row(long_shelves(16, 1000)), 16000, "restored", "saved", 120
    ),
    "16 shelves of 1000 items each drawn, for each item": (Row(long_shelves(16, 1000)), 16000, "drawn", "again", 300),
}
"""What is done with an atlas in the end: what it goes through, by which round it is counted, less which other one, and how
many instructions are wanted for each."""
