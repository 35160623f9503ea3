"""Scripts that load an atlas as programs do, each the same from run to run.

A script returns only what is live. What was placed is known from the replies of the program itself: a script is made
in parts, and before each part the program runs what is there. Replies follow from the commands, so a script depends on
its seed alone, and no program changes it.
"""

import random
import subprocess
from collections import deque


class Script:
    """A script in the making, and the positions of what is live so far as the replies are known."""

    def __init__(self, program, header, seed):
        self.program = program
        self.header = header
        self.random = random.Random(seed)
        self.commands = []
        self.live = []
        self.known = 0

    def allocate(self, width, height):
        self.commands.append(f"a {width} {height}")

    def allocate_between(self, shortest, longest, height=None):
        self.allocate(self.random.randint(shortest, longest), height or self.random.randint(shortest, longest))

    def give_back(self, position):
        self.commands.append(f"r {position}")

    def give_back_any(self):
        """Returns something live, each with the same chance."""
        index = self.random.randrange(len(self.live))
        self.live[index], self.live[-1] = self.live[-1], self.live[index]
        self.give_back(self.live.pop())

    def give_all_back(self):
        """Returns all that is live, in any order."""
        self.look()
        while self.live:
            self.give_back_any()

    def look(self):
        """Adds to what is live all that was placed since the last look."""
        replies = subprocess.run([self.program], input=self.text(), capture_output=True, check=True).stdout.split(b"\n")
        for position in range(self.known, len(self.commands)):
            if replies[position].startswith(b"placed"):
                self.live.append(position)
        self.known = len(self.commands)

    def churn(self, count, allocate):
        """Adds so many commands: each time something is returned, and something else asked for."""
        while count > 0:
            self.look()
            part = min(count, len(self.live))
            for _ in range(part // 2):
                self.give_back_any()
                allocate()
            count -= part

    def text(self):
        return "\n".join([self.header, *self.commands, ""]).encode()


def glyph_churn(program):
    """Glyphs, of which about 70 % of the atlas is full, while any of them go and others come."""
    script = Script(program, "atlas 2048 2048 1 1 1 h", 1)
    for _ in range(4100):
        script.allocate_between(6, 40)
    script.churn(25_000, lambda: script.allocate_between(6, 40))
    return script


def sprites_at_the_brim(program, header):
    script = Script(program, header, 2)
    for _ in range(1200):
        script.allocate_between(16, 256)
    for _ in range(60):
        script.look()
        for _ in range(400):
            if script.random.random() < 0.47:
                script.give_back_any()
            else:
                script.allocate_between(16, 256)
    return script


def sprites(program):
    """Sprites, more than there is room for, while any of them go."""
    return sprites_at_the_brim(program, "atlas 4096 4096 1 1 1 h")


def vertical_sprites(program):
    """The same sprites, aligned, on vertical shelves in two columns."""
    return sprites_at_the_brim(program, "atlas 4096 4096 4 8 2 v")


def tall_shelves(program):
    """Items each of which takes a shelf for itself, while any of them go and others come."""
    script = Script(program, "atlas 512 65528 1 1 8 h", 3)

    def allocate():
        script.allocate(script.random.randint(33, 64), script.random.randint(8, 54))

    for _ in range(14_000):
        allocate()
    script.churn(12_000, allocate)
    return script


def fill_and_drain(program):
    """An atlas that is filled and emptied four times."""
    script = Script(program, "atlas 2048 2048 1 1 1 h", 4)
    for _ in range(4):
        for _ in range(6500):
            script.allocate_between(6, 40)
        script.give_all_back()
    return script


def fill_only(program):
    """An atlas that is filled, until one in five has no place."""
    script = Script(program, "atlas 4096 4096 1 1 1 h", 5)
    for _ in range(30_000):
        script.allocate_between(6, 40)
    return script


def narrow_gaps(program):
    """Shelves with many narrow free items, while wider ones are asked for."""
    script = Script(program, "atlas 4096 2048 1 1 1 h", 6)
    narrow, wider = [], []
    for _ in range(2048 // 16):
        for _ in range(164):
            narrow.append(len(script.commands))
            script.allocate(9, 16)
            script.allocate(9, 16)
        for _ in range(28):
            wider.append(len(script.commands))
            script.allocate(40, 16)
    script.random.shuffle(narrow)
    for position in narrow:
        script.give_back(position)
    script.look()
    script.live = wider
    script.churn(800, lambda: None)
    script.churn(30_000, lambda: script.allocate_between(20, 40, 16))
    return script


def buckets(program):
    """A bucketed atlas of which the oldest go while others come."""
    script = Script(program, "bucketed 2048 2048 1 1 1 h", 7)
    for _ in range(22_000):
        script.allocate_between(4, 20)
    script.look()
    oldest = deque(script.live)
    for _ in range(10):
        for _ in range(1000):
            index = script.random.randrange(64)
            oldest[0], oldest[index] = oldest[index], oldest[0]
            script.give_back(oldest.popleft())
            script.allocate_between(4, 20)
        script.live = []
        script.look()
        oldest.extend(script.live)
    return script


WORKLOADS = {
    "glyph churn": glyph_churn,
    "sprites": sprites,
    "sprites, vertical, aligned, 2 columns": vertical_sprites,
    "tall shelves": tall_shelves,
    "fill and drain": fill_and_drain,
    "fill only": fill_only,
    "narrow gaps": narrow_gaps,
    "bucketed": buckets,
}

ORIGINAL = {
    "glyph churn": 847,
    "sprites": 931,
    "sprites, vertical, aligned, 2 columns": 869,
    "tall shelves": 126678,
    "fill and drain": 578,
    "fill only": 2511,
    "narrow gaps": 15172,
    "bucketed": 4442,
}
"""The instructions that the Rust crate takes for each command of a workload, library calls alone, counted once."""

BEFORE = {"glyph churn": 401, "sprites": 400, "tall shelves": 4025, "fill and drain": 349, "bucketed": 1196}
"""Those that this library took before, where they were counted."""

ORIGINAL_END_TO_END = {
    "glyph churn": 2162,
    "sprites": 2112,
    "sprites, vertical, aligned, 2 columns": 2204,
    "tall shelves": 124113,
    "fill and drain": 1767,
    "fill only": 3156,
}
"""The instructions that a program over the Rust crate takes for each command, where they were counted."""

BEFORE_AND_WANTED = {
    "glyph churn": (784, 600),
    "sprites": (797, 600),
    "sprites, vertical, aligned, 2 columns": (808, 600),
    "tall shelves": (3611, 1200),
    "fill and drain": (732, 550),
    "fill only": (1008, 800),
    "narrow gaps": (1045, 600),
    "bucketed": (1574, 700),
}
"""The instructions that a command of the released program 0.1.0 takes, and how many are wanted at most."""

LOOKS = 100_000
"""How many commands a script has of which none takes memory of the atlas."""

BYTES_BEFORE_AND_WANTED = (56, 32)
"""The bytes that a command of it takes in the released program 0.1.0, and how many are wanted at most."""


def looks():
    """A header, and so many commands that find nothing."""
    header = "atlas 64 64 1 1 1 h\n"
    return header.encode(), (header + f"l {LOOKS}\n" * LOOKS).encode()


LIVE = (1000, 4000, 16000, 64000)
"""How many items are live in the series that shows how costs grow."""

LATER = 10_000
"""How many commands follow on the filling in that series."""


def growing(program, live):
    """The commands that fill an atlas to 70 % with so many glyphs, and a script with glyph churn behind them."""
    side = int((live * 640 / 0.7) ** 0.5)
    script = Script(program, f"atlas {side} {side} 1 1 1 h", 8)
    for _ in range(live):
        script.allocate_between(6, 40)
    filled = script.text()
    script.churn(LATER, lambda: script.allocate_between(6, 40))
    return filled, script
