"""The tests of a file of rows: their names, their rows and the answers that are expected. NOTATION.md tells the form."""

import re
from dataclasses import dataclass, field

PART = "part "


@dataclass
class Row:
    """A call, and what it is to answer, if the row says so. Its line is counted from 1."""

    line: int
    call: str
    wanted: str | None


@dataclass
class Block:
    """Rows that are gone through one after the other, all of them for each number of a range."""

    turns: range = range(1)
    rows: list[Row] = field(default_factory=list)


@dataclass
class Test:
    name: str
    blocks: list[Block]

    @property
    def kind(self):
        """The first word of the first row."""
        rows = [row for block in self.blocks for row in block.rows]
        return rows[0].call.split(" ")[0] if rows else ""

    @property
    def count(self):
        return sum(len(block.rows) for block in self.blocks)

    def turns(self):
        """The rows as they are gone through, each with the number of its turn."""
        for block in self.blocks:
            for turn in block.turns:
                for row in block.rows:
                    yield row, turn


def tests_of(text):
    """The tests of a text, in order, and the parts by their names."""
    tests, parts = [], {}
    for number, line in enumerate(map(str.strip, text.splitlines()), 1):
        if not line or line.startswith("#"):
            continue
        if line.endswith(":"):
            test = Test(line[:-1], [Block()])
            if line.startswith(PART):
                parts[test.name.removeprefix(PART)] = test
            else:
                tests.append(test)
        elif line.startswith("then "):
            test.blocks += [*parts[line.removeprefix("then ")].blocks, Block()]
        elif line.startswith("repeat "):
            first, _, last = line.removeprefix("repeat ").rpartition("..")
            test.blocks.append(Block(range(int(first or 0), int(last))))
        elif line == "end":
            test.blocks.append(Block())
        else:
            call, arrow, wanted = line.partition(" -> ")
            test.blocks[-1].rows.append(Row(number, call.rstrip(), wanted.lstrip() if arrow else None))
    return tests


def expanded(words, turn):
    """The words, with a number in the place of each that stands for one, as `n`, `n+1`, `2n`, `2n+3` and `9-2n` do, and
    `#2n..2n+1` and `(0,2n)`."""

    def number(match):
        whole, factor, added = match.groups()
        counted = int(factor or 1) * turn
        return str(int(whole) - counted if whole else counted + int(added or 0))

    return re.sub(r"(?<![^ #(,.])(?:(\d+)-)?(\d*)n(?:\+(\d+))?(?![^ ),.])", number, words)
