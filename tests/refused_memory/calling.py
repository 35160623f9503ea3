"""Calls of the rows in calls.calls, to which memory is refused: what they are told, and how their answers are checked."""

import sys

from cases import HERE, ROOT

sys.path.insert(0, str(ROOT / "tests/rows"))

from calls import INSTEAD, LISTS, Stage, answered, is_wanted
from program import path_of
from tables import tests_of

TAKES = "takes "
# A call that is none, and changes nothing.
NOTHING = "nothing"


class Recording(Stage):
    """A stage that keeps the lines which the program is told."""

    def __init__(self, program, kind):
        super().__init__(program, kind)
        self.lines = []

    def tell(self, slot, call):
        self.lines.append(f"{slot} {call}")
        return super().tell(slot, call)


def told(test):
    """The lines of a test, and how many requests each makes, if that is said; and rows that are answered otherwise."""
    stage, taken, wrong, takes = Recording(path_of("rows"), test.kind), [], [], None
    try:
        for row, turn in test.turns():
            if row.call.startswith(TAKES):
                takes = int(row.call.removeprefix(TAKES))
                continue
            answer = answered(stage, row, turn)
            taken += [takes] * (len(stage.lines) - len(taken))
            if not is_wanted(answer, row.wanted):
                wrong.append(f"{test.name}: line {row.line}: answered {answer}")
    finally:
        stage.close()
    return stage.lines, taken, wrong


def tests():
    return tests_of((HERE / "calls.calls").read_text())


def answers(lines, written):
    """What is written, parted by the lines that it answers, up to the last that has an answer."""
    parts, rest = [], list(written)
    for line in lines:
        if not rest:
            break
        is_list = line.split(" ")[1] in LISTS and not rest[0].startswith(INSTEAD)
        end = rest.index("end") + 1 if is_list else 1
        parts.append(rest[:end])
        rest = rest[end:]
    return parts


def mended(line, answer):
    """The lines instead of one that was out of memory: nothing, or removals of the keys that it had evicted."""
    slot = line.split(" ")[0]
    if answer[0] == "unread":
        return [f"{slot} {NOTHING}"]
    if answer[0].startswith("no memory"):
        keys = (key.partition("=")[0] for key in answer[0].split(" ")[3:])
        return [f"{slot} remove {key}" for key in keys] or [f"{slot} {NOTHING}"]
    return [line]


def is_mended(program, lines):
    """Checks calls by those in which each that was out of memory gives way to what it had done. A program that can't even
    read a line ends there."""

    def check(_, ended):
        found = answers(lines, ended.lines)
        instead = [mended(*both) for both in zip(lines, found)]
        replies = answers(
            sum(instead, []),
            program.run("".join(f"{line}\n" for part in instead for line in part)).lines,
        )
        for line, answer, part in zip(lines, found, instead):
            expected, replies = replies[: len(part)], replies[len(part) :]
            if part == [line] and expected != [answer]:
                return f"`{line}` is answered {answer}"
            if part != [line] and not all(it[0].startswith(("(", "page ", "no such", "nothing")) for it in expected):
                return f"`{line}` evicted what wasn't there"
        is_whole = len(found) == len(lines)
        return None if is_whole == (ended.status == 0) else f"status {ended.status} after {len(found)} answers"

    return check


def requests_otherwise(program, lines, taken):
    """The calls that make more or fewer requests than is said. Each is compared with one that does nothing, and that is
    as long, so that reading them takes the same."""
    wrong = []
    for number, takes in enumerate(taken):
        if takes is None:
            continue
        neutral = f"{lines[number].split(' ')[0]} {NOTHING} ".ljust(len(lines[number]), "x")
        before = "".join(f"{line}\n" for line in lines[:number])
        asked = [program.run(f"{before}{line}\n").requests for line in (lines[number], neutral)]
        if asked[0] - asked[1] != takes:
            wrong.append(f"`{lines[number]}` makes {asked[0] - asked[1]} requests, not {takes}")
    return wrong
