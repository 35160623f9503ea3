"""The calls of a test, made one after the other by the program of crates/rows, each compared with its row."""

import json
import re
import subprocess

from tables import expanded

# What is answered where something couldn't be called or made: a row has to name it.
NOT_DONE = {"unread", "no such call", "nothing was made", "no memory"}
ATLASES = ("atlas", "bucketed")
KINDS = (*ATLASES, "cache", "pages", "padded", "padded_cache", "paged_cache", "keyed", "map")
# What the program writes in more than a line, up to one that ends it.
LISTS = ("picture", "part", "iter", "moved")
PICTURES = ("picture", "part")
# How the one line begins that comes instead of a list.
INSTEAD = ("fault ", "no memory", "no such call", "nothing was made")
# What stands in rows for numbers.
NAMED = {"h": "0", "v": "1", "first": "0", "fullest": "1"}
# What takes a text; all other calls take numbers, and those of a map names too.
OF_TEXTS = ("restore", "steps")
NUMBER, NAME = r"-?\d+", r"[a-z]+"
# How an answer begins that bounds a number.
AT_MOST = "at most "
# The link of the last record in a snapshot.
NO_RECORD = 65535


class Otherwise(Exception):
    """Which row is answered otherwise."""


def next_line(picture):
    """The next line of a picture in quotes, or what stands in its place, and the rest."""
    line, end, rest = picture.partition("\n")
    if not end:
        return "no line end" if line else "nothing", picture
    return f'"{line}"', rest


def asked(words):
    """The words that make something, as numbers."""
    return " ".join(NAMED.get(word, word) for word in words.split(" "))


class Stage:
    """What the rows of a test have made so far: the first one, and maybe another, which get the same calls; and the
    lines of what was drawn last that were not shown yet."""

    def __init__(self, program, kind):
        self.kind, self.given, self.saved, self.picture, self.has_other = kind, [], "", "", False
        pipes = {"stdin": subprocess.PIPE, "stdout": subprocess.PIPE, "text": True, "bufsize": 1}
        self.running = subprocess.Popen([program, kind], **pipes)

    def close(self):
        self.running.stdin.close()
        if self.running.wait() or self.running.stdout.read():
            raise Otherwise(f"status {self.running.returncode}")

    def tell(self, slot, call):
        """What the program answers to a call of what is in a slot."""
        word, _, words = call.partition(" ")
        form = f"{NUMBER}|{NAME}" if self.kind == "map" else NUMBER
        if word not in OF_TEXTS and not re.fullmatch(rf"(({form})( (?=.)|$))*", words):
            raise Otherwise(f"no numbers: {words}")
        self.running.stdin.write(f"{slot} {call}\n")
        lines = [self.running.stdout.readline()]
        is_list = word in LISTS and not lines[0].startswith(INSTEAD)
        while is_list and lines[-1] not in ("end\n", ""):
            lines.append(self.running.stdout.readline())
        if not lines[-1].endswith("\n"):
            raise Otherwise("the program has ended")
        return "".join(lines[:-1] or lines).removesuffix("\n")

    def answer_of(self, slot, call):
        """What a call answers, as rows have it."""
        word = call.split(" ")[0]
        if self.kind in ATLASES and word in ("size", "empty", "spaces"):
            width, height, is_empty, allocated, free = self.tell(slot, "counts").split(" ")
            answers = {"size": f"{width} {height}", "spaces": f"{allocated} {free}"}
            return answers.get(word, "yes" if is_empty == "true" else "no")
        if word == "iter" or self.kind in ATLASES and word == "len":
            lines = [line.replace("at ", "") for line in self.tell(slot, "iter").splitlines() if line != "end"]
            return str(len(lines)) if word == "len" else " ".join(["all", *lines])
        if word == "moved":
            return " ".join(line for line in self.tell(slot, call).splitlines() if line != "end")
        answer = self.tell(slot, call)
        if answer.startswith(" evicts"):
            answer = answer.removeprefix(" ")
        return answer + " none" if answer.endswith("evicts") else answer

    def answer(self, call):
        """What a call answers, in which a position may stand for an id."""
        before, mark, positions = call.partition("#")
        if not mark:
            return self.answer_plain(call)
        ends = [self.number_of(it) for it in positions.split("..")]
        answers = [self.answer_plain(f"{before}{self.given[it]}") for it in range(ends[0], ends[-1] + 1)]
        if len({*answers}) != 1:
            raise Otherwise(f"{answers} for these positions")
        return answers[0]

    def number_of(self, position):
        """The number, from 0, of a position among the ids that were given: counted from 1, or back from -1."""
        number = int(position)
        return number - 1 if number > 0 else len(self.given) + number

    def answer_plain(self, call):
        word, _, words = call.partition(" ")
        if word in KINDS:
            return self.begin(words)
        if word in ("clone", "restore"):
            names = f"{words.replace(' ', ',')} " if words else ""
            answer = self.tell(1, f"restore {names}{self.saved}" if word == "restore" else "clone")
            self.has_other = answer == "made"
            return answer
        if word == "save":
            self.saved = self.of_both("save")
            return self.saved
        if word == "change":
            return self.change(words)
        if word == "each":
            return self.change_each(words)
        if word == "steps":
            return self.tell(0, f"steps {self.saved}")
        if word == "first":
            return self.answer_of(0, words)
        if word == "other":
            return self.of_other(words)
        if word == "next":
            answer, self.picture = next_line(self.picture)
            return answer
        answer = self.of_both(call)
        if word in PICTURES:
            self.picture = "" if answer == "end" else answer + "\n"
        if word not in LISTS and " id " in answer:
            page = answer.split(" ")[1] + " " if answer.startswith("page ") else ""
            self.given.append(page + answer.rpartition(" id ")[2])
        return answer

    def begin(self, words):
        """Begins anew with what these words make."""
        self.has_other, self.given = False, []
        if self.kind == "cache":
            *words, capacity = words.split(" ")
            return self.tell(0, " ".join(["make", capacity, *words]))
        return self.tell(0, f"make {asked(words)}")

    def change(self, words):
        """Changes a part of what was saved, which stands there once."""
        old, _, new = words.partition(" to ")
        if self.saved.count(old) != 1:
            raise Otherwise(f"it stands there {self.saved.count(old)} times")
        self.saved = self.saved.replace(old, new)
        return "changed"

    def change_each(self, words):
        """Changes a field in each record of a list of what was saved, to a number, or to that of the next record."""
        kind, field, _, number = words.split(" ")
        saved = json.loads(self.saved)
        following = [*range(1, len(saved[kind])), NO_RECORD]
        for record, follows in zip(saved[kind], following, strict=True):
            record[field] = follows if number == "next" else int(number)
        self.saved = json.dumps(saved, separators=(",", ":"))
        return "changed"

    def of_other(self, call):
        """What a call of the other one answers, or the words that make it."""
        word, _, words = call.partition(" ")
        if word not in KINDS:
            return self.answer_of(1, call)
        self.has_other = True
        return self.tell(1, f"make {asked(words)}")

    def of_both(self, call):
        answers = [self.answer_of(slot, call) for slot in range(1 + self.has_other)]
        if answers[0] != answers[-1]:
            raise Otherwise(f"answered {answers[0]}, by the other {answers[-1]}")
        return answers[0]


def is_wanted(answer, wanted):
    """Whether an answer is one of those that a row names, if it names any."""
    return wanted is None or any(is_one(answer, one) for one in wanted.split(" or "))


def is_one(answer, wanted):
    """Whether an answer is this one, which says only how it begins where it ends in two dots, or what number it is at
    most."""
    if wanted.startswith(AT_MOST):
        return 1 <= int(answer) <= int(wanted.removeprefix(AT_MOST))
    return answer.startswith(wanted[:-2]) if wanted.endswith("..") else answer == wanted


def check(program, test):
    """Makes the calls of a test."""
    stage = Stage(program, test.kind)
    try:
        for row, turn in test.turns():
            answer = answered(stage, row, turn)
            wanted = None if row.wanted is None else expanded(row.wanted, turn)
            is_done = wanted is not None or answer not in NOT_DONE
            if not is_done or not is_wanted(answer, wanted):
                raise Otherwise(f"line {row.line}: answered {answer}")
    finally:
        stage.close()


def answered(stage, row, turn):
    """What a row is answered, or what is otherwise, with its line."""
    try:
        return stage.answer(expanded(row.call, turn))
    except Otherwise as why:
        raise Otherwise(f"line {row.line}: {why}") from why
