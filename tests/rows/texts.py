"""Texts that the programs replay, check and draw, each answer compared with its row."""

import re
import subprocess

from calls import Otherwise, Stage, next_line

ESCAPES = {"n": b"\n", "t": b"\t", "r": b"\r", '"': b'"'}
# What a program says of a drawing that has been made.
DRAWN = ("done", "ok")


def bytes_of(words):
    """The bytes that the words spell."""
    if not words.startswith('"'):
        return words.encode()
    first, *parts = words[1:-1].split("\\")
    found = first.encode()
    for part in parts:
        byte, rest = escaped(part)
        found += byte + rest.encode()
    return found


def escaped(part):
    """The bytes for what stands behind a backslash, and the rest."""
    if part[0] == "x":
        return bytes.fromhex(part[1:3]), part[3:]
    if part[0] == "{":
        repeated, _, rest = part[1:].partition("}")
        byte, _, count = repeated.partition(" ")
        return bytes.fromhex(byte) * int(count), rest
    return ESCAPES[part[0]], part[1:]


def changed(text, words):
    """A text of which the first such part is changed."""
    old, _, new = words.partition(" to ")
    if old.encode() not in text:
        raise Otherwise(f"{old} isn't there")
    return text.replace(old.encode(), new.encode(), 1)


class Texts:
    """What the rows of a test have kept so far: what stands before each script, the text that is checked, and the lines
    of what was drawn last that were not shown yet."""

    def __init__(self, programs):
        self.programs, self.beginning, self.text, self.picture = programs, b"", b"", b""

    def run(self, program, text, *arguments):
        done = subprocess.run([self.programs[program], *arguments], input=text, capture_output=True, check=False)
        return done.returncode, done.stdout, done.stderr

    def answer(self, call):
        word, _, words = call.partition(" ")
        return getattr(self, f"do_{word}")(words)

    def do_begin(self, words):
        self.beginning = bytes_of(words)
        return "begun"

    def do_text(self, words):
        self.text = bytes_of(words)
        return "kept"

    def do_change(self, words):
        self.text = changed(self.text, words)
        return "changed"

    def do_script(self, words):
        """What the replay of a script writes, where it is run, or what is said of it, which alone is written then."""
        status, out, _ = self.run("etagere_run", self.beginning + bytes_of(words))
        if status:
            return out.decode().removesuffix("\n")
        return out.decode().replace("\n", "\\n") or "nothing"

    def do_check(self, words):
        return self.check(bytes_of(words) if words else self.text)[0]

    def do_with(self, words):
        return self.check(changed(self.text, words))[0]

    def check(self, text):
        """What a check says of a text, and what restoring tells where another reader finds a snapshot in it too."""
        status, out, _ = self.run("etagere_run", text, "check")
        said = out.decode().removesuffix("\n")
        if status not in (0, 1, 2) or out.count(b"\n") != 1:
            raise Otherwise(f"status {status}, wrote {out}")
        told = None if said == "unreadable" else self.restored(text)
        if told not in (None, said):
            raise Otherwise(f"said {said}, restored as {told}")
        return said, told

    def restored(self, text):
        """What restoring the atlas of a text tells; None where the other reader finds no snapshot."""
        found = re.fullmatch(r'\{"(atlas|bucketed)":(.*)\}', text.decode(), re.DOTALL)
        if not found:
            return None
        stage = Stage(self.programs["rows"], found[1])
        answer = stage.tell(0, "restore " + found[2].replace("\n", " "))
        stage.close()
        return {"made": "ok", "unread": None}.get(answer, answer.replace("fault", "broken"))

    def do_each(self, words):
        """Checks the text with each of the numbers in place of the one in a part of it."""
        part, _, numbers = words.partition(" to ")
        for number in numbers.split(" "):
            said, told = self.check(changed(self.text, f"{part} to {part.rpartition(':')[0]}:{number}"))
            if told is None:
                raise Otherwise(f"{number}: {said}, and isn't read")
        return "as restored"

    def do_draw(self, words):
        """Draws a text, whose picture is kept, and says how that ended. Where nothing is to be drawn nothing is
        written."""
        status, out, said = self.run("etagere_draw", bytes_of(words))
        if bool(status) != (not out):
            raise Otherwise(f"status {status}, wrote {out[:60]}")
        is_snapshot = words.lstrip('"').startswith("{")
        self.picture = out
        return f"{said.decode().removesuffix(chr(10)) or DRAWN[is_snapshot]}, status {status}"

    def do_alike(self, words):
        """Draws a text, and compares the picture with the last one."""
        last = self.picture
        return f"{self.do_draw(words)}, {'alike' if self.picture == last else 'otherwise'}"

    def do_next(self, _):
        """The next line of the picture, with its line end, in quotes."""
        answer, rest = next_line(self.picture.decode())
        self.picture = rest.encode()
        return answer

    def do_skip(self, count):
        """Passes over as many lines of the picture."""
        lines = self.picture.splitlines(keepends=True)
        self.picture = b"".join(lines[int(count) :])
        return "skipped" if len(lines) >= int(count) else f"{len(lines)} lines are left"


def check(programs, test):
    """Checks the rows of a test."""
    texts = Texts(programs)
    for row, _ in test.turns():
        answer = texts.answer(row.call)
        if row.wanted not in (None, answer):
            raise Otherwise(f"line {row.line}: answered {answer}")
