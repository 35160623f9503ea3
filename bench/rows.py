"""What rows of the benches share: each is a filling and what follows on it.

Where `measured` is the filling, that is counted, else what follows. All figures are instructions for each command of
such a script, library calls alone, where they were counted: `original` those of the Rust crate, `before` those of this
library while its calls went through what they don't touch, and `most` how many are wanted at most. Where that isn't
given, as many are wanted as the crate takes, or half as many again below 400.
"""

import sys
from dataclasses import dataclass
from typing import Callable, Optional

SMALL = 400
"""Below so many instructions of the crate half as many again are wanted."""

ROUNDS = 2000
"""How many times something goes and comes."""


@dataclass
class Row:
    """A filling, the commands behind it, and what each command took before, takes in the original, and may take."""

    make: Callable[[str], tuple[list[str], list[str]]]
    original: Optional[int] = None
    measured: str = "later"
    before: Optional[int] = None
    most: Optional[int] = None

    @property
    def wanted(self):
        """How many instructions are wanted at most, if anything is known of that."""
        return self.most or wanted_beside(self.original)

    def parts(self, program):
        """The text before what is counted, that with it, and how many commands are counted."""
        filling, later = self.make(program)
        if self.measured == "filling":
            head, counted = filling[:2], filling[2:]
        else:
            head, counted = filling, later
        return text(head), text(head + counted), len(counted)


def tell_usage(text):
    """Prints what a bench does, and ends it, where its first argument is an option: it has none but those for help."""
    if len(sys.argv) > 1 and sys.argv[1].startswith("-"):
        is_asked = sys.argv[1] in ("-h", "--help")
        print(text.strip(), file=sys.stdout if is_asked else sys.stderr)
        sys.exit(0 if is_asked else 2)


def wanted_beside(original):
    """How many instructions are wanted at most where the Rust crate takes so many."""
    return original and round(original * (1.5 if original < SMALL else 1.0))


def text(lines):
    return "\n".join([*lines, ""]).encode()


def goes_and_comes(slots, count, asked):
    """Each time what a slot holds goes, and what is asked for comes there."""
    holder, lines = {}, []
    for slot in slots:
        lines += [f"r {holder.get(slot, slot)}", asked]
        holder[slot] = count + len(lines) - 1
    return lines


def comes_and_goes(count, asked):
    """The same item, placed and returned in turn, behind so many commands."""
    return [line for n in range(ROUNDS) for line in (asked, f"r {count + 2 * n}")]
