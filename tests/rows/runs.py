"""Runs of commands, each made in three ways that have to answer the same: as a run and as a stream, by the program of
crates/rows, and as the replay of a script."""

import subprocess
from dataclasses import dataclass, field

from calls import Otherwise
from tables import expanded

HEADERS = ("atlas ", "bucketed ")
LAST = "4294967295"


@dataclass
class Run:
    """A run, from the row that begins it to the one before the next run, as a script and what its lines are to be."""

    lines: list[str]
    wanted: list[tuple[int, str | None]] = field(default_factory=list)

    def check(self, programs):
        """Compares the three ways, and then each line with its row."""
        script = "".join(f"{line}\n" for line in self.lines).encode()
        ways = [self.told([programs["etagere_run"]], script)]
        ways += [self.told([programs["rows"], way], script) for way in ("run", "stream")]
        if ways[0] != ways[1] or ways[0] != ways[2]:
            raise Otherwise(f"replayed, run and streamed as {ways}")
        found = ways[0].splitlines()
        if len(found) != len(self.wanted):
            raise Otherwise(f"line {self.wanted[0][0] if self.wanted else 0}: {len(found)} replies")
        for (line, wanted), reply in zip(self.wanted, found):
            if wanted is not None and not is_like(reply, wanted):
                raise Otherwise(f"line {line}: answered {reply}")

    def told(self, command, text):
        done = subprocess.run(command, input=text, capture_output=True, check=False)
        if done.returncode not in (0, 1) or done.stderr:
            raise Otherwise(f"status {done.returncode}, {done.stderr}")
        return done.stdout.decode()


def is_like(found, wanted):
    """Whether a line has the words of another, in which `_` stands for any word."""
    found, wanted = found.split(" "), wanted.split(" ")
    return len(found) == len(wanted) and all(one in ("_", other) for one, other in zip(wanted, found))


def runs_of(test):
    """The runs of a test. One whose options are to be refused has a command that would else be answered."""
    run = None
    for row, turn in test.turns():
        call = expanded(row.call, turn)
        wanted = None if row.wanted is None else expanded(row.wanted, turn)
        if not call.startswith(HEADERS):
            run.lines.append(call.replace(" last", f" {LAST}"))
            run.wanted.append((row.line, wanted))
            continue
        if run:
            yield run
        run = Run([call])
        if wanted is not None:
            run.lines.append("c")
            run.wanted.append((row.line, wanted))
    yield run


def check(programs, test):
    """Makes the runs of a test."""
    for run in runs_of(test):
        run.check(programs)
