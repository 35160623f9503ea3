"""A program that runs with a library preloaded, which counts its requests for memory and refuses some."""

import os
import subprocess
import tempfile
from dataclasses import dataclass
from pathlib import Path

from cases import HERE, ROOT


@dataclass
class Ended:
    """How a run ended: what it wrote, its status, the requests it made, the most bytes at once, those left; and
    whether all requests after the refused one were refused too."""

    out: bytes
    said: bytes
    status: int
    requests: int
    most: int
    left: int
    from_there: bool

    @property
    def lines(self):
        return self.out.decode().splitlines()


def shell(command):
    done = subprocess.run(["bash", "-c", command], cwd=ROOT, check=True, stdout=subprocess.PIPE, text=True)
    return done.stdout.strip()


def path_of(crate):
    """The path of the program of a crate: the proved one, where it was kept, else one that is built unproved."""
    return shell(f"source tool/programs.bash; program_of {crate}")


def make_library(room):
    """Makes the library that counts requests and refuses some, in a folder, and gives its path."""
    library = f"{room}/shim.so"
    subprocess.run(["cc", "-shared", "-fPIC", "-O2", "-o", library, HERE / "shim.c"], check=True)
    return library


class Program:
    def __init__(self, crate, library, *arguments):
        self.command = [path_of(crate), *arguments]
        self.library = library

    def run(self, text, number=0, from_there=False):
        """Runs it on this input, with the request of this number refused, and those after it."""
        with tempfile.NamedTemporaryFile() as told:
            environment = {**os.environ, "LD_PRELOAD": self.library, "REQUESTS_TO": told.name}
            if number:
                environment["REFUSED_REQUEST"] = str(number)
            if from_there:
                environment["REFUSED_FROM"] = "1"
            done = subprocess.run(
                self.command, input=text.encode(), capture_output=True, env=environment, check=False
            )
            # A program that a signal ended tells nothing.
            requests, most, left = map(int, Path(told.name).read_text().split() or (0, 0, 0))
        return Ended(done.stdout, done.stderr, done.returncode, requests, most, left, from_there)
