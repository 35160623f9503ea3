"""What the programs are tried on: scripts and snapshots here, the examples, and long scripts."""

from pathlib import Path

HERE = Path(__file__).resolve().parent
ROOT = HERE.parent.parent

# Runs and streams of a script here, which answer as its replay does: the call, and the script.
RUNS = [(call, script) for call in ("run", "stream") for script in ("run_atlas", "run_wider")]
RUNS += [("run", script) for script in ("run_merged", "run_taller", "run_in_columns")]


def texts(*patterns):
    """The texts of files, by their paths."""
    paths = sorted(path for pattern in patterns for path in ROOT.glob(pattern))
    return {str(path.relative_to(ROOT)): path.read_text() for path in paths}


def script(name):
    return (HERE / f"{name}.atlas").read_text()


def scripts():
    return texts("tests/refused_memory/*.atlas", "examples/*.atlas")


def long_scripts():
    return texts("tests/scripts/*.atlas")


def cache_scripts():
    return texts("tests/scripts/*.cache")


def snapshots():
    return texts("tests/refused_memory/*.json")


def lookings():
    """The arguments of `./etagere`, and the standard input that goes with them."""
    runs = {f"{command} -": (HERE / "run_atlas.atlas").read_text() for command in ("explain", "stats --json", "save", "watch")}
    others = {
        "explain": (HERE / "wider_buckets.atlas").read_text(),
        f"resume --live {HERE / 'atlas.json'}": "a 12 8\nr 0\na 8 8\n",
        "pack --json 64 64": "a,9,14\n64 64\n3,4\n",
    }
    return runs | others


def short_lives(count):
    """A script of so many commands, of which each second one returns what the one before was given."""
    commands = [f"r {k - 1}" if k % 2 else f"a {9 + k % 7} 9" for k in range(count)]
    return "\n".join(["atlas 512 512 1 1 1 h", *commands]) + "\n"
