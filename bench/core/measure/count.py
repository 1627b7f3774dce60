"""Counts instructions with callgrind, which gives the same in each run."""

import re
import shutil

from cases import CASES
from timing import Program

PASSES = 2

# Go's runtime doesn't run under it.
COUNTED = ("ours", "original", "postgres-protocol")


def total(dump):
    return int(re.search(r"^(?:totals|summary): (\d+)", dump.read_text(), re.M)[1])


def count(words, folder, case, hows):
    """The instructions of a pass of each how, by a side's program."""
    if not shutil.which("valgrind"):
        return {}
    dumps = folder / "callgrind"
    for old in folder.glob("callgrind.*"):
        old.unlink()
    quiet = ["valgrind", "--tool=callgrind", "-q", f"--callgrind-out-file={dumps}"]
    program = Program([*quiet, *words])
    program.ask("load", folder / "input")
    counts = {}
    for index, how in enumerate(hows):
        program.ask("count", how, 0, PASSES)
        first, every = (total(folder / f"callgrind.{2 * index + at}") for at in (1, 2))
        counts[how] = (every - first) / PASSES
    program.close()
    return counts
