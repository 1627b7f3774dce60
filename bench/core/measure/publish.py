"""Writes what was measured as a file of text, and the main part of it into docs/BENCHMARKS.md."""

import re
import time

from build import CORE, output

# Where the page and its tables are.
BENCH = CORE.parent

# What stands above each table.
HEADS = {
    "times": """Ours over each other's: the median, the first and the last tenth. A ratio above its aim has stars around it, and
misses.txt says why.""",
    "strict": "The time of encode_strict over that of encode_all.",
    "instructions": "Instructions a message, counted by callgrind, which can't run Go.",
    "scale": "One size grows, and the rest stays as it is: in a third of the rounds, in one order.",
}


def processor():
    names = re.findall(r"^model name\s*: (.*)", open("/proc/cpuinfo").read(), re.M)
    return names[0] if names else "an unknown processor"


def measured(rounds, load):
    """When and where, and with what."""
    date = time.strftime("%Y-%m-%d")
    rustc = output("rustc", "--version").split()[1]
    return (
        f"Measured on {date} in {rounds} rounds on one core of {processor()}, at a load of"
        f" {load:.1f}, with rustc {rustc}."
    )


def write(folder, parts, head):
    """All tables, below what holds of all."""
    folder.mkdir(exist_ok=True)
    tables = (f"{HEADS[name]}\n\n{part}\n" for name, part in parts.items())
    (folder / "tables.txt").write_text("\n".join([f"{head}\n", *tables]))


def into_page(main, when):
    """The main table goes between its markers."""
    page = BENCH.parent / "docs/BENCHMARKS.md"
    place = re.compile("(<!-- main -->\n).*?(<!-- /main -->)", re.S)
    text, count = place.subn(lambda found: f"{found[1]}{main}\n\n{when}\n{found[2]}", page.read_text())
    if count != 1:
        raise SystemExit(f"{page} has no place for the main table")
    page.write_text(text)
