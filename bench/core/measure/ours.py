#!/usr/bin/env python3
"""Our side, proved and built where it is laid out.

    ours.py OUT    makes the program pg_answers below OUT, and prints where it is
"""

import shutil
import sys
import tempfile
from pathlib import Path

sys.path.insert(0, str(Path(__file__).resolve().parents[3] / "tests/shared"))

import crates
import unproved


def texts(folder):
    """The sources in a folder, by their paths."""
    return {file.relative_to(folder): file.read_text() for file in folder.rglob("*.rt")}


def laid_out(name, out):
    """A crate of programs.txt in a folder of its own, whose sources a compiler reads. They are written only where they
    aren't as they should be, since what was built of older sources is proved and built anew."""
    crate, src = crates.benched()[name], out / name / "src"
    with tempfile.TemporaryDirectory() as copy:
        unproved.copy_crate(crate, Path(copy))
        if texts(Path(copy)) != texts(src):
            shutil.rmtree(src, ignore_errors=True)
            shutil.copytree(copy, src)
    return crates.Crate(name, crate.is_static, crate.names, out / name)


def timed(out):
    """The archives of the functions that are timed."""
    return [crates.archive(laid_out("pg_bench", out)), crates.kit() / "c/liblibc_c.a"]


if __name__ == "__main__":
    parser = crates.arguments(__doc__)
    parser.add_argument("OUT", type=Path)
    print(crates.program(laid_out("pg_answers", parser.parse_args().OUT.resolve())))
