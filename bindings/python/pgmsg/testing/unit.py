"""Recordings for unittest."""

from __future__ import annotations

import os
import sys
import unittest
from collections.abc import Sequence
from pathlib import Path
from typing import ClassVar

from .program import TapeError
from .recording import Tape, tape


def check_recorded(path: Path, command: str) -> None:
    """Raises a TapeError that names the command which makes a recording, where there is none."""
    if not path.exists():
        raise TapeError(f"no recording {path}: `{command}` makes it, with a server that PGHOST and PGPORT name")


class TapeTestCase(unittest.TestCase):
    """Tests that run on a recording: tapes/MODULE.CLASS.tape beside their module.

    PGHOST and PGPORT lead to it while the tests of the class run. With the variable PG_TAPE=record the tests run with the
    server that these named before, and are recorded anew; with PG_TAPE=missing only what isn't recorded is. It mixes with
    other classes of tests, which come after it.
    """

    tape: ClassVar[Tape]
    # More options of pg_replay, and whether the tests have to take each session of the recording once.
    tape_options: ClassVar[Sequence[str]] = ()
    tape_whole: ClassVar[bool] = False

    @classmethod
    def setUpClass(cls) -> None:
        asked = os.environ.get("PG_TAPE")
        module = Path(sys.modules[cls.__module__].__file__ or "")
        path = module.parent / "tapes" / f"{module.stem}.{cls.__name__}.tape"
        if asked not in ("record", "missing"):
            check_recorded(path, f"PG_TAPE=record python3 -m unittest {module.stem}.{cls.__name__}")
        cls.tape = cls.enterClassContext(tape(
            path, record=asked == "record", missing=asked == "missing", options=cls.tape_options,
            whole=cls.tape_whole))
        cls.enterClassContext(cls.tape.in_environment())
        super().setUpClass()
