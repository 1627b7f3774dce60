"""Tests on recordings: pg_replay answers them as the server did, so that they need no database.

    from pgmsg.testing import tape

    with tape("tapes/people.tape") as it, it.in_environment():
        run_what_connects_by_the_variables_of_libpq()

`TapeTestCase` is for unittest, and the fixture `pg_tape` for pytest. The programs are those that the variables PG_RECORD
and PG_REPLAY name, else those of the PATH.
"""

from .program import TapeError
from .recording import ReplayDiffers, Tape, tape
from .unit import TapeTestCase

__all__ = ["ReplayDiffers", "Tape", "TapeError", "TapeTestCase", "tape"]
