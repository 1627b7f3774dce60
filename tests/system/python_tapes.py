"""Tests of pgmsg.testing, by psql and a server.

The variables of libpq have to name a server, and PG_RECORD and PG_REPLAY the programs, as python.sh sets them.
"""

import contextlib
import importlib.util
import os
import pathlib
import subprocess
import sys
import tempfile
import unittest
from unittest import mock

from pgmsg.testing import ReplayDiffers, TapeError, tape

ASK = """
import os, subprocess

def ask(query):
    return subprocess.run(["psql", "-XqAtc", query], capture_output=True, text=True, check=True).stdout
"""

# Two tests, of which the second says what NUMBER has.
OF_UNITTEST = ASK + """
from pgmsg.testing import TapeTestCase

class TestNumbers(TapeTestCase):
    def test_one(self):
        self.assertEqual(ask("SELECT 1"), "1\\n")

    def test_two(self):
        self.assertEqual(ask("SELECT " + os.environ.get("NUMBER", "2")), "2\\n")
"""

OF_PYTEST = ASK + """
def test_one(pg_tape):
    assert os.environ["PGPORT"] == str(pg_tape.port)
    assert ask("SELECT 1") == "1\\n"

def test_two(pg_tape):
    assert ask("SELECT " + os.environ.get("NUMBER", "2")) == "2\\n"
"""

DIFF = "query: SELECT [-2-]{+3+}"

NO_SERVER = {"PGHOST": "127.0.0.1", "PGPORT": "1"}


def ask(it, *queries):
    """What psql gives for queries, by a program of `tape`."""
    environment = os.environ | it.environment()
    arguments = [word for query in queries for word in ("-c", query)]
    return subprocess.run(["psql", "-XqAt", *arguments], env=environment, capture_output=True, text=True).stdout


class InFolder(unittest.TestCase):
    def setUp(self):
        self.folder = pathlib.Path(self.enterContext(tempfile.TemporaryDirectory()))
        self.path = self.folder / "tapes" / "numbers.tape"

    def record(self, *queries):
        with tape(self.path, record=True) as it:
            return [ask(it, query) for query in queries]

    def run_suite(self, content, *arguments, **variables):
        """Runs tests in a process: its status, and what it wrote."""
        (self.folder / "test_numbers.py").write_text(content)
        environment = os.environ | {"PYTHONDONTWRITEBYTECODE": "1"} | variables
        found = subprocess.run(
            [sys.executable, "-m", *arguments], cwd=self.folder, env=environment, capture_output=True, text=True)
        return found.returncode, found.stdout + found.stderr


class TestTape(InFolder):
    def test_it_is_recorded_and_replayed(self):
        self.assertEqual(self.record("SELECT 1", "SELECT 2"), ["1\n", "2\n"])
        with mock.patch.dict(os.environ, NO_SERVER), tape(self.path) as it:
            self.assertEqual([ask(it, "SELECT 2"), ask(it, "SELECT 1"), ask(it, "SELECT 2")], ["2\n", "1\n", "2\n"])
            self.assertEqual(it.differences(), "")
        self.assertEqual([file.name for file in self.path.parent.iterdir()], ["numbers.tape"])

    def test_a_server_that_no_variable_names(self):
        server = os.environ["PGHOST"], int(os.environ["PGPORT"])
        with mock.patch.dict(os.environ, NO_SERVER), tape(self.path, record=True, server=server) as it:
            self.assertEqual(ask(it, "SELECT 1"), "1\n")

    def test_it_is_in_the_environment(self):
        self.record("SELECT 1")
        self.enterContext(mock.patch.dict(os.environ, {"PGHOSTADDR": "127.0.0.2"}))
        before = dict(os.environ)
        with tape(self.path) as it, it.in_environment():
            self.assertEqual((os.environ["PGHOST"], os.environ["PGPORT"]), (it.host, str(it.port)))
            self.assertNotIn("PGHOSTADDR", os.environ)
        self.assertEqual(dict(os.environ), before)

    def test_a_difference(self):
        self.record("SELECT 2")
        with self.assertRaises(ReplayDiffers) as failed, tape(self.path) as it:
            ask(it, "SELECT 3")
        self.assertIn(DIFF, str(failed.exception))

    def test_a_difference_that_an_option_allows(self):
        self.record("SELECT 2")
        with tape(self.path, options=["--any-literal", "number"]) as it:
            self.assertEqual(ask(it, "SELECT 3"), "2\n")

    def test_an_answer_that_may_be_another_sessions(self):
        self.record("SELECT 1", "SELECT 2")
        options = ["--any-literal", "number"]
        with self.assertRaisesRegex(ReplayDiffers, "a client may mean either: SELECT 1"), tape(self.path, options=options) as it:
            self.assertEqual(ask(it, "SELECT 2"), "")
        with tape(self.path, options=[*options, "--strict=false"]) as it:
            self.assertEqual((ask(it, "SELECT 2"), it.differences()), ("1\n", ""))

    def test_a_difference_is_noted_where_the_block_fails(self):
        self.record("SELECT 2")
        with self.assertRaises(KeyError) as failed, tape(self.path) as it:
            raise KeyError(ask(it, "SELECT 3"))
        self.assertIn(DIFF, failed.exception.__notes__[0])

    def test_a_session_that_is_not_taken(self):
        self.record("SELECT 1", "SELECT 2")
        with tape(self.path, whole=True) as it:
            self.assertEqual([ask(it, "SELECT 2"), ask(it, "SELECT 1")], ["2\n", "1\n"])
        with self.assertRaisesRegex(ReplayDiffers, "1 of 2 sessions are replayed"), tape(self.path, whole=True) as it:
            ask(it, "SELECT 1")

    def test_a_recording_stays_where_the_block_fails_or_no_server_is_reached(self):
        self.record("SELECT 1")
        before = self.path.read_bytes()
        with self.assertRaises(KeyError), tape(self.path, record=True) as it:
            raise KeyError(ask(it, "SELECT 2"))
        with mock.patch.dict(os.environ, NO_SERVER), self.assertRaisesRegex(TapeError, "no connection to 127.0.0.1 port 1"):
            self.record("SELECT 1")
        with self.assertRaisesRegex(TapeError, "no client connected to 127.0.0.1 port"):
            self.record()
        self.assertEqual((self.path.read_bytes(), len(list(self.path.parent.iterdir()))), (before, 1))

    def test_only_what_is_not_recorded_is_recorded(self):
        with tape(self.path, missing=True) as it:
            self.assertEqual([ask(it, "SELECT 1"), ask(it, "SELECT 2", "SELECT 3")], ["1\n", "2\n3\n"])
        with tape(self.path, missing=True) as it:
            self.assertEqual([ask(it, "SELECT 1"), ask(it, "SELECT 2", "SELECT 4"), ask(it, "SELECT 5")], ["1\n", "2\n4\n", "5\n"])
            self.assertEqual(it.differences(), "")
        with mock.patch.dict(os.environ, NO_SERVER), tape(self.path, whole=True) as it:
            self.assertEqual([ask(it, "SELECT 1"), ask(it, "SELECT 2", "SELECT 4"), ask(it, "SELECT 5")], ["1\n", "2\n4\n", "5\n"])
        self.assertEqual([file.name for file in self.path.parent.iterdir()], ["numbers.tape"])

    def test_a_session_is_renewed_though_another_client_has_its_login(self):
        with tape(self.path, record=True) as it:
            self.assertEqual([ask(it, "SELECT 0", "SELECT 1"), ask(it, "SELECT 0", "SELECT 2", "SELECT 3")], ["0\n1\n", "0\n2\n3\n"])
        with tape(self.path, missing=True) as it:
            self.assertEqual([ask(it, "SELECT 0", "SELECT 2", "SELECT 4"), ask(it, "SELECT 0", "SELECT 1")], ["0\n2\n4\n", "0\n1\n"])
        with mock.patch.dict(os.environ, NO_SERVER), tape(self.path, whole=True) as it:
            self.assertEqual([ask(it, "SELECT 0", "SELECT 1"), ask(it, "SELECT 0", "SELECT 2", "SELECT 4")], ["0\n1\n", "0\n2\n4\n"])

    def test_a_new_session_is_recorded_beside_those_that_are_not_taken(self):
        self.record("SELECT 1", "SELECT 2")
        with tape(self.path, missing=True) as it:
            self.assertEqual(ask(it, "SELECT 3"), "3\n")
        with mock.patch.dict(os.environ, NO_SERVER), tape(self.path, whole=True) as it:
            self.assertEqual([ask(it, f"SELECT {number}") for number in (1, 2, 3)], ["1\n", "2\n", "3\n"])

    def test_nothing_more_is_recorded_where_no_server_is_reached(self):
        self.record("SELECT 2")
        before = self.path.read_bytes()
        with mock.patch.dict(os.environ, NO_SERVER), self.assertRaises(ReplayDiffers) as failed, \
                tape(self.path, missing=True) as it:
            ask(it, "SELECT 3")
        self.assertIn(DIFF, str(failed.exception))
        self.assertEqual((self.path.read_bytes(), len(list(self.path.parent.iterdir()))), (before, 1))

    def test_runs_at_once_add_what_each_records(self):
        self.record("SELECT 1")
        with contextlib.ExitStack() as runs:
            one, other = (runs.enter_context(tape(self.path, missing=True)) for _ in range(2))
            with self.assertRaises(KeyError), tape(self.path, missing=True) as failing:
                self.assertEqual([ask(one, "SELECT 2"), ask(other, "SELECT 3")], ["2\n", "3\n"])
                raise KeyError(ask(failing, "SELECT 4"))
        with mock.patch.dict(os.environ, NO_SERVER), tape(self.path, whole=True) as it:
            self.assertEqual([ask(it, f"SELECT {number}") for number in (1, 2, 3)], ["1\n", "2\n", "3\n"])
        self.assertEqual([file.name for file in self.path.parent.iterdir()], ["numbers.tape"])

    def test_recordings_at_once_are_whole(self):
        with tape(self.path, record=True) as one:
            self.assertEqual(ask(one, "SELECT 1"), "1\n")
            with tape(self.path, record=True) as other:
                self.assertEqual(ask(other, "SELECT 2"), "2\n")
            self.assertEqual(ask(one, "SELECT 3"), "3\n")
        with mock.patch.dict(os.environ, NO_SERVER), tape(self.path, whole=True) as it:
            self.assertEqual([ask(it, "SELECT 1"), ask(it, "SELECT 3")], ["1\n", "3\n"])

    def test_what_is_missing(self):
        with self.assertRaisesRegex(TapeError, f"^no recording {self.path}$"), tape(self.path):
            pass
        self.record("SELECT 1")
        with mock.patch.dict(os.environ, {"PG_REPLAY": "/no/program"}), \
                self.assertRaisesRegex(TapeError, "PG_REPLAY names /no/program, which is no program"), tape(self.path):
            pass
        with mock.patch.dict(os.environ, {"PATH": ""}), self.assertRaisesRegex(TapeError, "no pg_record on the PATH"):
            del os.environ["PG_RECORD"]
            self.record()

    def test_what_fails(self):
        self.path.parent.mkdir()
        self.path.write_bytes(b"no recording")
        with self.assertRaisesRegex(TapeError, "pg_replay ended with status 10:\n.*numbers.tape"), tape(self.path):
            pass


class TestUnittest(InFolder):
    def test_it_is_recorded_and_replayed(self):
        arguments = "unittest", "test_numbers"
        self.assertIn("`PG_TAPE=record python3 -m unittest test_numbers.TestNumbers`", self.run_suite(OF_UNITTEST, *arguments)[1])
        self.assertEqual(self.run_suite(OF_UNITTEST, *arguments, PG_TAPE="record")[0], 0)
        self.assertTrue((self.folder / "tapes" / "test_numbers.TestNumbers.tape").exists())
        self.assertEqual(self.run_suite(OF_UNITTEST, *arguments, **NO_SERVER)[0], 0)
        status, words = self.run_suite(OF_UNITTEST, *arguments, NUMBER="3", **NO_SERVER)
        self.assertEqual(status, 1)
        self.assertIn(DIFF, words)
        self.assertEqual(self.run_suite(OF_UNITTEST, *arguments, NUMBER="1 + 1", PG_TAPE="missing")[0], 0)
        self.assertEqual(self.run_suite(OF_UNITTEST, *arguments, NUMBER="1 + 1", **NO_SERVER)[0], 0)


@unittest.skipUnless(importlib.util.find_spec("pytest"), "no pytest (apt-get install python3-pytest)")
class TestPytest(InFolder):
    def run_pytest(self, *arguments, **variables):
        return self.run_suite(OF_PYTEST, "pytest", "-p", "no:cacheprovider", *arguments, **variables)

    def test_it_is_recorded_and_replayed(self):
        status, words = self.run_pytest()
        self.assertEqual(status, 1)
        self.assertIn(f"`pytest --pg-record {self.folder / 'test_numbers.py'}`", words)
        self.assertEqual(self.run_pytest("--pg-record")[0], 0)
        self.assertTrue((self.folder / "tapes" / "test_numbers.tape").exists())
        self.assertEqual(self.run_pytest("--pg-whole", **NO_SERVER)[0], 0)
        self.assertEqual(self.run_pytest("-k", "two", **NO_SERVER)[0], 0)

    def test_only_a_new_test_is_recorded(self):
        for first, others in [("one", ()), ("two", ("-k", "one"))]:
            (self.folder / "tapes" / "test_numbers.tape").unlink(missing_ok=True)
            self.assertEqual(self.run_pytest("--pg-record-missing", "-k", first)[0], 0)
            self.assertEqual(self.run_pytest("--pg-record-missing", *others)[0], 0)
            self.assertEqual(self.run_pytest("--pg-whole", **NO_SERVER)[0], 0)

    @unittest.skipUnless(importlib.util.find_spec("xdist"), "no pytest-xdist (apt-get install python3-pytest-xdist)")
    def test_workers_of_xdist(self):
        status, words = self.run_pytest("--pg-record", "-n", "2")
        self.assertEqual((status, "--dist loadfile" in words), (4, True), words)
        self.assertEqual(self.run_pytest("--pg-record", "-n", "2", "--dist", "loadfile")[0], 0)
        self.assertEqual(self.run_pytest("--pg-whole", **NO_SERVER)[0], 0)
        for _ in range(5):
            (self.folder / "tapes" / "test_numbers.tape").unlink()
            self.assertEqual(self.run_pytest("--pg-record-missing", "-n", "2")[0], 0)
            self.assertEqual(self.run_pytest("--pg-whole", **NO_SERVER), (0, mock.ANY))

    def test_a_difference(self):
        self.assertEqual(self.run_pytest("--pg-record")[0], 0)
        status, words = self.run_pytest(NUMBER="3", **NO_SERVER)
        self.assertEqual(status, 1)
        self.assertRegex(words, "1 failed, 1 passed, 1 error")
        of_error, _, of_test = words.partition("= FAILURES =")
        self.assertIn(DIFF, of_error)
        self.assertIn(DIFF, of_test.partition("- pg_replay -")[2])
        status, words = self.run_pytest("--pg-whole", "-k", "two", **NO_SERVER)
        self.assertEqual(status, 1)
        self.assertIn("1 of 2 sessions are replayed", words)


if __name__ == "__main__":
    unittest.main()
