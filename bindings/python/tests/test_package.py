"""The package as it is installed, its docs, and its examples."""

import contextlib
import doctest
import importlib.machinery
import inspect
import io
import pathlib
import re
import subprocess
import sys
import tempfile
import unittest
from contextlib import redirect_stdout
from unittest import mock

import support
import pgmsg
from pgmsg._library import _binding, lib

FOLDER = pathlib.Path(pgmsg.__file__).parent

SOURCES = "".join(file.read_text() for file in [*(support.TOP / "pgmsg").glob("*.py"), support.TOP / "fast.c"])

# Calls of the header that the package has no need of, with the reason.
LEFT_OUT = {
    "pgmsg_check_utf8": "a `str` of bytes says so itself",
    "pgmsg_next_frames": "a stream gives its messages one by one",
    "pgmsg_put_authentication": "a frame of the method and what follows it is the same, also of GSSAPI",
    "pgmsg_put_md5_password": "a PasswordMessage of the digest is the same",
    "pgmsg_put_portal_name": "names are the caller's",
    "pgmsg_put_statement_name": "names are the caller's",
}


class TestHeader(unittest.TestCase):
    def test_each_call_is_used_or_left_out(self):
        used = set(re.findall(r"\bpgmsg_(?:put|read|next|relay|check|flow)_\w+", SOURCES))
        calls = {name for name in dir(lib) if name.startswith("pgmsg_") and name not in ("pgmsg_version", "pgmsg_strerror")}
        self.assertEqual(calls - used, set(LEFT_OUT))


class TestPackage(unittest.TestCase):
    def test_it_has_its_types(self):
        for name in ("py.typed", "_fast.pyi", "_binding.pyi"):
            self.assertTrue((FOLDER / name).exists(), name)

    def test_it_is_of_the_stable_abi(self):
        self.assertIn(".abi3.", pathlib.Path(_binding.__file__).name)

    def test_all_names_are_exported_and_have_words(self):
        self.assertEqual(sorted(pgmsg.__all__, key=str.casefold), sorted(
            (name for name, it in vars(pgmsg).items() if name[0] != "_" and not inspect.ismodule(it)), key=str.casefold))
        for name in pgmsg.__all__:
            it = getattr(pgmsg, name)
            if callable(it):
                self.assertTrue((it.__doc__ or "").strip() and not it.__doc__.startswith(f"{name}("), name)
        for kind in (pgmsg.Message, pgmsg.ClientStream, pgmsg.ServerStream, pgmsg.Relay, pgmsg.Scram, pgmsg.Login,
                     pgmsg.Connection, pgmsg.ServerConnection, pgmsg.Flow):
            for name, it in inspect.getmembers(kind, inspect.isfunction):
                self.assertTrue(name.startswith("_") or it.__doc__, f"{kind.__name__}.{name}")

    def test_it_is_not_built(self):
        with tempfile.TemporaryDirectory() as folder:
            made = pathlib.Path(folder, "pgmsg")
            made.mkdir()
            for file in FOLDER.glob("*.py"):
                made.joinpath(file.name).write_text(file.read_text())
            found = subprocess.run(
                [sys.executable, "-B", "-c", "import pgmsg"], env={"PYTHONPATH": folder}, capture_output=True, text=True)
            self.assertRegex(found.stderr.splitlines()[-1], "^ImportError: pgmsg isn't built: `pip install`")

    def test_examples_of_the_docs(self):
        found = doctest.testmod(pgmsg)
        self.assertEqual(found.failed, 0)
        self.assertGreater(found.attempted, 4)


class TestDrivers(unittest.TestCase):
    def test_each_message_of_its_table_has_a_class_of_its_name(self):
        rows = re.findall(r"^\| ([A-Z][\w, ]+) \|", (support.TOP.parent / "DRIVERS.md").read_text(), re.MULTILINE)
        names = [name for row in rows for name in row.split(", ")]
        self.assertGreater(len(names), 30)
        self.assertEqual([name for name in names if not issubclass(getattr(pgmsg, name), pgmsg.Message)], [])


class TestReadme(unittest.TestCase):
    STARTUP = pgmsg.StartupMessage({"user": "ann", "database": "shop", "client_encoding": "UTF8"})

    ROWS = [b"T\0\0\0\x06\0\0D\0\0\0\x13\0\3\0\0", b"\0\x015\xff\xff\xff\xff\0\0\0\0C\0\0\0\x0dSELECT 1\0Z\0\0\0\5I", b""]

    def run_program(self, *pieces):
        """What the program sends and prints where a server says this."""
        program = re.search(r"```python\n(.*?)```", (support.TOP / "README.md").read_text(), re.DOTALL)[1]
        server = mock.Mock()
        server.recv.side_effect = pieces
        with redirect_stdout(io.StringIO()) as output, contextlib.suppress(pgmsg.Fault):
            exec(program, {"server": server})
        return b"".join(call.args[0] for call in server.sendall.call_args_list), output.getvalue()

    def test_its_program(self):
        asked = b"R\0\0\0\x08\0\0\0\3", b"R\0\0\0\x08\0\0\0\0Z\0\0\0\5I"
        self.assertEqual(self.run_program(*asked, *self.ROWS), (pgmsg.write(
            self.STARTUP, pgmsg.PasswordMessage("secret"), pgmsg.Query("TABLE people"), pgmsg.Terminate()), "('5', None, '')\n"))

    def test_its_program_where_a_login_is_forged(self):
        for pieces in ([b"Z\0\0\0\5I", *self.ROWS], self.ROWS, [b"R\0\0\0\x17\0\0\0\x0aSCRAM-SHA-256\0\0Z\0\0\0\5I", *self.ROWS]):
            sent, printed = self.run_program(*pieces)
            self.assertEqual((b"people" in sent, printed), (False, ""))

    def test_the_examples_are_short(self):
        for name in ("read_table.py", "read_table_asyncio.py"):
            self.assertLessEqual(len((support.TOP / "examples" / name).read_text().splitlines()), 47)


if __name__ == "__main__":
    unittest.main()
