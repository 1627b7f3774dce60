"""pg_record and pg_replay as processes: found, started, listened to and ended."""

from __future__ import annotations

import contextlib
import os
import shutil
import subprocess
import tempfile
import time
from pathlib import Path
from types import TracebackType
from typing import Self

# How many seconds a program may take to listen, or to end, which is long where a recording is or where much else runs.
PATIENCE = 60.0

# How the line begins that names the port.
LISTENING = "listening on 127.0.0.1 port "


class TapeError(Exception):
    """Tests can't run on a recording: a program or the recording is missing, or a program failed."""


def find_program(name: str) -> str:
    """The path of pg_record or pg_replay, by the variable PG_RECORD or PG_REPLAY, else by the PATH."""
    variable = name.upper()
    asked = os.environ.get(variable)
    if found := shutil.which(asked or name):
        return found
    if asked:
        raise TapeError(f"the variable {variable} names {asked}, which is no program")
    raise TapeError(f"no {name} on the PATH, and no variable {variable} names one: the package pg-record has it")


class Program:
    """A running program, which listens on a free port of 127.0.0.1 until the block ends."""

    def __init__(self, name: str, *arguments: str) -> None:
        command = [find_program(name), *arguments, "0"]
        self.name = name
        self._words = tempfile.TemporaryFile()
        self._all_words: str | None = None
        self._process = subprocess.Popen(
            command, stdin=subprocess.DEVNULL, stdout=subprocess.DEVNULL, stderr=self._words)
        self.port = 0

    def __enter__(self) -> Self:
        try:
            self.port = self._await_port()
        except BaseException:
            self._close()
            raise
        return self

    def __exit__(self, kind: type[BaseException] | None, error: BaseException | None, trace: TracebackType | None) -> None:
        self._close()

    def said(self) -> list[str]:
        """The lines that the program has written so far, without the one that names the port."""
        before, _, after = self._lines()
        return before + after

    def said_since(self) -> list[str]:
        """Those that it has written since it listens."""
        return self._lines()[2]

    def has_ended(self, seconds: float = 0.0) -> bool:
        """Whether the program ends by itself within some seconds."""
        try:
            self._process.wait(seconds)
        except subprocess.TimeoutExpired:
            return False
        return True

    def await_quiet(self) -> None:
        """Waits until no file of the program has grown for a moment, since clients that are gone may have said more."""
        end, size = time.monotonic() + PATIENCE, -1
        while time.monotonic() < end and size != (size := self._written()):
            time.sleep(0.2)

    def _written(self) -> int:
        """The size of all files that the program holds open, of which some have no name."""
        size = 0
        for file in Path(f"/proc/{self._process.pid}/fd").glob("*"):
            with contextlib.suppress(OSError):
                size += file.stat().st_size
        return size

    def kill(self) -> None:
        """Ends the program at once: pg_replay leaves its recording as it was."""
        self._process.kill()
        self._process.wait()

    def end(self) -> int:
        """Ends the program where it runs, and gives its status."""
        self._process.terminate()
        if not self.has_ended(PATIENCE):
            self._process.kill()
        return self._process.wait()

    def failed(self, what: str) -> TapeError:
        """The error of a program that failed, with what it said."""
        return TapeError("\n".join([f"{self.name} {what}", *self.said()]))

    def _close(self) -> None:
        self.end()
        self._all_words = self._read_words()
        self._words.close()

    def _await_port(self) -> int:
        end = time.monotonic() + PATIENCE
        while time.monotonic() < end:
            is_over = self.has_ended(0.01)
            if port := self._named_port():
                return port
            if is_over:
                raise self.failed(f"ended with status {self._process.returncode}:")
        raise self.failed("doesn't listen:")

    def _named_port(self) -> int | None:
        _, named, _ = self._lines()
        return int(named.removeprefix(LISTENING)) if named else None

    def _lines(self) -> tuple[list[str], str | None, list[str]]:
        """The whole lines before the one that names the port, that one, and those after it."""
        said = self._read_words() if self._all_words is None else self._all_words
        lines = said[:said.rfind("\n") + 1].splitlines()
        for place, line in enumerate(lines):
            if line.startswith(LISTENING):
                return lines[:place], line, lines[place + 1:]
        return lines, None, []

    def _read_words(self) -> str:
        file = self._words.fileno()
        # The process writes at the offset of the file, which has to stay.
        return os.pread(file, os.fstat(file).st_size, 0).decode(errors="replace")
