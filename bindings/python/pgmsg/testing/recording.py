"""Recordings that tests run on, each by a program of its own."""

from __future__ import annotations

import os
import tempfile
from collections.abc import Iterator, Sequence
from contextlib import AbstractContextManager, contextmanager
from dataclasses import dataclass, field
from pathlib import Path
from unittest import mock

from .program import Program, TapeError

# The status of a program that was told to end.
ENDED = 143

# How a line begins that isn't about a difference.
NOTE = "pg_replay: note: "

# How long a recording of no session is, in bytes.
HEAD = 24

# How many seconds pg_replay may take to end after the last session of the recording.
LAST_END = 2.0


class ReplayDiffers(AssertionError):
    """The tests said something else than the recording has, or less. The words are pg_replay's report, with its diff."""


@dataclass(frozen=True)
class Tape:
    """A recording that is being made or replayed, and where its program listens."""

    path: Path
    host: str
    port: int
    is_recorded: bool
    _program: Program = field(repr=False)

    def environment(self) -> dict[str, str]:
        """The variables of libpq that lead a client to the program."""
        return {"PGHOST": self.host, "PGPORT": str(self.port)}

    @contextmanager
    def in_environment(self) -> Iterator[None]:
        """Sets these variables in `os.environ` until the block ends, without PGHOSTADDR, which would lead elsewhere."""
        with mock.patch.dict(os.environ, self.environment()):
            os.environ.pop("PGHOSTADDR", None)
            yield

    def differences(self) -> str:
        """What pg_replay has reported so far: nothing where no client differed, or where the recording is being made."""
        lines = [] if self.is_recorded else self._program.said_since()
        return "\n".join(line for line in lines if not line.endswith(" sessions are replayed") and not line.startswith(NOTE))


def tape(
        path: str | os.PathLike[str], *, record: bool = False, missing: bool = False,
        server: tuple[str, int] | None = None, options: Sequence[str] = (),
        whole: bool = False) -> AbstractContextManager[Tape]:
    """Replays a recording until the block ends, or makes it anew by a server, or only what is `missing` in it.

    A client that differs fails the block by `ReplayDiffers`, or by a note to the block's own exception. Clients may take
    the sessions in any order and repeat them, and need not take all; with `whole` each session has to be taken once.
    A client is refused where it may mean another session whose answer differs, unless `--strict=false` is among the
    `options`, which are more options of pg_replay. `server` is the host and the port of the server, where those of PGHOST and
    PGPORT aren't meant. A new recording takes the place of an old one when the block ends without an exception and the
    server was reached.
    """
    if record:
        return _record(Path(path), server)
    return _renew(Path(path), server, options) if missing else _replay(Path(path), options, whole)


def _address(server: tuple[str, int] | None) -> list[str]:
    """The options that name the server."""
    return [] if server is None else ["-h", server[0], "-p", str(server[1])]


@contextmanager
def _record(path: Path, server: tuple[str, int] | None) -> Iterator[Tape]:
    path.parent.mkdir(parents=True, exist_ok=True)
    # The name is of this run alone: others may record beside it.
    file, name = tempfile.mkstemp(dir=path.parent, prefix=f"{path.name}.")
    os.close(file)
    new = Path(name)
    try:
        with Program("pg_record", *_address(server), "-o", name) as program:
            yield Tape(path, "127.0.0.1", program.port, True, program)
            program.await_quiet()
            # It has words only for what it couldn't pass on or record.
            if program.has_ended() or program.said_since():
                raise program.failed("failed:")
            if new.stat().st_size <= HEAD:
                raise TapeError(
                    f"no client connected to 127.0.0.1 port {program.port}, so nothing is recorded: "
                    "is another address set, or was the connection opened before?")
        new.replace(path)
    finally:
        new.unlink(missing_ok=True)


@contextmanager
def _renew(path: Path, server: tuple[str, int] | None, options: Sequence[str]) -> Iterator[Tape]:
    path.parent.mkdir(parents=True, exist_ok=True)
    order = ["--record-missing", "--any-order", "--again", "--go-on"]
    with Program("pg_replay", *order, *options, *_address(server), str(path)) as program:
        it = Tape(path, "127.0.0.1", program.port, False, program)
        try:
            yield it
            program.await_quiet()
            if it.differences():
                raise ReplayDiffers("\n".join(program.said()))
        except BaseException:
            # Told to end, the program would put into the recording what a run that fails has said.
            program.kill()
            raise
        if program.has_ended() or program.end() != ENDED:
            raise program.failed("failed:")


@contextmanager
def _replay(path: Path, options: Sequence[str], whole: bool) -> Iterator[Tape]:
    if not path.exists():
        raise TapeError(f"no recording {path}")
    order = [] if whole else ["--any-order", "--again"]
    with Program("pg_replay", *order, "--go-on", "--strict", *options, str(path)) as program:
        it = Tape(path, "127.0.0.1", program.port, False, program)
        try:
            yield it
        except Exception as error:
            # What the program reports may come after what it answers.
            program.end()
            if words := it.differences():
                error.add_note(words)
            raise
        is_over = program.has_ended(LAST_END if whole else 0.0)
        status = program.end()
        went_well = is_over and status == 0 if whole else not is_over
        if it.differences() or not went_well:
            raise ReplayDiffers("\n".join(program.said()))
