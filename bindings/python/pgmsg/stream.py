"""Messages out of the pieces that a socket gives."""

from __future__ import annotations

from collections.abc import Iterator
from typing import Any, Generic, TypeVar, overload

from . import _fast
from ._sharing import Shared
from .authentication import (
    Authentication, AuthenticationGSS, AuthenticationGSSContinue, AuthenticationSASL, AuthenticationSASLContinue,
    AuthenticationSSPI)
from .fault import Code, Fault
from .message import BackendMessage, Buffer, Frame, FrontendMessage, Message
from .opening import MAX_FIRST_LENGTH, StartupMessage
from .passwords import AuthenticationResponse, GSSResponse, PasswordMessage, SASLInitialResponse, SASLResponse
from .tags import BACKEND, read_frontend

# The greatest message that PostgreSQL itself sends or takes, and the greatest that there is.
MAX_LENGTH = (1 << 30) - 1
LONGEST = (1 << 31) - 1

# Whose messages a stream has, and how cells are given, as fast.c has these numbers.
OF_SERVER, FIRST_OF_CLIENT, OF_CLIENT = range(3)
KINDS: dict[type, int] = {str: 0, bytes: 1, memoryview: 2}

Cell = TypeVar("Cell", str, bytes, memoryview)
Received = TypeVar("Received", bound=Message)


class Stream(Shared, Generic[Received]):
    """What both sides of a connection share.

    Iterating gives each whole message once, and ends where more bytes are needed: `feed` it, and iterate again. After a
    Fault the place in the stream is lost: close the connection. A message of more than `limit` bytes after its tag is
    refused as soon as its length is there. Threads may share a stream: each message goes to one of them.
    """

    def __init__(self, limit: int = MAX_LENGTH) -> None:
        super().__init__()
        self._limit = min(limit, LONGEST)
        self._data = b""
        self._at = 0
        self._pieces: list[bytes] = []
        self._missing = 0
        self._side = OF_SERVER

    def feed(self, data: Buffer) -> None:
        """Adds bytes of the other side, which are copied where they aren't `bytes`."""
        self._alone(self._add, data if isinstance(data, bytes) else bytes(memoryview(data)))

    def __iter__(self) -> Iterator[Received]:
        while (message := self._alone(self._next)) is not None:
            yield message

    @property
    def held(self) -> bytes:
        """The bytes that no message was made of yet, for what comes after: TLS, or another program."""
        return self._alone(lambda: self._data[self._at :] + b"".join(self._pieces))

    def _add(self, piece: bytes) -> None:
        self._pieces.append(piece)
        self._missing -= len(piece)

    def _next(self) -> Received | None:
        if self._missing > 0:
            return None
        cut = self._cut()
        if isinstance(cut, int) and self._pieces:
            self._join()
            cut = self._cut()
        if isinstance(cut, int):
            self._wait(cut)
            return None
        tag, body, end = cut
        self._check(end - self._at)
        message = self._read(tag, body)
        self._at = end
        return message

    def _cut(self) -> tuple[int, bytes, int] | int:
        """The next message, or how many bytes it needs."""
        return _fast.next_frame(self._data, self._at, self._side, MAX_FIRST_LENGTH)

    def _join(self) -> None:
        """Makes one of what is left and what was fed: only where what is left has no whole message, so that it isn't copied
        each time."""
        self._data = b"".join([self._data[self._at :], *self._pieces])
        self._at = 0
        self._pieces.clear()

    def _wait(self, needed: int) -> None:
        """Remembers how many bytes the next message needs."""
        self._check(needed)
        self._missing = needed - (len(self._data) - self._at)

    def _check(self, length: int) -> None:
        """Refuses a message that is so long, where that is beyond the limit."""
        if length > self._limit + 1:
            raise Fault(Code.FRAME_TOO_LONG, f"expected a message of at most {self._limit} bytes, got {length - 1}")

    def _read(self, tag: int, body: bytes) -> Received:
        raise NotImplementedError


class ClientStream(Stream[BackendMessage]):
    """The messages of a server, as a client receives them. The byte that answers a request for encryption is no message."""

    def _read(self, tag: int, body: bytes) -> BackendMessage:
        # No other tag is cut off a stream.
        return BACKEND[tag]._read(body)

    @overload
    def rows(self) -> list[tuple[str | None, ...]]: ...

    @overload
    def rows(self, kind: type[Cell]) -> list[tuple[Cell | None, ...]]: ...

    def rows(self, kind: Any = str) -> list[tuple[Any, ...]]:
        """The rows that come next, up to a message that is no DataRow or isn't there yet; None for NULL.

        Cells are `str`, `bytes`, or views that keep the bytes that were fed. Rows before a fault are given first.
        """
        return self._alone(self._rows, KINDS[kind])

    def _rows(self, kind: int) -> list[tuple[Any, ...]]:
        if self._missing > 0:
            return []
        rows, at, needed = _fast.rows(self._data, self._at, kind, self._limit + 1)
        if needed and self._pieces:
            self._join()
            rows, at, needed = _fast.rows(self._data, self._at, kind, self._limit + 1)
        if rows:
            self._take_rows()
        self._at = at
        # A row that is too long is refused by the next call, after those before it.
        if needed <= self._limit + 1 or not rows:
            self._wait(needed)
        return rows

    def _take_rows(self) -> None:
        """Refuses rows that may not come now."""

    @overload
    def runs(self) -> Iterator[BackendMessage | list[tuple[str | None, ...]]]: ...

    @overload
    def runs(self, kind: type[Cell]) -> Iterator[BackendMessage | list[tuple[Cell | None, ...]]]: ...

    def runs(self, kind: Any = str) -> Iterator[BackendMessage | list[tuple[Any, ...]]]:
        """As iterating, but rows that come one after the other are a list, as `rows` gives them."""
        while (run := self._alone(self._run, KINDS[kind])) is not None:
            yield run

    def _run(self, kind: int) -> BackendMessage | list[tuple[Any, ...]] | None:
        return self._rows(kind) or self._next()


# What answers what a server asked for, where that isn't a password.
ANSWERS: dict[type[BackendMessage], type[AuthenticationResponse]] = {
    AuthenticationSASL: SASLInitialResponse,
    AuthenticationSASLContinue: SASLResponse,
    AuthenticationGSS: GSSResponse,
    AuthenticationSSPI: GSSResponse,
    AuthenticationGSSContinue: GSSResponse,
}


class ServerStream(Stream[FrontendMessage]):
    """The messages of a client, as a server receives them, from the start of a connection on.

    The first ones have no tag, up to a StartupMessage or a CancelRequest. What a server sends goes through `send`, since
    it decides what an answer to an authentication means.
    """

    def __init__(self, limit: int = MAX_LENGTH) -> None:
        super().__init__(limit)
        self._side = FIRST_OF_CLIENT
        self._answer: type[AuthenticationResponse] = PasswordMessage

    def send(self, *messages: BackendMessage) -> bytes:
        """The bytes of messages to the client."""
        for message in messages:
            if isinstance(message, Authentication):
                self._answer = ANSWERS.get(type(message), PasswordMessage)
        return b"".join([message.write() for message in messages])

    def _read(self, tag: int, body: bytes) -> FrontendMessage:
        is_first = self._side == FIRST_OF_CLIENT
        message = read_frontend(Frame(None if is_first else tag, body), self._answer)
        if isinstance(message, StartupMessage):
            self._side = OF_CLIENT
        return message


def write(*messages: Message) -> bytes:
    """The bytes of messages, one after the other."""
    return b"".join([message.write() for message in messages])
