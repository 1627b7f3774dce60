"""Which message may come when, and which request it answers."""

from __future__ import annotations

import enum
from typing import NamedTuple

from ._calls import FAULT, reported
from ._library import ffi, lib
from .message import Message
from .session import TransactionStatus

# The bytes of a tag and a length, of a length alone, and those of a body that are looked at.
HEADER, LENGTH, LOOKED_AT = 5, 4, 6


class Mode(enum.IntEnum):
    """What a session waits for."""

    LOGIN = lib.PGMSG_MODE_LOGIN
    IDLE = lib.PGMSG_MODE_IDLE
    BUSY = lib.PGMSG_MODE_BUSY
    COPY_IN = lib.PGMSG_MODE_COPY_IN
    COPY_OUT = lib.PGMSG_MODE_COPY_OUT
    COPY_BOTH = lib.PGMSG_MODE_COPY_BOTH
    SKIPPING = lib.PGMSG_MODE_SKIPPING
    ENDED = lib.PGMSG_MODE_ENDED


class Kind(enum.IntEnum):
    """What a message of a server is: the answer to a request; a ReadyForQuery for one of several Syncs, some of which were
    said before the end of a COPY's data; part of the login; a notice, a notification or a setting, which comes by itself; or
    the server's last words."""

    BY_ITSELF = lib.PGMSG_HEARD_BY_ITSELF
    ANSWER = lib.PGMSG_HEARD_ANSWER
    GROUP = lib.PGMSG_HEARD_GROUP
    LOGIN = lib.PGMSG_HEARD_LOGIN
    END = lib.PGMSG_HEARD_END


class Whose(NamedTuple):
    """Which request a message of a server answers: the one of the number `request`, or of a GROUP one from `request` to
    `last`. `is_last` says that nothing more comes for it. Where it answers none, they are None and False."""

    kind: Kind
    request: int | None = None
    last: int | None = None
    is_last: bool = False


def parts(message: Message, data: bytes) -> tuple[int | None, bytes]:
    """The tag and the body of a message with its bytes."""
    return message.TAG, data[HEADER if message.TAG else LENGTH :]


KINDS = {int(kind): kind for kind in Kind}

# Those that answer no request.
ALONE = {int(kind): Whose(kind) for kind in (Kind.BY_ITSELF, Kind.LOGIN, Kind.END)}


class Flow:
    """A session, as its client or its server follows it, by the tags and the first bytes of the bodies of its messages.

    The requests are numbered from 0, in the order in which they are said. A message that can't come now is a Fault, which
    changes nothing. Threads don't share one.
    """

    def __init__(self, is_server: bool = False) -> None:
        self._flow = ffi.new("pgmsg_flow *")
        self._number, self._heard, self._fault = ffi.new("uint64_t *"), ffi.new("pgmsg_heard *"), ffi.new(FAULT)
        begin = lib.pgmsg_flow_server if is_server else lib.pgmsg_flow_client
        begin(self._flow)

    def said(self, tag: int | None, body: bytes) -> int | None:
        """Takes a message of the client, and gives the number of a request; None of another message."""
        first = body[:LOOKED_AT]
        found = lib.pgmsg_flow_said(self._flow, tag or 0, first, len(first), self._number, self._fault)
        if found < 0:
            raise reported(found, self._fault)
        return self._number[0] if found else None

    def heard(self, tag: int, body: bytes) -> Whose:
        """Takes a message of the server, and gives whose it is. The byte that answers a request for encryption is a tag, with
        no body."""
        first = body[:LOOKED_AT]
        found = lib.pgmsg_flow_heard(self._flow, tag, first, len(first), self._heard, self._fault)
        if found < 0:
            raise reported(found, self._fault)
        return ALONE.get(found) or Whose(KINDS[found], self._heard.first, self._heard.last, self._heard.is_last)

    @property
    def state(self) -> bytes:
        """All that is known of the session, to go back to."""
        return bytes(ffi.buffer(self._flow))

    @state.setter
    def state(self, state: bytes) -> None:
        if len(state) != ffi.sizeof(self._flow[0]):
            raise ValueError("the state of no flow")
        ffi.memmove(self._flow, state, len(state))

    @property
    def mode(self) -> Mode:
        """What the session waits for."""
        return Mode(self._flow.mode)

    @property
    def status(self) -> TransactionStatus | None:
        """The status that the last ReadyForQuery reported."""
        return TransactionStatus(chr(self._flow.status)) if self._flow.status else None

    @property
    def count(self) -> int:
        """How many requests were said, and the number of the next one."""
        return int(self._flow.count)

    @property
    def first(self) -> int:
        """The number of the first request that waits, or of the next one."""
        return int(self._flow.first)
