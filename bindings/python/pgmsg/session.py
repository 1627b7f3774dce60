"""What a server says of a session: its key, its settings, and whether it is ready."""

from __future__ import annotations

import enum
from collections.abc import Iterable
from dataclasses import dataclass, field
from typing import Self

from ._calls import found, listed, part, put, read, sized, texts_of
from ._library import ffi, lib
from .message import AsText, BackendMessage, Buffer, Text, fill, number, octets


@dataclass(frozen=True, slots=True, init=False)
class BackendKeyData(BackendMessage, tag="K"):
    """What a request to cancel has to name, with a key of 4 bytes, and of up to 256 from protocol 3.2 on."""

    process_id: int
    secret_key: bytes = field(repr=False)

    def __init__(self, process_id: int, secret_key: Buffer) -> None:
        fill(self, number(32, process_id), octets(secret_key))

    @classmethod
    def _read(cls, body: bytes) -> Self:
        key = found("pgmsg_key_data", lib.pgmsg_read_key_data, body)
        return cls(key.process_id, part(body, key.secret_key))

    def write(self) -> bytes:
        return put(lib.pgmsg_put_backend_key_data, self.process_id, *sized(self.secret_key))


@dataclass(frozen=True, slots=True, init=False)
class NegotiateProtocolVersion(BackendMessage, tag="v"):
    """The newest minor version of the protocol's version 3 that the server speaks, and which options it doesn't know.

    The major version stands before the minor one: 3, or 0 where the server sends the minor version alone.
    """

    minor: int
    options: tuple[bytes, ...]
    major: int

    def __init__(self, minor: int, options: Iterable[Text] = (), major: int = 3) -> None:
        fill(self, number(16, minor), tuple(map(octets, options)), number(16, major))

    @classmethod
    def _read(cls, body: bytes) -> Self:
        version = ffi.new("pgmsg_negotiation *")
        options = listed(
            "pgmsg_span", lambda room, size: read(lib.pgmsg_read_negotiate_version, body, version, room, size),
            lambda span: part(body, span))
        return cls(version.minor, options, version.major)

    def write(self) -> bytes:
        options, count, _held = texts_of(self.options)
        made = put(lib.pgmsg_put_negotiate_version, self.minor, options, count)
        # The library writes 3.
        return made[:5] + self.major.to_bytes(2, "big") + made[7:]


@dataclass(frozen=True, slots=True, init=False)
class ParameterStatus(BackendMessage, tag="S"):
    """A setting and its value, at the start of a session and when it changes."""

    name: bytes
    value: bytes
    name_text = AsText("name")
    value_text = AsText("value")

    def __init__(self, name: Text, value: Text) -> None:
        fill(self, octets(name), octets(value))

    @classmethod
    def _read(cls, body: bytes) -> Self:
        status = found("pgmsg_parameter_status", lib.pgmsg_read_parameter_status, body)
        return cls(part(body, status.name), part(body, status.value))

    def write(self) -> bytes:
        return put(lib.pgmsg_put_parameter_status, *sized(self.name, self.value))


class TransactionStatus(enum.Enum):
    """Whether a transaction is open."""

    IDLE = "I"
    IN_TRANSACTION = "T"
    FAILED = "E"


@dataclass(frozen=True, slots=True, init=False)
class ReadyForQuery(BackendMessage, tag="Z"):
    """The server is ready for the next query."""

    status: TransactionStatus

    def __init__(self, status: TransactionStatus = TransactionStatus.IDLE) -> None:
        fill(self, TransactionStatus(status))

    @classmethod
    def _read(cls, body: bytes) -> Self:
        return cls(TransactionStatus(chr(read(lib.pgmsg_read_ready, body))))

    def write(self) -> bytes:
        return put(lib.pgmsg_put_ready, ord(self.status.value))


@dataclass(frozen=True, slots=True, init=False)
class NotificationResponse(BackendMessage, tag="A"):
    """What another session notified of: its process, the channel and what was said."""

    process_id: int
    channel: bytes
    payload: bytes
    channel_text = AsText("channel")
    payload_text = AsText("payload")

    def __init__(self, process_id: int, channel: Text, payload: Text = b"") -> None:
        fill(self, number(32, process_id), octets(channel), octets(payload))

    @classmethod
    def _read(cls, body: bytes) -> Self:
        it = found("pgmsg_notification", lib.pgmsg_read_notification, body)
        return cls(it.process_id, part(body, it.channel), part(body, it.payload))

    def write(self) -> bytes:
        return put(lib.pgmsg_put_notification, self.process_id, *sized(self.channel, self.payload))
