"""The first messages of a client, which have no tag."""

from __future__ import annotations

from collections.abc import Iterable, Mapping
from dataclasses import dataclass, field
from typing import Any, ClassVar, Self

from ._calls import found, listed, part, put, sized
from ._library import ffi, lib
from .fault import Code, Fault
from .message import Buffer, FrontendMessage, Text, by, fill, number, octets

# The greatest length of a first message that PostgreSQL's own servers take.
MAX_FIRST_LENGTH: int = lib.PGMSG_MAX_FIRST_LENGTH


class FirstMessage(FrontendMessage):
    """A message without a tag. After a request for encryption comes another one."""

    __slots__ = ()

    TAG: ClassVar[None] = None  # type: ignore[assignment]
    KIND: ClassVar[int | None] = None

    @classmethod
    def _read(cls, body: bytes) -> Self:
        first = found("pgmsg_first", lib.pgmsg_read_first, body)
        kind = FIRSTS[first.kind]
        if not issubclass(kind, cls):
            raise Fault(Code.WRONG_FORMAT, f"a {kind.__name__} is no {cls.__name__}")
        return kind._of(first, body)

    @classmethod
    def _of(cls, first: Any, body: bytes) -> Self:
        """The message that the library found in a body."""
        return cls()


@dataclass(frozen=True, slots=True, init=False)
class StartupMessage(FirstMessage):
    """Opens a session with these parameters, of which the server requires `user`, in the protocol's version 3.minor."""

    KIND: ClassVar[int] = lib.PGMSG_FIRST_STARTUP
    parameters: tuple[tuple[bytes, bytes], ...]
    minor: int

    def __init__(self, parameters: Mapping[str, Text] | Iterable[tuple[Text, Text]], minor: int = 0) -> None:
        pairs = parameters.items() if isinstance(parameters, Mapping) else parameters
        fill(self, tuple((octets(name), octets(value)) for name, value in pairs), number(16, minor))

    @classmethod
    def _of(cls, first: Any, body: bytes) -> Self:
        pairs = listed(
            "pgmsg_parameter_status", lambda room, size: lib.pgmsg_read_settings(body, len(body), room, size),
            lambda it: (part(body, it.name), part(body, it.value)))
        return cls(pairs, first.minor)

    def write(self) -> bytes:
        held = [ffi.from_buffer("uint8_t[]", text) for pair in self.parameters for text in pair]
        rows = [(name, len(name), value, len(value)) for name, value in zip(held[::2], held[1::2])]
        return put(lib.pgmsg_put_startup, self.minor, ffi.new("pgmsg_setting[]", rows), len(rows))

    def text(self, name: str) -> str:
        """The value of a parameter, the last of this name, empty where it isn't there."""
        return str(dict(self.parameters).get(name.encode(), b""), "utf-8")


@dataclass(frozen=True, slots=True)
class SSLRequest(FirstMessage):
    """Asks for encryption by TLS. The server answers with one byte, `S` or `N`, which is no message."""

    KIND: ClassVar[int] = lib.PGMSG_FIRST_SSL_REQUEST

    def write(self) -> bytes:
        return put(lib.pgmsg_put_ssl_request)


@dataclass(frozen=True, slots=True)
class GSSENCRequest(FirstMessage):
    """Asks for encryption by GSSAPI. The server answers with one byte, `G` or `N`, which is no message."""

    KIND: ClassVar[int] = lib.PGMSG_FIRST_GSS_ENC_REQUEST

    def write(self) -> bytes:
        return put(lib.pgmsg_put_gss_enc_request)


@dataclass(frozen=True, slots=True, init=False)
class CancelRequest(FirstMessage):
    """Asks the server to stop what a session does, on a connection of its own, by what its BackendKeyData has."""

    KIND: ClassVar[int] = lib.PGMSG_FIRST_CANCEL_REQUEST
    process_id: int
    secret_key: bytes = field(repr=False)

    def __init__(self, process_id: int, secret_key: Buffer) -> None:
        fill(self, number(32, process_id), octets(secret_key))

    @classmethod
    def _of(cls, first: Any, body: bytes) -> Self:
        return cls(first.process_id, part(body, first.secret_key))

    def write(self) -> bytes:
        return put(lib.pgmsg_put_cancel_request, self.process_id, *sized(self.secret_key))


FIRSTS: dict[int | None, type[FirstMessage]] = by("KIND", StartupMessage, CancelRequest, SSLRequest, GSSENCRequest)
