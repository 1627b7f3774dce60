"""What a client answers to an authentication. All have one tag: what the server asked for says which of them comes."""

from __future__ import annotations

import hashlib
from dataclasses import dataclass, field
from typing import Self

from ._calls import found, part, put, read_text, sized
from ._library import lib
from .message import AsText, Buffer, FrontendMessage, Text, fill, octets, optional_octets


class AuthenticationResponse(FrontendMessage, tag="p"):
    """An answer to an authentication."""

    __slots__ = ()


@dataclass(frozen=True, slots=True, init=False)
class PasswordMessage(AuthenticationResponse):
    """Answers a request for a password, in clear or as an MD5 digest."""

    password: bytes = field(repr=False)

    def __init__(self, password: Text) -> None:
        fill(self, octets(password))

    @classmethod
    def md5(cls, user: Text, password: Text, salt: Buffer) -> Self:
        """The digest for an AuthenticationMD5Password."""
        inner = hashlib.md5(octets(password) + octets(user)).hexdigest().encode()
        return cls("md5" + hashlib.md5(inner + salt).hexdigest())

    @classmethod
    def _read(cls, body: bytes) -> Self:
        return cls(read_text(body))

    def write(self) -> bytes:
        return put(lib.pgmsg_put_password, *sized(self.password))


@dataclass(frozen=True, slots=True, init=False)
class SASLInitialResponse(AuthenticationResponse):
    """Chooses a mechanism of SASL, and begins by its first data. Without them the server begins."""

    mechanism: bytes
    data: bytes | None = field(repr=False)
    mechanism_text = AsText("mechanism")

    def __init__(self, mechanism: Text, data: Text | None = None) -> None:
        fill(self, octets(mechanism), optional_octets(data))

    @classmethod
    def _read(cls, body: bytes) -> Self:
        initial = found("pgmsg_sasl_initial", lib.pgmsg_read_sasl_initial, body)
        has_data = initial.response.len >= 0
        return cls(part(body, initial.mechanism), part(body, initial.response) if has_data else None)

    def write(self) -> bytes:
        has_data = self.data is not None
        return put(lib.pgmsg_put_sasl_initial, *sized(self.mechanism), has_data, *sized(self.data or b""))


@dataclass(frozen=True, slots=True, init=False)
class ResponseOfData(AuthenticationResponse):
    """Data of an exchange, which are all of the body."""

    data: bytes = field(repr=False)

    def __init__(self, data: Text) -> None:
        fill(self, octets(data))

    @classmethod
    def _read(cls, body: bytes) -> Self:
        return cls(body)

    def write(self) -> bytes:
        return put(lib.pgmsg_put_sasl_response, *sized(self.data))


@dataclass(frozen=True, slots=True, init=False)
class SASLResponse(ResponseOfData):
    """The next data of an exchange of SASL."""


@dataclass(frozen=True, slots=True, init=False)
class GSSResponse(ResponseOfData):
    """Data of an exchange of GSSAPI or SSPI."""
