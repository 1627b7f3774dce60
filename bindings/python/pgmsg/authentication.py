"""What a server asks of a client that opens a session: the messages Authentication, each a class by its method."""

from __future__ import annotations

from collections.abc import Iterable
from dataclasses import dataclass, field
from functools import partial
from typing import ClassVar, NamedTuple, Self

from ._calls import allocate, found, listed, part, put, read, texts_of
from ._library import ffi, lib
from .fault import Code, Fault
from .message import BackendMessage, Buffer, Text, by, fill, octets

METHOD_LENGTH, SALT_LENGTH = 4, 4


class Authentication(BackendMessage, tag="R"):
    """What the server asks for, of any method: `read` gives a message of the method's class."""

    __slots__ = ()

    METHOD: ClassVar[int | None] = None

    def __init_subclass__(cls, method: int | None = None, tag: str | None = None) -> None:
        super().__init_subclass__(tag)
        if method is not None:
            cls.METHOD = method

    @classmethod
    def _read(cls, body: bytes) -> Self:
        asked = found("pgmsg_authentication", lib.pgmsg_read_authentication, body)
        kind = METHODS.get(asked.method)
        if kind is None:
            raise Fault(Code.UNKNOWN_AUTHENTICATION, f"unknown authentication method: {asked.method}")
        if not issubclass(kind, cls):
            raise Fault(Code.WRONG_FORMAT, f"{asked.method} is no method of {cls.__name__}")
        return kind._of(part(body, asked.content), body)

    @classmethod
    def _of(cls, content: bytes, body: bytes) -> Self:
        """The message of what follows its method in a body."""
        return cls()

    def _written(self, content: bytes = b"") -> bytes:
        body = (self.METHOD or 0).to_bytes(METHOD_LENGTH, "big") + content
        return put(lib.pgmsg_put_frame, self.TAG, body, len(body))

    def write(self) -> bytes:
        return self._written()


@dataclass(frozen=True, slots=True)
class AuthenticationOk(Authentication, method=0):
    """The client is who it says."""


@dataclass(frozen=True, slots=True)
class AuthenticationKerberosV5(Authentication, method=2):
    """Asks for Kerberos V5, as servers before version 9.4 do."""


@dataclass(frozen=True, slots=True)
class AuthenticationCleartextPassword(Authentication, method=3):
    """Asks for a password in clear."""


@dataclass(frozen=True, slots=True, init=False)
class AuthenticationMD5Password(Authentication, method=5):
    """Asks for a password as an MD5 digest with a salt of 4 bytes."""

    salt: bytes

    def __init__(self, salt: Buffer) -> None:
        if len(octets(salt)) != SALT_LENGTH:
            raise ValueError(f"a salt has {SALT_LENGTH} bytes, not {len(octets(salt))}")
        fill(self, octets(salt))

    @classmethod
    def _of(cls, content: bytes, body: bytes) -> Self:
        return cls(body[METHOD_LENGTH : read(partial(lib.pgmsg_read_end, cls.TAG), body)])

    def write(self) -> bytes:
        return self._written(self.salt)


@dataclass(frozen=True, slots=True)
class AuthenticationSCMCredential(Authentication, method=6):
    """Asks for the credentials of a Unix socket, as servers before version 9.1 may do."""


@dataclass(frozen=True, slots=True)
class AuthenticationGSS(Authentication, method=7):
    """Asks for an exchange of GSSAPI."""


@dataclass(frozen=True, slots=True)
class AuthenticationSSPI(Authentication, method=9):
    """Asks for an exchange of SSPI."""


@dataclass(frozen=True, slots=True, init=False)
class AuthenticationSASL(Authentication, method=10):
    """Asks for an exchange of SASL by one of these mechanisms, the best first."""

    mechanisms: tuple[bytes, ...]

    def __init__(self, mechanisms: Iterable[Text]) -> None:
        fill(self, tuple(map(octets, mechanisms)))

    @classmethod
    def _of(cls, content: bytes, body: bytes) -> Self:
        return cls(listed(
            "pgmsg_span", lambda room, size: lib.pgmsg_read_mechanisms(body, len(body), room, size),
            lambda span: part(body, span)))

    def write(self) -> bytes:
        names, count, _held = texts_of(self.mechanisms)
        return put(lib.pgmsg_put_authentication_sasl, names, count)


@dataclass(frozen=True, slots=True, init=False)
class AuthenticationWithData(Authentication):
    """What goes on in an exchange."""

    data: bytes = field(repr=False)

    def __init__(self, data: Text) -> None:
        fill(self, octets(data))

    @classmethod
    def _of(cls, content: bytes, body: bytes) -> Self:
        return cls(content)

    def write(self) -> bytes:
        return self._written(self.data)


@dataclass(frozen=True, slots=True, init=False)
class AuthenticationGSSContinue(AuthenticationWithData, method=8):
    """The next data of an exchange of GSSAPI or SSPI."""


class Challenge(NamedTuple):
    """The challenge of SCRAM. `iterations` is 4096 where no number is given, `salt` and `nonce` are empty where none is."""

    iterations: int
    salt: bytes
    nonce: str


@dataclass(frozen=True, slots=True, init=False)
class AuthenticationSASLContinue(AuthenticationWithData, method=11):
    """The next data of an exchange of SASL."""

    def challenge(self) -> Challenge:
        """The data as a challenge of SCRAM."""
        body = self._written(self.data)[1 + METHOD_LENGTH :]
        answer = ffi.new("pgmsg_challenge *")
        # No part of a body is longer than the body.
        salt, nonce = (allocate("uint8_t[]", len(body)) for _ in range(2))
        read(lib.pgmsg_read_challenge, body, answer, salt, len(body), nonce, len(body))
        return Challenge(
            answer.iterations, bytes(ffi.buffer(salt, answer.salt_len)), str(ffi.buffer(nonce, answer.nonce_len), "utf-8"))


@dataclass(frozen=True, slots=True, init=False)
class AuthenticationSASLFinal(AuthenticationWithData, method=12):
    """The last data of an exchange of SASL."""

    def verifier(self) -> bytes:
        """What proves in SCRAM that the server knows the password."""
        body = self._written(self.data)[1 + METHOD_LENGTH :]
        return bytes(listed(
            "uint8_t", lambda room, size: read(lib.pgmsg_read_verifier, body, room, size), int))


METHODS: dict[int | None, type[Authentication]] = by(
    "METHOD", AuthenticationOk, AuthenticationKerberosV5, AuthenticationCleartextPassword, AuthenticationMD5Password,
    AuthenticationSCMCredential, AuthenticationGSS, AuthenticationGSSContinue, AuthenticationSSPI, AuthenticationSASL,
    AuthenticationSASLContinue, AuthenticationSASLFinal)
