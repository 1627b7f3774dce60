"""What the classes of messages share."""

from __future__ import annotations

import operator
from collections.abc import Iterable
from typing import Any, ClassVar, NamedTuple, Self, TypeAlias, TypeVar

from ._calls import put, read
from ._library import lib
from .fault import Code, Fault

Buffer: TypeAlias = bytes | bytearray | memoryview

# A text that is sent; a `str` goes out in UTF-8.
Text: TypeAlias = str | Buffer


class Frame(NamedTuple):
    """A message as it was received: its tag, None of a client's first messages, and the bytes after its length."""

    tag: int | None
    body: bytes

    def __repr__(self) -> str:
        # The body may hold a password.
        return f"Frame(tag={self.tag!r}, body=<{len(self.body)} bytes>)"


class Message:
    """A message of the protocol. It never changes, and two of the same parts are equal.

    Texts are `bytes` in the encoding of the session, and each has a twin by the name of `.._text`, a `str`, which raises
    a UnicodeDecodeError where it isn't UTF-8. A class takes a text as `str` or bytes.
    """

    __slots__ = ()

    TAG: ClassVar[int | None] = None

    def __init_subclass__(cls, tag: str | None = None) -> None:
        # A class that `dataclass` makes anew for its slots has the tag of the first one.
        if tag is not None:
            cls.TAG = ord(tag)

    @classmethod
    def read(cls, frame: Frame) -> Self:
        """The message of this class that was received. What breaks the protocol is a Fault; its offset is in the body."""
        if frame.tag != cls.TAG:
            raise Fault(Code.WRONG_FORMAT, f"{tag_name(frame.tag)} is no tag of {cls.__name__}")
        return cls._read(frame.body)

    @classmethod
    def _read(cls, body: bytes) -> Self:
        raise NotImplementedError

    def write(self) -> bytes:
        """The bytes of the message. What can't be sent is a Fault."""
        raise NotImplementedError


class BackendMessage(Message):
    """A message from a server."""

    __slots__ = ()

    TAG: ClassVar[int]


class FrontendMessage(Message):
    """A message from a client."""

    __slots__ = ()

    TAG: ClassVar[int]


class WithoutBody(Message):
    """A message of a tag alone."""

    __slots__ = ()

    @classmethod
    def _read(cls, body: bytes) -> Self:
        read(lib.pgmsg_read_no_body, body)
        return cls()

    def write(self) -> bytes:
        return put(lib.pgmsg_put_no_body, self.TAG)


Kind = TypeVar("Kind", bound=Message)


def by(name: str, *kinds: type[Kind]) -> dict[int | None, type[Kind]]:
    """Classes of messages by an attribute of theirs."""
    return {getattr(kind, name): kind for kind in kinds}


class AsText:
    """A text of a message or a part of one as a `str`."""

    def __init__(self, name: str) -> None:
        self._name = name
        self.__doc__ = f"`{name}` as a `str`."

    def __get__(self, message: object, owner: object = None) -> str:
        if message is None:
            return self  # type: ignore[return-value]
        return str(getattr(message, self._name), "utf-8")


def tag_name(tag: int | None) -> str:
    """A tag in words."""
    return "none" if tag is None else repr(chr(tag))


def octets(text: Text) -> bytes:
    """The bytes of a text."""
    if isinstance(text, str):
        return text.encode()
    # As bytes(5) would be five.
    return text if isinstance(text, bytes) else bytes(memoryview(text))


def optional_octets(text: Text | None) -> bytes | None:
    """The bytes of a value, None of NULL."""
    return None if text is None else octets(text)


def values_of(values: Iterable[Text | None]) -> tuple[bytes | None, ...]:
    """The bytes of values."""
    return tuple([optional_octets(value) for value in values])


# Which a frozen class doesn't refuse.
set_attribute = object.__setattr__


def fill(made: Any, *parts: object) -> None:
    """Gives a new message its parts, in the order of its class."""
    for name, part in zip(made.__match_args__, parts):
        set_attribute(made, name, part)


def numbers(bits: int, given: Iterable[int]) -> tuple[int, ...]:
    """Numbers, each of which fits into so many bits."""
    return tuple([number(bits, it) for it in given])


def number(bits: int, given: int) -> int:
    """A number that fits into so many bits, with a sign where these are below 0."""
    least, end = (-1 << -bits - 1, 1 << -bits - 1) if bits < 0 else (0, 1 << bits)
    whole = operator.index(given)
    if not least <= whole < end:
        raise OverflowError(f"{given} is not a number of {abs(bits)} bits{' with a sign' * (bits < 0)}")
    return whole
