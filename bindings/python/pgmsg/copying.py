"""The messages of a COPY."""

from __future__ import annotations

from collections.abc import Iterable
from dataclasses import dataclass
from typing import Self

from ._calls import listed, put, read, read_text, sized
from ._library import ffi, lib
from .fault import refusal
from .message import AsText, BackendMessage, FrontendMessage, Text, WithoutBody, fill, number, numbers, octets


@dataclass(frozen=True, slots=True, init=False)
class CopyData(FrontendMessage, BackendMessage, tag="d"):
    """A part of the data of a COPY, which need not end where a row ends."""

    data: bytes
    data_text = AsText("data")

    def __init__(self, data: Text) -> None:
        fill(self, octets(data))

    @classmethod
    def _read(cls, body: bytes) -> Self:
        return cls(body)

    def write(self) -> bytes:
        return put(lib.pgmsg_put_copy_data, self.data, len(self.data))


@dataclass(frozen=True, slots=True)
class CopyDone(WithoutBody, FrontendMessage, BackendMessage, tag="c"):
    """Ends the data of a COPY."""


@dataclass(frozen=True, slots=True, init=False)
class CopyFail(FrontendMessage, tag="f"):
    """Fails a COPY, and says why."""

    reason: bytes
    reason_text = AsText("reason")

    def __init__(self, reason: Text) -> None:
        fill(self, octets(reason))

    @classmethod
    def _read(cls, body: bytes) -> Self:
        return cls(read_text(body))

    def write(self) -> bytes:
        return put(lib.pgmsg_put_copy_fail, *sized(self.reason))


@dataclass(frozen=True, slots=True, init=False)
class CopyResponse(BackendMessage):
    """How the data of a COPY is spelled as a whole, and how each of its columns is: 0 as text, 1 as binary."""

    format: int
    columns: tuple[int, ...]

    def __init__(self, format: int = 0, columns: Iterable[int] = ()) -> None:
        fill(self, number(-8, format), numbers(-16, columns))

    @classmethod
    def _read(cls, body: bytes) -> Self:
        response = ffi.new("pgmsg_copy_response *")
        codes = listed(
            "int16_t", lambda room, size: read(lib.pgmsg_read_copy_response, body, response, room, size), int)
        return cls(response.format, codes)

    def write(self) -> bytes:
        return put(lib.pgmsg_put_copy_response, self.TAG, self.format, self.columns, len(self.columns))


@dataclass(frozen=True, slots=True, init=False)
class CopyInResponse(CopyResponse, tag="G"):
    """Waits for the data of a COPY."""


@dataclass(frozen=True, slots=True, init=False)
class CopyOutResponse(CopyResponse, tag="H"):
    """Announces the data of a COPY."""


@dataclass(frozen=True, slots=True, init=False)
class CopyBothResponse(CopyResponse, tag="W"):
    """Begins a COPY both ways, as in replication."""


def copy_head(length: int) -> bytes:
    """The five bytes before so many of the data of a COPY, for a program that sends these after them and copies none."""
    head = ffi.new("uint8_t[5]")
    refused = lib.pgmsg_put_copy_head(number(64, length), head)
    if refused < 0:
        raise refusal(refused)
    return bytes(head)
