"""What a client asks for: queries, prepared statements and portals."""

from __future__ import annotations

import enum
from array import array
from collections.abc import Iterable
from dataclasses import dataclass
from typing import Any, Callable, ClassVar, Self

from . import _fast
from ._calls import found, listed, part, put, read, read_text, sized
from ._library import ffi, lib
from .message import AsText, FrontendMessage, Text, WithoutBody, fill, number, numbers, octets, values_of


@dataclass(frozen=True, slots=True)
class Flush(WithoutBody, FrontendMessage, tag="H"):
    """Asks for the answers that the server still has to send."""


@dataclass(frozen=True, slots=True)
class Sync(WithoutBody, FrontendMessage, tag="S"):
    """Ends a run of messages: the server answers that it is ready."""


@dataclass(frozen=True, slots=True)
class Terminate(WithoutBody, FrontendMessage, tag="X"):
    """Ends the session."""


@dataclass(frozen=True, slots=True, init=False)
class Query(FrontendMessage, tag="Q"):
    """Runs the statements of a text."""

    query: bytes
    query_text = AsText("query")

    def __init__(self, query: Text) -> None:
        fill(self, octets(query))

    @classmethod
    def _read(cls, body: bytes) -> Self:
        return cls(read_text(body))

    def write(self) -> bytes:
        return put(lib.pgmsg_put_query, *sized(self.query))


@dataclass(frozen=True, slots=True, init=False)
class Parse(FrontendMessage, tag="P"):
    """Prepares a statement, the unnamed one where its name is empty.

    `types` are the object ids of its parameters' types; the server infers those that are 0 or missing.
    """

    query: bytes
    statement: bytes
    types: tuple[int, ...]
    query_text = AsText("query")
    statement_text = AsText("statement")

    def __init__(self, query: Text, statement: Text = b"", types: Iterable[int] = ()) -> None:
        fill(self, octets(query), octets(statement), numbers(32, types))

    @classmethod
    def _read(cls, body: bytes) -> Self:
        it = found("pgmsg_parse", lib.pgmsg_read_parse, body)
        types = listed(
            "uint32_t", lambda room, size: lib.pgmsg_read_types(body, len(body), it.types, room, size), int)
        return cls(part(body, it.query), part(body, it.statement), types)

    def write(self) -> bytes:
        return put(lib.pgmsg_put_parse, *sized(self.statement, self.query), self.types, len(self.types))


@dataclass(frozen=True, slots=True, init=False)
class Bind(FrontendMessage, tag="B"):
    """Makes a portal of a prepared statement and the values of its parameters, None for NULL.

    Formats are 0 for text and 1 for binary: none where all are text, one for all, or one each.
    """

    values: tuple[bytes | None, ...]
    statement: bytes
    portal: bytes
    formats: tuple[int, ...]
    result_formats: tuple[int, ...]
    statement_text = AsText("statement")
    portal_text = AsText("portal")

    def __init__(
        self, values: Iterable[Text | None] = (), statement: Text = b"", portal: Text = b"",
        formats: Iterable[int] = (), result_formats: Iterable[int] = (),
    ) -> None:
        fill(self, values_of(values), octets(statement), octets(portal), numbers(16, formats), numbers(16, result_formats))

    @classmethod
    def _read(cls, body: bytes) -> Self:
        it = ffi.new("pgmsg_bind *")
        values = read_values(lib.pgmsg_read_bind, body, it)
        return cls(
            values, part(body, it.statement), part(body, it.portal), codes_of(body, it.formats),
            codes_of(body, it.result_formats))

    def write(self) -> bytes:
        formats, result_formats = array("H", self.formats), array("H", self.result_formats)
        return _fast.binds((self.values,), self.statement, self.portal, formats, result_formats, None)


class Target(enum.Enum):
    """What is described or closed."""

    STATEMENT = "S"
    PORTAL = "P"


@dataclass(frozen=True, slots=True, init=False)
class OfTarget(FrontendMessage):
    """A message that names a statement or a portal."""

    PUT: ClassVar[Callable[..., int]]
    target: Target
    name: bytes
    name_text = AsText("name")

    def __init__(self, target: Target, name: Text = b"") -> None:
        fill(self, Target(target), octets(name))

    @classmethod
    def _read(cls, body: bytes) -> Self:
        it = found("pgmsg_target", lib.pgmsg_read_target, body)
        return cls(Target(chr(it.letter)), part(body, it.name))

    def write(self) -> bytes:
        return put(type(self).PUT, ord(self.target.value), *sized(self.name))


@dataclass(frozen=True, slots=True, init=False)
class Describe(OfTarget, tag="D"):
    """Asks what a statement or a portal takes and gives."""

    PUT = lib.pgmsg_put_describe


@dataclass(frozen=True, slots=True, init=False)
class Close(OfTarget, tag="C"):
    """Closes a statement or a portal."""

    PUT = lib.pgmsg_put_close


@dataclass(frozen=True, slots=True, init=False)
class Execute(FrontendMessage, tag="E"):
    """Runs a portal, up to `limit` rows.

    0 is for all of them; a server takes a number from 1 << 31 on for all of them too.
    """

    portal: bytes
    limit: int
    portal_text = AsText("portal")

    def __init__(self, portal: Text = b"", limit: int = 0) -> None:
        fill(self, octets(portal), number(32, limit))

    @classmethod
    def _read(cls, body: bytes) -> Self:
        it = found("pgmsg_execute", lib.pgmsg_read_execute, body)
        return cls(part(body, it.portal), it.max_rows)

    def write(self) -> bytes:
        return put(lib.pgmsg_put_execute, *sized(self.portal), self.limit)


@dataclass(frozen=True, slots=True, init=False)
class FunctionCall(FrontendMessage, tag="F"):
    """Calls a function by its object id, with arguments and formats as a Bind has them."""

    object_id: int
    arguments: tuple[bytes | None, ...]
    formats: tuple[int, ...]
    result_format: int

    def __init__(
        self, object_id: int, arguments: Iterable[Text | None] = (), formats: Iterable[int] = (), result_format: int = 0,
    ) -> None:
        fill(self, number(32, object_id), values_of(arguments), numbers(16, formats), number(16, result_format))

    @classmethod
    def _read(cls, body: bytes) -> Self:
        it = ffi.new("pgmsg_function_call *")
        arguments = read_values(lib.pgmsg_read_function_call, body, it)
        return cls(it.function, arguments, codes_of(body, it.formats), it.result_format)

    def write(self) -> bytes:
        held = [ffi.from_buffer("uint8_t[]", value or b"") for value in self.arguments]
        rows = [(it, len(it), value is None) for it, value in zip(held, self.arguments)]
        return put(
            lib.pgmsg_put_function_call, self.object_id, self.formats, len(self.formats), ffi.new("pgmsg_value[]", rows),
            len(rows), self.result_format)


def executions(
    many: Iterable[Iterable[Text | None]], statement: str | bytes = b"", portal: str | bytes = b"",
    formats: Iterable[int] = (), result_formats: Iterable[int] = (), limit: int = 0,
) -> bytes:
    """The bytes of a Bind and an Execute for each of many values, written in one call. A Sync has to follow."""
    return _fast.binds(many, statement, portal, array("H", numbers(16, formats)), array("H", numbers(16, result_formats)), limit)


def read_values(call: Callable[..., int], body: bytes, it: Any) -> tuple[bytes | None, ...]:
    """The values that a call gives, beside what else it finds."""
    return listed(
        "pgmsg_cell", lambda room, size: read(call, body, room, size, it),
        lambda cell: part(body, cell) if cell.len >= 0 else None)


def codes_of(body: bytes, place: Any) -> tuple[int, ...]:
    """The codes of formats in a list of a body."""
    return listed("uint16_t", lambda room, size: lib.pgmsg_read_codes(body, len(body), place, room, size), int)
