"""What a server answers to queries: rows, and how they end."""

from __future__ import annotations

from collections.abc import Iterable
from dataclasses import dataclass
from typing import Any, Self

from . import _fast
from ._calls import found, listed, part, put, read, sized
from ._library import ffi, lib
from .message import (
    AsText, BackendMessage, Text, WithoutBody, fill, number, numbers, octets, optional_octets, set_attribute,
    values_of)


@dataclass(frozen=True, slots=True, init=False)
class Column:
    """A column of a result.

    `table` and `attribute` are object id and number of a table's column, or 0. `type_size` is below 0 where it varies.
    `format` is that of the values: 0 as text, 1 as binary.
    """

    name: bytes
    type_id: int
    table: int
    attribute: int
    type_size: int
    type_modifier: int
    format: int
    name_text = AsText("name")

    def __init__(
        self, name: Text, type_id: int, table: int = 0, attribute: int = 0, type_size: int = -1,
        type_modifier: int = -1, format: int = 0,
    ) -> None:
        fill(self, octets(name), number(32, type_id), number(32, table), number(-16, attribute),
             number(-16, type_size), number(-32, type_modifier), number(-16, format))


@dataclass(frozen=True, slots=True, init=False)
class RowDescription(BackendMessage, tag="T"):
    """The columns of a result."""

    columns: tuple[Column, ...]

    def __init__(self, columns: Iterable[Column]) -> None:
        fill(self, tuple(columns))

    @classmethod
    def _read(cls, body: bytes) -> Self:
        return cls(listed(
            "pgmsg_column", lambda room, size: read(lib.pgmsg_read_columns, body, room, size),
            lambda it: Column(
                part(body, it.name), it.type_id, it.table, it.attribute, it.type_size, it.type_modifier, it.format)))

    def write(self) -> bytes:
        held = [ffi.from_buffer("uint8_t[]", it.name) for it in self.columns]
        rows = [
            (name, len(name), it.table, it.attribute, it.type_id, it.type_size, it.type_modifier, it.format)
            for it, name in zip(self.columns, held)
        ]
        return put(lib.pgmsg_put_columns, ffi.new("pgmsg_column_text[]", rows), len(rows))


@dataclass(frozen=True, slots=True, init=False)
class DataRow(BackendMessage, tag="D"):
    """A row, None for NULL. `Stream.rows` reads many at once."""

    values: tuple[bytes | None, ...]

    def __init__(self, values: Iterable[Text | None]) -> None:
        fill(self, values_of(values))

    @classmethod
    def _read(cls, body: bytes) -> Self:
        made = object.__new__(cls)
        set_attribute(made, "values", _fast.cells(body))
        return made

    def write(self) -> bytes:
        return _fast.data_rows((self.values,))


@dataclass(frozen=True, slots=True, init=False)
class CommandComplete(BackendMessage, tag="C"):
    """Ends a command, by its tag, such as `INSERT 0 1`."""

    command: bytes
    command_text = AsText("command")

    def __init__(self, command: Text) -> None:
        fill(self, octets(command))

    @classmethod
    def _read(cls, body: bytes) -> Self:
        # It keeps the memory of its tag.
        command = command_in(body)
        return cls(part(body, command.tag))

    def write(self) -> bytes:
        return put(lib.pgmsg_put_command_complete, *sized(self.command))

    @property
    def rows_affected(self) -> int:
        """The number of rows at the end of the tag, or 0 where there is none."""
        count: int = command_in(self.command + b"\0").rows
        return count


def command_in(body: bytes) -> Any:
    """What a CommandComplete says."""
    return found("pgmsg_command", lib.pgmsg_read_command_complete, body)


@dataclass(frozen=True, slots=True)
class EmptyQueryResponse(WithoutBody, BackendMessage, tag="I"):
    """Answers a query without a statement."""


@dataclass(frozen=True, slots=True)
class ParseComplete(WithoutBody, BackendMessage, tag="1"):
    """Answers a Parse that succeeded."""


@dataclass(frozen=True, slots=True)
class BindComplete(WithoutBody, BackendMessage, tag="2"):
    """Answers a Bind that succeeded."""


@dataclass(frozen=True, slots=True)
class CloseComplete(WithoutBody, BackendMessage, tag="3"):
    """Answers a Close."""


@dataclass(frozen=True, slots=True)
class PortalSuspended(WithoutBody, BackendMessage, tag="s"):
    """Ends an Execute at its limit, where rows are left."""


@dataclass(frozen=True, slots=True)
class NoData(WithoutBody, BackendMessage, tag="n"):
    """Describes a statement or a portal that gives no rows."""


@dataclass(frozen=True, slots=True, init=False)
class ParameterDescription(BackendMessage, tag="t"):
    """The object ids of the types of a statement's parameters."""

    types: tuple[int, ...]

    def __init__(self, types: Iterable[int]) -> None:
        fill(self, numbers(32, types))

    @classmethod
    def _read(cls, body: bytes) -> Self:
        return cls(listed(
            "uint32_t", lambda room, size: read(lib.pgmsg_read_parameter_types, body, room, size), int))

    def write(self) -> bytes:
        return put(lib.pgmsg_put_parameter_types, self.types, len(self.types))


@dataclass(frozen=True, slots=True, init=False)
class FunctionCallResponse(BackendMessage, tag="V"):
    """The result of a function that was called, None for NULL."""

    value: bytes | None

    def __init__(self, value: Text | None) -> None:
        fill(self, optional_octets(value))

    @classmethod
    def _read(cls, body: bytes) -> Self:
        cell = found("pgmsg_cell", lib.pgmsg_read_function_result, body)
        return cls(part(body, cell) if cell.len >= 0 else None)

    def write(self) -> bytes:
        return put(lib.pgmsg_put_function_result, *sized(self.value or b""), self.value is None)
