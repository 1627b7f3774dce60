"""Errors and notices."""

from __future__ import annotations

import enum
import re
from collections.abc import Iterable, Mapping
from dataclasses import dataclass
from typing import Self, TypeAlias

from ._calls import listed, part, put, read
from ._library import ffi, lib
from .message import BackendMessage, Text, fill, number, octets

# Texts by their letters.
Fields: TypeAlias = Mapping[str, Text] | Iterable[tuple[str, Text]]


# Control characters but the tab and the line feed, and those that change the order in which the next ones are shown.
OBEYED = re.compile("[\x00-\x08\x0b-\x1f\x7f-\x9f\u202a-\u202e\u2066-\u2069]")


def printable(text: str) -> str:
    """A text of the server for a terminal, with an escape such as `\\x1b` for each character that the terminal would obey."""
    return OBEYED.sub(lambda found: ascii(found[0])[1:-1], text)


class Severity(enum.IntEnum):
    """How grave an error or a notice is."""

    PANIC = 0
    FATAL = 1
    ERROR = 2
    WARNING = 3
    NOTICE = 4
    DEBUG = 5
    INFO = 6
    LOG = 7


@dataclass(frozen=True, slots=True, init=False)
class WithFields(BackendMessage):
    """Fields in order, each a letter and a text: a client asks for `S`, `C` and `M` at least.

    The texts need not be UTF-8 where the error is one of a login. `str` gives the message as `printable` has it.
    """

    fields: tuple[tuple[str, bytes], ...]

    def __init__(self, fields: Fields) -> None:
        pairs = fields.items() if isinstance(fields, Mapping) else fields
        fill(self, tuple((chr(number(8, ord(letter))), octets(text)) for letter, text in pairs))

    @classmethod
    def _read(cls, body: bytes) -> Self:
        return cls(listed(
            "pgmsg_field", lambda room, size: lib.pgmsg_read_fields(body, len(body), room, size),
            lambda it: (chr(it.letter), part(body, it.value))))

    def write(self) -> bytes:
        held = [ffi.from_buffer("uint8_t[]", text) for _, text in self.fields]
        rows = [(ord(letter), text, len(text)) for (letter, _), text in zip(self.fields, held)]
        return put(lib.pgmsg_put_notice, self.TAG, ffi.new("pgmsg_field_text[]", rows), len(rows))

    def text(self, letter: str) -> str:
        """The text of a field, empty where it isn't there, with U+FFFD for what isn't UTF-8."""
        return str(dict(self.fields).get(letter, b""), "utf-8", "replace")

    def __str__(self) -> str:
        return printable(self.message)

    @property
    def code(self) -> str:
        """The code of SQLSTATE."""
        return self.text("C")

    @property
    def message(self) -> str:
        """What is wrong, for people."""
        return self.text("M")

    @property
    def severity(self) -> Severity:
        """How grave it is, by the field `V`, or by `S` where there is no `V`. A word that isn't known is a Fault in `V`, and
        LOG in `S`. The other fields need not be UTF-8."""
        letter = "V" if "V" in dict(self.fields) else "S"
        words = type(self)([it for it in self.fields if it[0] == letter])
        return Severity(read(lib.pgmsg_read_severity, words.write()[5:]))


@dataclass(frozen=True, slots=True, init=False)
class ErrorResponse(WithFields, tag="E"):
    """Ends a command by an error."""


@dataclass(frozen=True, slots=True, init=False)
class NoticeResponse(WithFields, tag="N"):
    """Says something beside the answers."""
