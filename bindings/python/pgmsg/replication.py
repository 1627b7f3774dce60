"""What the data of a CopyData says while a server streams its log or a backup, by PostgreSQL's page "Streaming
Replication Protocol".

A position counts the bytes of the log, and a clock the microseconds since the beginning of the year 2000.

    >>> from pgmsg import replication
    >>> replication.read(b"k" + (96).to_bytes(8, "big") + (7).to_bytes(8, "big") + b"\\1")
    PrimaryKeepalive(end=96, clock=7, wants_reply=True)
    >>> replication.Manifest().write()
    b'd\\x00\\x00\\x00\\x05m'
"""

from __future__ import annotations

from dataclasses import dataclass, fields
from typing import Any, ClassVar, Self

from ._calls import found, part, put
from ._library import ffi, lib
from .fault import Code, Fault
from .message import AsText, BackendMessage, Buffer, FrontendMessage, number, octets, set_attribute

__all__ = [
    "BackupData", "HotStandbyFeedback", "Manifest", "NewArchive", "PrimaryKeepalive", "Progress", "ReplicationMessage",
    "StandbyStatusUpdate", "XLogData", "read",
]

# The bits of each number, with a sign below 0.
BITS = dict.fromkeys(("start", "end", "written", "flushed", "applied", "processed"), 64) | {"clock": -64} | dict.fromkeys(
    ("xmin", "xmin_epoch", "catalog_xmin", "catalog_xmin_epoch"), 32)

TEXTS = ("name", "location", "content")


class ReplicationMessage(FrontendMessage, BackendMessage, tag="d"):
    """A message of replication, which is a CopyData: `read` gives one of the class that its first byte says."""

    __slots__ = ()

    LETTER: ClassVar[str]

    def __init_subclass__(cls, letter: str | None = None, tag: str | None = None) -> None:
        super().__init_subclass__(tag)
        # A class that `dataclass` makes anew for its slots has the letter of the first one.
        if letter is not None:
            cls.LETTER = letter

    def __post_init__(self) -> None:
        for name, given in self._parts():
            made = number(BITS[name], given) if name in BITS else octets(given) if name in TEXTS else bool(given)
            set_attribute(self, name, made)

    def _parts(self) -> list[tuple[str, Any]]:
        """The names of the parts, which are those of the header, and their values."""
        return [(it.name, getattr(self, it.name)) for it in fields(self)]

    @classmethod
    def _read(cls, body: bytes) -> Self:
        message = found("pgmsg_replication", lib.pgmsg_read_replication, body)
        kind = KINDS[chr(message.letter)]
        if not issubclass(kind, cls):
            raise Fault(Code.WRONG_FORMAT, f"{chr(message.letter)!r} is no letter of {cls.__name__}")
        parts = [(name, getattr(message, name)) for name in kind.__match_args__]  # type: ignore[attr-defined]
        return kind(*(part(body, given) if name in TEXTS else given for name, given in parts))

    def write(self) -> bytes:
        message = ffi.new("pgmsg_replication_text *", {"letter": ord(self.LETTER)})
        # What the struct points to.
        held = []
        for name, given in self._parts():
            if name in TEXTS:
                held.append(ffi.from_buffer("uint8_t[]", given))
                given = held[-1]
                setattr(message, f"{name}_len", len(given))
            setattr(message, name, given)
        return put(lib.pgmsg_put_replication, message)


@dataclass(frozen=True, slots=True)
class XLogData(ReplicationMessage, letter="w"):
    """A piece of the log, the position at which it begins and that at which the log ends, and the server's clock."""

    start: int
    end: int
    clock: int
    content: bytes


@dataclass(frozen=True, slots=True)
class PrimaryKeepalive(ReplicationMessage, letter="k"):
    """Where the server's log ends, its clock, and whether the client is to answer at once."""

    end: int
    clock: int
    wants_reply: bool = False


@dataclass(frozen=True, slots=True)
class StandbyStatusUpdate(ReplicationMessage, letter="r"):
    """The positions after the last byte that a client has written, flushed and applied, its clock, and whether the server
    is to answer at once."""

    written: int
    flushed: int
    applied: int
    clock: int
    wants_reply: bool = False


@dataclass(frozen=True, slots=True)
class HotStandbyFeedback(ReplicationMessage, letter="h"):
    """A client's clock, and the oldest transactions that it and its slots need, each with its epoch, and 0 for none."""

    clock: int
    xmin: int
    xmin_epoch: int
    catalog_xmin: int
    catalog_xmin_epoch: int


@dataclass(frozen=True, slots=True)
class NewArchive(ReplicationMessage, letter="n"):
    """An archive of a backup begins, which is a tar file: its name, and the folder of its tablespace, which is empty for the
    main folder of the data."""

    name: bytes
    location: bytes = b""
    name_text = AsText("name")
    location_text = AsText("location")


@dataclass(frozen=True, slots=True)
class Manifest(ReplicationMessage, letter="m"):
    """The manifest of a backup begins."""


@dataclass(frozen=True, slots=True)
class BackupData(ReplicationMessage, letter="d"):
    """Bytes of the archive or of the manifest that began last."""

    content: bytes


@dataclass(frozen=True, slots=True)
class Progress(ReplicationMessage, letter="p"):
    """How many bytes of a backup were processed, before they were compressed."""

    processed: int


OF_ALL: tuple[type[ReplicationMessage], ...] = (
    XLogData, PrimaryKeepalive, StandbyStatusUpdate, HotStandbyFeedback, NewArchive, Manifest, BackupData, Progress)

KINDS = {kind.LETTER: kind for kind in OF_ALL}


def read(data: Buffer) -> ReplicationMessage:
    """The message that is all of the data of a CopyData."""
    return ReplicationMessage._read(octets(data))
