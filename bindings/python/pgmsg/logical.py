"""What a server streams of the changes of its tables, by PostgreSQL's page "Logical Replication Message Formats", in the
versions 1 to 3 of the protocol: the content of an XLogData of a logical slot of pgoutput, or a row of
`pg_logical_slot_get_binary_changes`.

A position counts the bytes of the log, and a clock the microseconds since the beginning of the year 2000.

    >>> from pgmsg import logical
    >>> logical.read(b"I\\0\\0\\x40\\1N\\0\\2t\\0\\0\\0\\x015n")
    Insert(relation=16385, new=(Text(value=b'5'), None), transaction=None)
    >>> stream = logical.LogicalStream()
    >>> stream.read(b"S\\0\\0\\2\\xf0\\1")
    StreamStart(transaction=752, is_first=True)
    >>> stream.read(b"T\\0\\0\\2\\xf1\\0\\0\\0\\1\\0\\0\\0\\x40\\1")
    Truncate(options=0, relations=(16385,), transaction=753)
    >>> logical.Insert(16385, (logical.Text(b"5"), None)).write()
    b'I\\x00\\x00@\\x01N\\x00\\x02t\\x00\\x00\\x00\\x015n'
"""

from __future__ import annotations

import enum
from collections.abc import Iterable
from dataclasses import dataclass
from typing import Any, ClassVar, Literal, TypeAlias

from ._calls import FEW, allocate, listed, part, put
from ._calls import read as call
from ._library import ffi, lib
from ._sharing import Shared
from .message import AsText, Buffer, fill, number, numbers, octets, set_attribute

__all__ = [
    "UNCHANGED", "Begin", "BeginPrepare", "Binary", "Column", "Commit", "CommitPrepared", "Datum", "Delete", "Insert", "Key",
    "LogicalMessage", "LogicalStream", "Message", "Old", "Origin", "Prepare", "Relation", "RollbackPrepared", "Row",
    "StreamAbort", "StreamCommit", "StreamPrepare", "StreamStart", "StreamStop", "Text", "Truncate", "TypeName", "Unchanged",
    "Update", "Whole", "read",
]


class Unchanged(enum.Enum):
    """What stands for a large value that wasn't changed, and isn't sent."""

    UNCHANGED = enum.auto()


UNCHANGED: Literal[Unchanged.UNCHANGED] = Unchanged.UNCHANGED


@dataclass(frozen=True, slots=True)
class Sent:
    """The value of a column that is sent."""

    value: bytes

    def __post_init__(self) -> None:
        set_attribute(self, "value", octets(self.value))


@dataclass(frozen=True, slots=True)
class Text(Sent):
    """The value of a column as text."""

    value_text = AsText("value")


@dataclass(frozen=True, slots=True)
class Binary(Sent):
    """The value of a column in the binary format of its type."""


# None is NULL, or in a key a column that isn't part of it.
Datum: TypeAlias = Text | Binary | Literal[Unchanged.UNCHANGED] | None

# The values of the columns of a row, in order.
Row: TypeAlias = tuple[Datum, ...]


@dataclass(frozen=True, slots=True)
class Before:
    """What is sent of a row before its change."""

    values: Row

    def __post_init__(self) -> None:
        set_attribute(self, "values", row(self.values))


@dataclass(frozen=True, slots=True)
class Key(Before):
    """What is sent of a row before its change: the columns of its key; the others are None."""


@dataclass(frozen=True, slots=True)
class Whole(Before):
    """All columns of a row before its change, of a table whose replica identity is FULL."""


Old: TypeAlias = Key | Whole


@dataclass(frozen=True, slots=True)
class Column:
    """A column of a table: flags, 1 where it is a part of the key, its name, the number of its type, and the type's
    modifier."""

    flags: int
    name: bytes
    type_id: int
    type_modifier: int
    name_text = AsText("name")

    def __post_init__(self) -> None:
        keep_parts(self, ("flags", "name", "type_id", "type_modifier"))


class LogicalMessage:
    """A message of logical replication: `read` gives one of the class that its first byte says.

    Seven kinds have the number of their `transaction` where it is streamed, and else None.
    """

    __slots__ = ()

    LETTER: ClassVar[str]

    # The parts of the header's struct, in the order of the fields.
    PARTS: ClassVar[tuple[str, ...]]

    def __init_subclass__(cls, letter: str | None = None, parts: str = "") -> None:
        # A class that `dataclass` makes anew for its slots has those of the first one.
        if letter is not None:
            cls.LETTER, cls.PARTS = letter, tuple(parts.split())

    def __post_init__(self) -> None:
        keep_parts(self, self.PARTS)

    def write(self) -> bytes:
        """The message, as the content of an XLogData."""
        message, held = ffi.new("pgmsg_logical_text *", {"letter": ord(self.LETTER)}), Held()
        for part_name, name in zip(self.PARTS, names_of(self)):
            held.set_part(message, part_name, getattr(self, name))
        return put(lib.pgmsg_put_logical, message)


@dataclass(frozen=True, slots=True)
class Begin(LogicalMessage, letter="B", parts="lsn clock transaction"):
    """A transaction begins: the position of its commit, when it was committed, and its number."""

    final_lsn: int
    clock: int
    transaction: int


@dataclass(frozen=True, slots=True)
class Message(LogicalMessage, letter="M", parts="flags lsn name content transaction"):
    """A message that a program wrote to the log: flags, 1 where it is a part of its transaction, its position, for whom it
    is, and what it says."""

    flags: int
    lsn: int
    prefix: bytes
    content: bytes
    transaction: int | None = None
    prefix_text = AsText("prefix")


@dataclass(frozen=True, slots=True)
class Commit(LogicalMessage, letter="C", parts="flags lsn end_lsn clock"):
    """The transaction is committed: flags without a meaning yet, the position of the commit, where the transaction ends, and
    when it was committed."""

    flags: int
    lsn: int
    end_lsn: int
    clock: int


@dataclass(frozen=True, slots=True)
class Origin(LogicalMessage, letter="O", parts="lsn name"):
    """The transaction came from another server: the position of its commit there, and the name of the origin."""

    lsn: int
    name: bytes
    name_text = AsText("name")


@dataclass(frozen=True, slots=True)
class Relation(LogicalMessage, letter="R", parts="relation schema name replica_identity columns transaction"):
    """A table, before the first change of it and again where its columns are others: its number, its schema, empty for
    pg_catalog, its name, the letter of its replica identity, and its columns."""

    relation: int
    schema: bytes
    name: bytes
    replica_identity: int
    columns: tuple[Column, ...]
    transaction: int | None = None
    schema_text = AsText("schema")
    name_text = AsText("name")


@dataclass(frozen=True, slots=True)
class TypeName(LogicalMessage, letter="Y", parts="type_id schema name transaction"):
    """A type that isn't built in, before the first table with a column of it: its number, its schema, and its name."""

    type_id: int
    schema: bytes
    name: bytes
    transaction: int | None = None
    schema_text = AsText("schema")
    name_text = AsText("name")


@dataclass(frozen=True, slots=True)
class Insert(LogicalMessage, letter="I", parts="relation new_row transaction"):
    """A new row of a table."""

    relation: int
    new: Row
    transaction: int | None = None


@dataclass(frozen=True, slots=True)
class Update(LogicalMessage, letter="U", parts="relation old_row new_row transaction"):
    """A row of a table is changed: the old one or its key, where the key is changed or the replica identity is FULL, and
    the new one."""

    relation: int
    old: Old | None
    new: Row
    transaction: int | None = None


@dataclass(frozen=True, slots=True)
class Delete(LogicalMessage, letter="D", parts="relation old_row transaction"):
    """A row of a table is deleted, of which all is sent or the key."""

    relation: int
    old: Old
    transaction: int | None = None

    def __post_init__(self) -> None:
        if self.old is None:
            raise TypeError("a Delete has an old row")
        LogicalMessage.__post_init__(self)


@dataclass(frozen=True, slots=True)
class Truncate(LogicalMessage, letter="T", parts="flags relations transaction"):
    """Tables are emptied: 1 in the options stands for CASCADE, 2 for RESTART IDENTITY."""

    options: int
    relations: tuple[int, ...]
    transaction: int | None = None


@dataclass(frozen=True, slots=True)
class StreamStart(LogicalMessage, letter="S", parts="transaction is_first"):
    """Messages of a streamed transaction follow, and whether they are its first."""

    transaction: int
    is_first: bool


@dataclass(frozen=True, slots=True)
class StreamStop(LogicalMessage, letter="E"):
    """The end of these messages."""


@dataclass(frozen=True, slots=True)
class StreamCommit(LogicalMessage, letter="c", parts="transaction flags lsn end_lsn clock"):
    """A streamed transaction is committed, with what a Commit has."""

    transaction: int
    flags: int
    lsn: int
    end_lsn: int
    clock: int


@dataclass(frozen=True, slots=True)
class StreamAbort(LogicalMessage, letter="A", parts="transaction subtransaction"):
    """A streamed transaction is undone, or a part of it: the number of the subtransaction, or again that of the
    transaction."""

    transaction: int
    subtransaction: int


@dataclass(frozen=True, slots=True)
class BeginPrepare(LogicalMessage, letter="b", parts="lsn end_lsn clock transaction name"):
    """A transaction begins that is prepared: the position of the prepare, where the transaction ends, when it was prepared,
    its number, and the name that its client gave to it."""

    lsn: int
    end_lsn: int
    clock: int
    transaction: int
    gid: bytes
    gid_text = AsText("gid")


@dataclass(frozen=True, slots=True)
class Prepared(LogicalMessage):
    """What is said of a prepared transaction: flags without a meaning yet, the position of the prepare or the commit, where
    the transaction or its commit ends, when that was, its number, and its name."""

    flags: int
    lsn: int
    end_lsn: int
    clock: int
    transaction: int
    gid: bytes
    gid_text = AsText("gid")


PARTS_OF_PREPARED = "flags lsn end_lsn clock transaction name"


@dataclass(frozen=True, slots=True)
class Prepare(Prepared, letter="P", parts=PARTS_OF_PREPARED):
    """The transaction is prepared."""


@dataclass(frozen=True, slots=True)
class CommitPrepared(Prepared, letter="K", parts=PARTS_OF_PREPARED):
    """A prepared transaction is committed."""


@dataclass(frozen=True, slots=True)
class RollbackPrepared(
    LogicalMessage, letter="r", parts="flags end_lsn rollback_end_lsn clock rollback_clock transaction name",
):
    """A prepared transaction is undone: flags without a meaning yet, where the transaction and its rollback end, when it was
    prepared and undone, its number, and its name."""

    flags: int
    prepare_end_lsn: int
    rollback_end_lsn: int
    prepare_clock: int
    rollback_clock: int
    transaction: int
    gid: bytes
    gid_text = AsText("gid")


@dataclass(frozen=True, slots=True)
class StreamPrepare(Prepared, letter="p", parts=PARTS_OF_PREPARED):
    """A streamed transaction is prepared."""


OF_ALL: tuple[type[LogicalMessage], ...] = (
    Begin, Message, Commit, Origin, Relation, TypeName, Insert, Update, Delete, Truncate, StreamStart, StreamStop,
    StreamCommit, StreamAbort, BeginPrepare, Prepare, CommitPrepared, RollbackPrepared, StreamPrepare)

KINDS = {kind.LETTER: kind for kind in OF_ALL}


class LogicalStream(Shared):
    """Reads the messages of a slot in order, and knows which of them stand between a StreamStart and a StreamStop."""

    def __init__(self, streamed: bool = False) -> None:
        super().__init__()
        self._streamed = ffi.new("bool *", streamed)

    @property
    def streamed(self) -> bool:
        """Whether the next message stands there."""
        return bool(self._streamed[0])

    def read(self, content: Buffer) -> LogicalMessage:
        """The message that is all of the content of an XLogData. What breaks the format is a Fault, and leaves the stream as
        it was."""
        return self._alone(self._read, content)

    def _read(self, content: Buffer) -> LogicalMessage:
        data, values, found = octets(content), allocate("pgmsg_datum[]", FEW), ffi.new("pgmsg_logical *")
        count = call(lib.pgmsg_read_logical, data, self._streamed, values, FEW, found)
        kind = KINDS[chr(found.letter)]
        # A row of more values is read again, with room for all.
        new = tuple(datum_of(data, values[at]) for at in range(count)) if count <= FEW else row_of(data, found.new_row)
        # What was read needs no test.
        message = object.__new__(kind)
        fill(message, *[new if name == "new_row" else value_of(data, found, name) for name in kind.PARTS])
        return message


def read(content: Buffer, streamed: bool = False) -> LogicalMessage:
    """The message that is all of the content of an XLogData; a LogicalStream knows whether it is `streamed`."""
    return LogicalStream(streamed).read(content)


def value_of(data: bytes, found: Any, name: str) -> Any:
    """A part of a message."""
    given = getattr(found, name)
    match name:
        case "transaction":
            return given if found.has_transaction else None
        case "schema" | "name" | "content":
            return part(data, given)
        case "old_row":
            return OLD[chr(found.old_letter)](row_of(data, given)) if found.old_letter else None
        case "columns":
            return columns_of(data, given)
        case "relations":
            return listed("uint32_t", lambda room, size: lib.pgmsg_read_types(data, len(data), given, room, size), int)
    return given


OLD: dict[str, type[Old]] = {"K": Key, "O": Whole}

# The letters of old rows and of values that are sent, by their classes.
LETTERS_OF_OLD: dict[type, int] = {Key: ord("K"), Whole: ord("O")}
LETTERS: dict[type, int] = {Text: ord("t"), Binary: ord("b")}

# The bits of each number, with a sign below 0.
BITS = {
    "lsn": 64, "end_lsn": 64, "rollback_end_lsn": 64, "clock": -64, "rollback_clock": -64, "transaction": 32, "subtransaction": 32,
    "relation": 32, "type_id": 32, "type_modifier": -32, "flags": 8, "replica_identity": 8}


def names_of(made: Any) -> tuple[str, ...]:
    """The names of the fields of an object."""
    names: tuple[str, ...] = made.__match_args__
    return names


def keep_parts(made: Any, parts: tuple[str, ...]) -> None:
    """Keeps the fields of a new object, which are these parts, as what is read has them."""
    for part_name, name in zip(parts, names_of(made)):
        set_attribute(made, name, kept(part_name, getattr(made, name)))


def kept(name: str, given: Any) -> Any:
    """A part as a message keeps it."""
    match name:
        case "transaction" | "old_row" if given is None:
            return None
        case "schema" | "name" | "content":
            return octets(given)
        case "new_row":
            return row(given)
        case "old_row" if type(given) not in LETTERS_OF_OLD:
            raise TypeError(f"an old row is a Key or a Whole, not {type(given).__name__}")
        case "columns":
            return columns(given)
        case "relations":
            return numbers(BITS["relation"], given)
        case "is_first":
            return bool(given)
    return number(BITS[name], given) if name in BITS else given


def row(values: Iterable[Datum]) -> Row:
    """The values of a row."""
    made = tuple(values)
    for value in made:
        if value is not None and value is not UNCHANGED and type(value) not in LETTERS:
            raise TypeError(f"a value of a row is Text, Binary, UNCHANGED or None, not {type(value).__name__}")
    return made


def columns(given: Iterable[Column]) -> tuple[Column, ...]:
    """The columns of a table."""
    made = tuple(given)
    for it in made:
        if not isinstance(it, Column):
            raise TypeError(f"a column of a table is a Column, not {type(it).__name__}")
    return made


def row_of(data: bytes, given: Any) -> Row:
    """The values of a row."""
    return listed(
        "pgmsg_datum", lambda room, size: call(lib.pgmsg_read_tuple, data, given, room, size),
        lambda it: datum_of(data, it))


def datum_of(data: bytes, it: Any) -> Datum:
    """The value of a column."""
    match it.kind:
        case 110:
            return None
        case 117:
            return UNCHANGED
        case 116:
            return Text(part(data, it.value))
    return Binary(part(data, it.value))


def columns_of(data: bytes, given: Any) -> tuple[Column, ...]:
    """The columns of a table."""
    return listed(
        "pgmsg_table_column", lambda room, size: call(lib.pgmsg_read_table_columns, data, given, room, size),
        lambda it: Column(it.flags, part(data, it.name), it.type_id, it.type_modifier))


class Held:
    """What the struct of a message that is written points to."""

    def __init__(self) -> None:
        self._kept: list[Any] = []

    def set_part(self, message: Any, name: str, given: Any) -> None:
        """Sets a part of the message."""
        match name:
            case "transaction":
                message.has_transaction, message.transaction = given is not None, given or 0
            case "schema" | "name" | "content":
                self._set_list(message, name, self._text(given))
            case "new_row":
                self._set_list(message, "values", self._row(given))
            case "old_row" if given is not None:
                message.old_letter = LETTERS_OF_OLD[type(given)]
                self._set_list(message, "old_values", self._row(given.values))
            case "old_row":
                pass
            case "columns":
                texts = [(it.flags, *self._sized(it.name), it.type_id, it.type_modifier) for it in given]
                self._set_list(message, name, self._new("pgmsg_table_column_text[]", texts))
            case "relations":
                self._set_list(message, name, self._new("uint32_t[]", given))
            case _:
                setattr(message, name, given)

    def _set_list(self, message: Any, name: str, given: Any) -> None:
        setattr(message, name, given)
        setattr(message, f"{name}_len", len(given))

    def _new(self, kind: str, given: Any) -> Any:
        self._kept.append(ffi.new(kind, given))
        return self._kept[-1]

    def _text(self, given: Any) -> Any:
        self._kept.append(ffi.from_buffer("uint8_t[]", given))
        return self._kept[-1]

    def _sized(self, given: Any) -> tuple[Any, int]:
        text = self._text(given)
        return text, len(text)

    def _row(self, values: Row) -> Any:
        return self._new("pgmsg_datum_text[]", [self._datum(it) for it in values])

    def _datum(self, value: Datum) -> tuple[Any, ...]:
        if value is None:
            return (ord("n"),)
        if value is UNCHANGED:
            return (ord("u"),)
        return (LETTERS[type(value)], *self._sized(value.value))
