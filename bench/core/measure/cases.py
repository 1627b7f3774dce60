"""The cases: which bytes, and what each side does with them."""

from dataclasses import dataclass
from typing import Callable

import inputs

SIDES = ("ours", "original", "postgres-protocol", "pgproto3")

ENCODING = ("prepared", "encode_all", "encode_strict", "script")
DECODING = ("body", "stream", "borrowed")

# What the other sides do where we have a call, or a form, that they haven't.
INSTEAD = {"encode_all": "prepared", "encode_strict": "prepared", "borrowed": "stream"}


@dataclass(frozen=True)
class Case:
    name: str
    hows: tuple
    messages: int
    bytes_of: Callable
    sizes: tuple = ()

    def input(self):
        return self.bytes_of(self.messages, *self.sizes)


CASES = (
    Case("a Bind/Execute/Sync", ENCODING, 1002, inputs.extended_queries),
    Case("b Parse/Describe/Query", ENCODING, 300, inputs.texts),
    Case("c CopyData 8 KiB", ENCODING, 20, inputs.copies, (8192,)),
    Case("d DataRow 5 x 8", DECODING, 500, inputs.rows, (5, 8)),
    Case("d DataRow 50 x 8", DECODING, 100, inputs.rows, (50, 8)),
    Case("d DataRow 1 x 64 KiB", DECODING, 8, inputs.rows, (1, 65536)),
    Case("e RowDescription 10", DECODING, 100, inputs.descriptions, (10,)),
    Case("f CommandComplete+ReadyForQuery", DECODING, 1000, inputs.completions),
    Case("g ErrorResponse 10", DECODING, 100, inputs.errors),
    Case("h ParameterStatus", DECODING, 280, inputs.statuses),
)


@dataclass(frozen=True, eq=False)
class Scale:
    """One size of a case grows. A time is given for each of `unit`, of which a pass has `count`."""

    name: str
    unit: str
    sizes: tuple
    hows: dict
    bytes_of: Callable
    count: Callable
    is_piece: bool = False


def texts(size):
    return inputs.queries(max(4, min(500, 65536 // size)), size)


def cells(size):
    return inputs.rows(max(20, min(500, 5000 // size)), size, 8)


STREAM = 16_000

SCALES = (
    Scale(
        "a text of so many bytes, in a Query",
        "byte",
        (20, 64, 256, 1024, 4096, 16384, 65536),
        dict.fromkeys(SIDES, ("prepared",)),
        texts,
        lambda size: size * max(4, min(500, 65536 // size)),
    ),
    Scale(
        "a row of so many cells, of 8 bytes each",
        "cell",
        (1, 5, 20, 100, 400, 1600),
        dict.fromkeys(SIDES, ("stream",)) | {"ours": ("stream", "borrowed")},
        cells,
        lambda size: size * max(20, min(500, 5000 // size)),
    ),
    Scale(
        "a run of so many messages, Bind, Execute and Sync in turn",
        "message",
        (1, 10, 100, 1000, 10_000, 100_000),
        dict.fromkeys(SIDES, ("prepared",)) | {"ours": ("encode_all", "prepared")},
        inputs.extended_queries,
        lambda size: size,
    ),
    Scale(
        "a stream in pieces of so many bytes, of rows of 5 cells of 8 bytes",
        "byte",
        (1, 16, 256, 4096, 65536, 1048576),
        dict.fromkeys(SIDES, ("pieces",)),
        lambda size: inputs.rows(STREAM, 5, 8),
        lambda size: len(inputs.rows(1, 5, 8)) * STREAM,
        is_piece=True,
    ),
)
