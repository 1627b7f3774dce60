"""What the calls of the header share: those that read a body, and those that write a message.

All bytes that they take are `bytes`, which no other thread changes while a call goes on without the interpreter's lock.
"""

from __future__ import annotations

import itertools
from typing import Any, Callable, TypeVar

from ._library import ffi, lib
from .fault import refusal

Item = TypeVar("Item")

# How many items there is room for at first, and bytes.
FEW, SHORT = 16, 512

# Memory that isn't zeroed.
allocate = ffi.new_allocator(should_clear_after_alloc=False)

BYTES, FAULT = ffi.typeof("uint8_t[]"), ffi.typeof("pgmsg_fault *")


def read(call: Callable[..., int], body: bytes, *answers: Any) -> int:
    """What a call returns where it doesn't refuse a body."""
    fault = ffi.new(FAULT)
    number = call(body, len(body), *answers, fault)
    if number < 0:
        raise reported(number, fault)
    return number


def reported(number: int, fault: Any) -> Exception:
    """What to raise for a number below 0 of a call that filled a fault."""
    return refusal(number, bytes(fault.words[0 : fault.words_len]).decode("ascii"), fault.at)


def found(kind: str, call: Callable[..., int], body: bytes) -> Any:
    """What a call finds in a body: a struct of some kind."""
    place = ffi.new(f"{kind} *")
    read(call, body, place)
    # As cffi has it, this keeps the memory of the place, but a struct in it doesn't.
    return place[0]


def listed(kind: str, count_of: Callable[[Any, int], Any], made: Callable[[Any], Item]) -> tuple[Item, ...]:
    """What is made of each item that a call writes. It calls again with more room where the first is too small."""
    room = FEW
    while True:
        items = allocate(f"{kind}[]", room)
        count = count_of(items, room)
        if count <= room:
            return tuple(made(items[at]) for at in range(count))
        room = count


def put(call: Callable[..., int], *parts: Any) -> bytes:
    """The message that a call writes of these parts."""
    room = SHORT
    while True:
        out = allocate(BYTES, room)
        length = call(*parts, out, room)
        if length < 0:
            raise refusal(length)
        if length <= room:
            return ffi.buffer(out, length)[:]  # type: ignore[no-any-return]
        room = length


def part(body: bytes, span: Any) -> bytes:
    """The bytes of a body at a place."""
    return body[span.at : span.at + span.len]


def sized(*texts: bytes) -> list[Any]:
    """Each text with its length, as calls take them."""
    return list(itertools.chain.from_iterable((text, len(text)) for text in texts))


def texts_of(texts: tuple[bytes, ...]) -> tuple[Any, int, list[Any]]:
    """Texts as a call takes them, and last what keeps them in place."""
    held = [ffi.from_buffer("uint8_t[]", text) for text in texts]
    return ffi.new("pgmsg_bytes[]", [(text, len(text)) for text in held]), len(held), held


def read_text(body: bytes) -> bytes:
    """The text that is all of a body, without its NUL."""
    return part(body, found("pgmsg_span", lib.pgmsg_read_text, body))
