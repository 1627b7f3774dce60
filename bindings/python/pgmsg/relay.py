"""A stream that is passed on message by message: the core of a proxy or a pooler."""

from __future__ import annotations

import enum
from collections.abc import Callable, Iterable
from typing import NamedTuple

from ._calls import read, reported
from ._library import ffi, lib
from ._sharing import Shared
from .fault import Code, Fault, refusal
from .message import Buffer, Frame, number

LENGTH = 4

ALL_TAGS = bytes(range(256))


class WholeFrame(NamedTuple):
    """A whole message: its tag, None of a client's without one, and a view of all of its bytes.

    It goes out as it is, or what its user puts in its place. `precedes_first` says whether a message without a tag
    comes after it.
    """

    tag: int | None
    bytes: memoryview
    precedes_first: bool

    def frame(self) -> Frame:
        """The message, for `read` of its class."""
        return Frame(self.tag, bytes(self.bytes[LENGTH + (self.tag is not None) :]))


class Part(NamedTuple):
    """The next bytes of a message that isn't wanted whole, and how many are still to come. They go out as they are."""

    bytes: memoryview
    left: int


class Place(enum.Enum):
    """What goes out in a message's place."""

    KEEP = enum.auto()
    OMIT = enum.auto()
    REPLACE = enum.auto()
    ADD_BEFORE = enum.auto()
    ADD_AFTER = enum.auto()


class Answer(NamedTuple):
    """What a user answers to a whole message: what goes out in its place, and the whole messages that are added."""

    place: Place
    added: Buffer = b""

    def parts(self, frame: WholeFrame) -> tuple[Buffer, Buffer]:
        """The bytes that go out in the place of a message, which are these two one after the other.

        Refused where what is added is no run of whole messages, after which the stream goes on as it does.
        """
        before, after = frame.tag is None, frame.precedes_first
        match self.place:
            case Place.KEEP:
                return frame.bytes, b""
            case Place.OMIT:
                return led(before, b"", after), b""
            case Place.REPLACE:
                return led(before, self.added, after), b""
            case Place.ADD_BEFORE:
                return led(before, self.added, before), frame.bytes
            case Place.ADD_AFTER:
                return frame.bytes, led(after, self.added, after)


def led(before: bool, added: Buffer, after: bool) -> bytes:
    """A copy of the bytes, where they lead from what is expected before them to what is expected after them."""
    # What is tested goes out, though another thread changes the bytes.
    copy = bytes(memoryview(added))
    if check_frames(copy, before) is not after:
        raise refusal(Code.NOT_FRAMES)
    return copy


def keep(_: WholeFrame) -> Answer:
    """Answers each message that it goes out as it came."""
    return Answer(Place.KEEP)


class Relay(Shared):
    """Takes the bytes of one direction of a connection in pieces of any length, and gives back what goes out.

    A message that lies in one piece is given where it lies. Only the front of a message that goes on after the piece is
    held, and only where it is wanted whole and has at most `limit` bytes. `wanted` are the tags of those that are wanted
    whole; the messages that have none, at the start of a client's stream, always are. `expects_first` says whether one of
    these comes next, or goes on; `held` is the front of a message that isn't whole yet; `left` is how many bytes are still
    to come of one that goes out in parts. Where threads share a relay, each call of `next` waits for another.
    """

    def __init__(self, limit: int, wanted: Iterable[int] = ALL_TAGS, expects_first: bool = False) -> None:
        self._relay = ffi.new("pgmsg_relay *", (number(64, limit), 0, expects_first))
        super().__init__()
        self._held = bytearray()
        self._needed = 0
        self.want(wanted)

    @classmethod
    def of_server(cls, limit: int, wanted: Iterable[int] = ALL_TAGS) -> Relay:
        """A relay of a server's stream, of which the byte that answers a request for encryption is no part."""
        return cls(limit, wanted)

    @classmethod
    def of_client(cls, limit: int, wanted: Iterable[int] = ALL_TAGS) -> Relay:
        """A relay of a client's stream from the start of a connection."""
        return cls(limit, wanted, True)

    @property
    def limit(self) -> int:
        return int(self._relay.limit)

    @property
    def expects_first(self) -> bool:
        return bool(self._relay.is_first)

    @property
    def held(self) -> bytes:
        return bytes(self._held)

    @property
    def left(self) -> int:
        return int(self._relay.left)

    def want(self, wanted: Iterable[int]) -> None:
        """Changes which messages are wanted whole, also one whose front is held already: it goes out in parts where it
        isn't wanted any more."""
        flags = bytearray(256)
        for tag in wanted:
            flags[number(8, tag)] = 1
        self._wanted = bytes(flags)

    def next(self, piece: Buffer) -> tuple[WholeFrame | Part | None, memoryview]:
        """What comes of the front of a piece, None where nothing does yet, and the rest of the piece.

        A length below 4, or 8 of a message without a tag, is refused as soon as it is there, and so is a message that is
        wanted whole and is longer than the limit. Relay and piece are as they were then.
        """
        view = steady(piece)
        if not view:
            return None, view
        return self._alone(self._next, view)

    def pass_on(self, piece: Buffer, answer: Callable[[WholeFrame], Answer] = keep) -> bytes:
        """What goes out of a piece: the messages that came, or what is answered in their places.

        After a refusal the connection is at its end, since what comes next can't be known.
        """
        out, rest = bytearray(), steady(piece)
        while True:
            event, rest = self.next(rest)
            if event is None:
                return bytes(out)
            if isinstance(event, Part):
                out += event.bytes
            else:
                first, second = answer(event).parts(event)
                out += first
                out += second

    def _next(self, view: memoryview) -> tuple[WholeFrame | Part | None, memoryview]:
        return self._next_joined(view) if self._held else self._next_in_piece(view)

    def _next_in_piece(self, view: memoryview) -> tuple[WholeFrame | Part | None, memoryview]:
        """Where nothing is held."""
        was_first = self.expects_first
        number, tag, length = self._front_of(view)
        if number == 0:
            self._held += view
            self._needed = length
            return None, view[len(view) :]
        return self._event(number, None if was_first else tag, view[:length]), view[length:]

    def _next_joined(self, view: memoryview) -> tuple[WholeFrame | Part | None, memoryview]:
        """Where the front of a message is held: takes what is missing of its tag and length, then of all of it."""
        before, needed, was_first = len(self._held), self._needed, self.expects_first
        try:
            while True:
                missing = needed - len(self._held)
                self._held += view[:missing]
                view = view[missing:]
                if len(self._held) < needed:
                    self._needed = needed
                    return None, view
                number, tag, length = self._front_of(self._held)
                if number:
                    held, self._held = memoryview(self._held).toreadonly(), bytearray()
                    return self._event(number, None if was_first else tag, held), view
                needed = length
        except (Fault, MemoryError):
            del self._held[before:]
            raise

    def _front_of(self, data: Buffer) -> tuple[int, int, int]:
        """What the library finds at the front of some bytes, with a tag and a length, and takes where it isn't 0."""
        passage, fault = ffi.new("pgmsg_passage *"), ffi.new("pgmsg_fault *")
        with ffi.from_buffer("uint8_t[]", data) as held:
            found = lib.pgmsg_relay_next(self._relay, self._wanted, held, len(held), passage, fault)
        if found < 0:
            raise reported(found, fault)
        return found, passage.tag, passage.length

    def _event(self, number: int, tag: int | None, view: memoryview) -> WholeFrame | Part:
        return WholeFrame(tag, view, self.expects_first) if number == 1 else Part(view, self.left)


def check_frames(data: Buffer, is_first: bool = False) -> bool:
    """Whether a message without a tag comes next after some bytes, which are whole messages one after the other, the first
    of them without a tag if `is_first`. Other bytes are refused."""
    expects_first = ffi.new("bool *", is_first)
    read(lib.pgmsg_check_frames, bytes(memoryview(data)), expects_first)
    return bool(expects_first[0])


def steady(data: Buffer) -> memoryview:
    """A view of bytes that nobody changes: those that were passed, or a copy where they aren't `bytes`."""
    view = memoryview(data)
    is_steady = isinstance(view.obj, bytes) and view.format == "B" and view.contiguous
    return view if is_steady else memoryview(bytes(view))
