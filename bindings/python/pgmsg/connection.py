"""The sides of a connection, which know which message may come when, and which request it answers."""

from __future__ import annotations

from collections.abc import Iterator
from typing import Any, NamedTuple

from .fault import Code, Fault
from .flow import HEADER, Flow, Kind, Mode, Whose, parts
from .message import BackendMessage, Buffer, FrontendMessage
from .opening import GSSENCRequest, SSLRequest
from .session import TransactionStatus
from .stream import FIRST_OF_CLIENT, KINDS, MAX_LENGTH, ClientStream, ServerStream

ROW, TERMINATE, ERROR = ord("D"), ord("X"), ord("E")

# What a byte answers, and no message.
ENCRYPTIONS = (SSLRequest, GSSENCRequest)


class Event(NamedTuple):
    """A message of the server, or a list of the rows that came one after the other, and which request it answers."""

    message: Any
    whose: Whose

    @property
    def request(self) -> int | None:
        """The number of the request that it answers, None where it answers none."""
        return self.whose.request

    @property
    def is_last(self) -> bool:
        """Whether nothing more comes for that request."""
        return self.whose.is_last


class Request(NamedTuple):
    """A message of the client, and its number where it is a request, else None."""

    message: FrontendMessage
    number: int | None


class Followed:
    """What both sides share."""

    _flow: Flow
    _is_byte_due = False

    def _heard(self, tag: int, body: bytes) -> Whose:
        if self._is_byte_due and tag != ERROR:
            raise Fault(Code.NOT_READY, "a byte answers a request for encryption, and no message")
        return self._flow.heard(tag, body)

    def _heard_byte(self, byte: bytes) -> None:
        if not self._is_byte_due or byte == b"E":
            raise Fault(Code.NOT_READY, "no byte is due that says whether the connection is encrypted")
        self._flow.heard(ord(byte), b"")
        self._is_byte_due = False

    @property
    def mode(self) -> Mode:
        """What the connection waits for."""
        return self._flow.mode

    @property
    def status(self) -> TransactionStatus | None:
        """The status that the last ReadyForQuery reported."""
        return self._flow.status

    @property
    def count(self) -> int:
        """How many requests were sent, or received. The next one has this number."""
        return self._flow.count

    @property
    def waits(self) -> int:
        """How many requests were sent from the first on that waits for an answer."""
        return self._flow.count - self._flow.first


class Connection(Followed, ClientStream):
    """A client's side of a connection, without a socket.

    `send` gives the bytes of messages, and `receive` what came, each message with the number of the request that it answers:
    the first request has the number 0. A message that may not come now is a Fault. One to be sent isn't sent then, and
    changes nothing; after one that came, close the connection, as after each Fault of `receive`. So no message is taken for
    the answer to another request, and no server is taken for one that knows the password before it has proved that: `Login`
    says what to answer.
    """

    def __init__(self, limit: int = MAX_LENGTH) -> None:
        super().__init__(limit)
        self._flow = Flow()
        self._whose = Whose(Kind.LOGIN)

    def send(self, *messages: FrontendMessage) -> bytes:
        """The bytes of messages, which are to be sent: all of them, or none after a Fault."""
        return self._alone(self._send, messages)

    def _send(self, messages: tuple[FrontendMessage, ...]) -> bytes:
        state, out = self._flow.state, [message.write() for message in messages]
        try:
            for message, data in zip(messages, out):
                self._flow.said(*parts(message, data))
        except BaseException:
            self._flow.state = state
            raise
        # Nothing is said behind a request for encryption.
        if messages:
            self._is_byte_due = isinstance(messages[-1], ENCRYPTIONS)
        return b"".join(out)

    def receive(self, data: Buffer, kind: type[str] | type[bytes] | type[memoryview] = str) -> Iterator[Event]:
        """What came with these bytes, which are taken at once: what isn't iterated over comes with the next ones. Rows that
        come one after the other are a list, as `ClientStream.rows` gives them."""
        number = KINDS[kind]
        self.feed(data)
        return self._events(number)

    def _events(self, kind: int) -> Iterator[Event]:
        while (event := self._alone(self._event, kind)) is not None:
            yield event

    def _event(self, kind: int) -> Event | None:
        message = self._run(kind)
        return None if message is None else Event(message, self._whose)

    def receive_encryption(self, byte: bytes) -> bool:
        """Takes the byte that answers an SSLRequest or a GSSENCRequest: whether the connection is encrypted from there on. An
        error in its place is refused, since nobody has proved to be the server. Close the connection where more bytes came with
        an `S` or a `G`: they aren't encrypted."""
        self._alone(self._heard_byte, byte)
        return byte != b"N"

    def _take_rows(self) -> None:
        # Rows that come one after the other answer one request.
        self._whose = self._flow.heard(ROW, b"")

    def _read(self, tag: int, body: bytes) -> BackendMessage:
        self._whose = self._heard(tag, body)
        return super()._read(tag, body)


class ServerConnection(Followed, ServerStream):
    """A server's side of a connection, without a socket.

    `receive` gives what came, up to a request that is to be answered before the next one: call it again after that. `send`
    gives the bytes of messages. A message that may not come now is a Fault, as of a `Connection`.
    """

    def __init__(self, limit: int = MAX_LENGTH) -> None:
        super().__init__(limit)
        self._flow = Flow(is_server=True)
        self._number: int | None = None

    def send(self, *messages: BackendMessage) -> bytes:
        """The bytes of messages to the client: all of them, or none after a Fault."""
        return self._alone(self._send, messages)

    def _send(self, messages: tuple[BackendMessage, ...]) -> bytes:
        state, out = self._flow.state, [message.write() for message in messages]
        try:
            for message, data in zip(messages, out):
                self._heard(message.TAG, data[HEADER:])
        except BaseException:
            self._flow.state = state
            raise
        return super().send(*messages)

    def send_encryption(self, byte: bytes) -> bytes:
        """The byte that answers an SSLRequest or a GSSENCRequest: `S`, `G` or `N`."""
        self._alone(self._heard_byte, byte)
        return byte

    def receive(self, data: Buffer = b"") -> Iterator[Request]:
        """What came with these bytes, which are taken at once, and before."""
        self.feed(data)
        return self._requests()

    def _requests(self) -> Iterator[Request]:
        while (request := self._alone(self._request)) is not None:
            yield request

    def _request(self) -> Request | None:
        try:
            message = self._next()
        except Fault as fault:
            if fault.code is Code.BUSY:
                return None
            raise
        return None if message is None else Request(message, self._number)

    def _read(self, tag: int, body: bytes) -> FrontendMessage:
        if tag == TERMINATE and self.mode in (Mode.BUSY, Mode.COPY_OUT):
            raise Fault(Code.BUSY, "the request before the end of the session isn't answered")
        self._number = self._flow.said(None if self._side == FIRST_OF_CLIENT else tag, body)
        message = super()._read(tag, body)
        self._is_byte_due = isinstance(message, ENCRYPTIONS)
        return message
