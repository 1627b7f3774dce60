"""Threads that feed a stream, read it and take its rows, and that write the same messages, for a second and a half.

test_threads.py runs it as a program of its own, since what writes past the end of memory ends more than a test: so no
`test_` begins the name of this file.
"""

import random
import sys
import threading
import time

import support  # noqa: F401
from pgmsg import Bind, ClientStream, CopyData, DataRow, Execute, Relay, executions, write

SECONDS = 1.5

# Between any two steps of the interpreter another thread may come.
SWITCH = 1e-6

# The greatest text: some messages fit into the room that is there at first, and some don't.
MOST = 5000


def text(chance):
    """A text that has one byte all over."""
    return bytes([chance.randrange(256)]) * chance.randrange(MOST)


def check(data):
    """Each message has one byte all over."""
    assert len(set(data)) <= 1, "the bytes of two messages in one"


def feed(shared, chance):
    """Feeds whole messages."""
    shared.stream.feed(write(CopyData(text(chance)), DataRow([text(chance)] * chance.randrange(200))))


def read(shared, _):
    """Takes messages, which may be those of any thread."""
    for message in shared.stream:
        for value in [message.data] if isinstance(message, CopyData) else message.values:
            check(value)


def take_rows(shared, chance):
    """Takes rows, of which views are kept for a while."""
    rows = shared.stream.rows(chance.choice([bytes, memoryview]))
    time.sleep(0)
    for row in rows:
        for value in row:
            check(value)


def write_many(shared, chance):
    """Writes of a list and of bytes that other threads change."""
    shared.values[chance.randrange(len(shared.values))] = chance.choice([text(chance), bytearray(text(chance)), None])
    try:
        shared.values[0] = bytearray(b"x" * chance.randrange(MOST))
        found = executions([shared.values] * 3)
    except BufferError:
        return
    assert found.endswith(Execute().write()), "a part of a message"
    assert write(shared.bind) == shared.due, "a message that changed"


def pass_on(shared, chance):
    """Passes on whole messages by a relay that threads share, and bytes that other threads change."""
    data = CopyData(text(chance)).write()
    assert shared.relay.pass_on(data) == data, "the bytes of two messages in one"
    assert len(Relay.of_server(MOST).pass_on(shared.changing)) in (0, len(shared.changing)), "a part of a message"
    shared.changing[5 + chance.randrange(MOST - 5)] = chance.randrange(256)


class Shared:
    """What the threads share."""

    def __init__(self):
        self.stream = ClientStream()
        self.values = [b"a", None, bytearray(b"b"), b"c"]
        self.bind = Bind([b"x" * 1000, None])
        self.due = self.bind.write()
        self.relay = Relay.of_server(2 * MOST)
        self.changing = bytearray(CopyData(bytes(MOST - 5)).write())


def repeat(call, shared, chance, end, errors):
    """Calls until the end, or until an error."""
    try:
        while time.monotonic() < end and not errors:
            call(shared, chance)
    except Exception as error:
        errors.append(f"{call.__name__}: {error!r}")


def main():
    sys.setswitchinterval(SWITCH)
    shared, errors, end = Shared(), [], time.monotonic() + SECONDS
    calls = [feed, feed, read, read, take_rows, write_many, write_many, pass_on, pass_on]
    threads = [
        threading.Thread(target=repeat, args=(call, shared, random.Random(seed), end, errors))
        for seed, call in enumerate(calls)
    ]
    for thread in threads:
        thread.start()
    for thread in threads:
        thread.join()
    sys.exit("\n".join(errors) or None)


if __name__ == "__main__":
    main()
