#!/usr/bin/env python3
"""A server of one connection that answers what its client asks with messages that PostgreSQL sends rarely or never.

It listens on a free port of 127.0.0.1, which its first line says.
"""

import socket
import struct

from asked import words


def message(tag, *parts):
    """A message of these parts: a number of two bytes with a sign, a text with its NUL, or bytes."""
    body = b"".join(
        part if isinstance(part, bytes) else part.encode() + b"\0" if isinstance(part, str) else struct.pack(">h", part)
        for part in parts)
    return tag.encode() + struct.pack(">I", len(body) + 4) + body


def int4(*numbers):
    """Numbers of four bytes each."""
    return b"".join(struct.pack(">I", number % 2**32) for number in numbers)


def column(name, table, attribute, type_id, size, modifier, code):
    """A column of a result."""
    return name + b"\0" + int4(table) + struct.pack(">h", attribute) + int4(type_id) + struct.pack(
        ">h", size) + int4(modifier) + struct.pack(">h", code)


READY = message("Z", b"I")

HELLO = (message("R", int4(0)) + message("S", "a \"name\"", b"caf\xe9\0") + message("K", int4(-1, 2**31))
         + message("N", b"?two\nlines\0\x01text\0\xffend\0\0") + READY)

EVERY_BYTE = bytes(range(256))

# What each Query of the client is answered by.
ANSWERS = (
    message("T", 2, column(b"\xe9\t\"'\\", 2**32 - 1, -1, 2**31, -2, -1, 1), column(b"", 0, 0, 0, 0, 2**31 - 1, 7))
    + message("D", 2, int4(256), EVERY_BYTE, int4(0)) + message("D", 2, int4(-1, -1)) + message("C", "\"\\'\x7f\x1b[2J\r\x9b")
    + message("Z", b"T"),
    message("A", int4(-5), b"ch\xff\0", "") + message("S", "", "") + message("I") + message("Z", b"E"),
    message("q") + message("q", b"abc") + message("s") + message("C", "") + READY,
    message("R", int4(0)) + message("R", int4(10), "SCRAM", b"\0") + message("v", int4(3, 1), "option") + READY,
    message("V", int4(5), b"\0abc'") + message("V", int4(-1)) + message("p", b"abc\0") + READY,
    message("G", b"\2", 3, 0, 1, -1) + message("E", "SERROR", "C00000", "Mdone", b"\0") + READY,
    message("n") + message("t", 2, int4(-1, 2**31)) + message("1") + message("2") + message("3") + message("C", "") + READY,
    message("E", b"\0") + READY,
    message("H", b"\xff", 0) + message("d", EVERY_BYTE) + message("d") + message("c") + message("C", "COPY") + READY,
    message("W", b"\0", 1, 1),
)


def body(stream):
    """The next message's length and body, without its tag."""
    length = stream.read(4)
    return length + stream.read(int.from_bytes(length, "big") - 4)


def asked(stream):
    """Yields the Startup and each Query. A CopyFail goes out right before one, in a piece of its own or not."""
    yield body(stream)
    while tag := stream.read(1):
        asks = body(stream)
        if tag == b"Q":
            yield asks


def serve(client):
    """Answers what the client asks, and reads on until it ends."""
    with client.makefile("rb") as stream:
        for answer, _ in zip((HELLO, *ANSWERS), asked(stream)):
            client.sendall(answer)
        stream.read()


def main():
    words(__doc__)
    with socket.create_server(("127.0.0.1", 0)) as listening:
        print(listening.getsockname()[1], flush=True)
        client, _ = listening.accept()
    with client:
        serve(client)


if __name__ == "__main__":
    main()
