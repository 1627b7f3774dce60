#!/usr/bin/env python3
"""Compares what a PostgreSQL server takes as the first message of a connection, and which bytes after the end of a later one,
with what pg_tool reads.

    first_messages.py PORT    PG_TOOL reads what is sent to the server at this port of 127.0.0.1, where postgres
                              needs no password; prints what was compared

A server that takes a Startup answers with an Authentication, after a NegotiateProtocolVersion where it was asked for more
than it speaks. What it refuses gets an ErrorResponse or no answer. The greatest length is the one that the sources of all
languages name. A later message with bytes after its end comes after a Parse, a Bind or a COPY that it asks for, and before a
Sync; a server that refuses the bytes answers with a violation of the protocol.
"""

import contextlib
import os
import pathlib
import re
import socket
import subprocess
import sys

import asked

TOP = pathlib.Path(__file__).resolve().parents[2]

USER = b"user\0postgres\0"

VERSION = b"\0\3\0\0"

# Where each language says the greatest length of a first message; Rust and Python take that of the header.
GREATEST = {
    "crates/pg_frames/src/frontend/frame.rt": r"MAX_FIRST_LENGTH: usize = ([\d_]+)",
    "bindings/c/include/pg_message.h": r"PGMSG_MAX_FIRST_LENGTH = (\d+)",
}


def of_length(length):
    """A Startup of so many bytes in all."""
    front = VERSION + USER + b"application_name\0"
    return front + b"a" * (length - 4 - len(front) - 2) + b"\0\0"


def startups(greatest):
    """The bodies of first messages by what is tried with them."""
    return {
        "a user": VERSION + USER + b"\0",
        "the greatest length": of_length(greatest),
        "a byte more": of_length(greatest + 1),
        "a minor version": b"\0\3\0\1" + USER + b"\0",
        "an option of the protocol": VERSION + USER + b"_pq_.a\0001\0\0",
        "a version before 3": b"\0\2\0\0" + USER + b"\0",
        "a version after 3": b"\0\4\0\0" + USER + b"\0",
        "bytes after the settings": VERSION + USER + b"\0a",
        "settings after an empty name": VERSION + b"\0" + USER + b"\0",
        "a name without a value": VERSION + USER + b"a\0",
        "a name without its end": VERSION + USER + b"ab",
        "settings without an end": VERSION + USER,
        "a version alone": VERSION,
        "another last byte": VERSION + USER + b"a",
    }


# What a server takes and the tool refuses: where the NUL after the settings is due, PostgreSQL 15 looks only whether the
# message ends after one byte.
LAXER = ["another last byte"]

# A message that ends, by its tag: its body, and what is sent before it.
PARSE = (b"P", b"\0SELECT 1\0\0\0")
BIND = (b"B", b"\0\0\0\0\0\0\0\0")
COPY = (b"Q", b"CREATE TEMPORARY TABLE t(); COPY t FROM STDIN\0")
LATER = {
    b"B": (BIND[1], [PARSE]),
    b"C": (b"S\0", [PARSE]),
    b"D": (b"S\0", [PARSE]),
    b"E": (b"\0\0\0\0\0", [PARSE, BIND]),
    b"H": (b"", []),
    b"P": (PARSE[1], []),
    b"Q": (b"SELECT 1\0", []),
    b"S": (b"", []),
    b"X": (b"", []),
    b"c": (b"", [COPY]),
    b"f": (b"why\0", [COPY]),
}

# Messages whose end PostgreSQL 15 doesn't look for, and the tool does.
ENDLESS = [b"X", b"c", b"f"]


def message(body, tag=b""):
    return tag + (len(body) + 4).to_bytes(4, "big") + body


def answered(port, body):
    """The tags and bodies of a server's answers up to an Authentication, an ErrorResponse or the end."""
    with socket.create_connection(("127.0.0.1", port), timeout=10) as connection, connection.makefile("rb") as stream:
        connection.sendall(message(body))
        # A server that refuses a length closes the connection over bytes that it hasn't read.
        with contextlib.suppress(ConnectionResetError):
            while head := stream.read(5):
                tag, content = head[:1], stream.read(int.from_bytes(head[1:], "big") - 4)
                yield tag, content
                if tag in (b"R", b"E"):
                    return


def violates(port, tag, body, before):
    """Whether a server says that a message violates the protocol."""
    answer = b""
    with socket.create_connection(("127.0.0.1", port), timeout=60) as connection:
        # A server that refuses a message may close the connection before all is sent, and over bytes that it hasn't read.
        with contextlib.suppress(OSError):
            for its_tag, its_body in [(b"", VERSION + USER + b"\0"), *before, (tag, body), (b"S", b"")]:
                connection.sendall(message(its_body, its_tag))
            connection.shutdown(socket.SHUT_WR)
        with contextlib.suppress(ConnectionResetError):
            while data := connection.recv(1 << 16):
                answer += data
    return b"C08P01\0" in answer


def tool(mode, text):
    return subprocess.run([os.environ["PG_TOOL"], "server", mode], input=text, stdout=subprocess.PIPE).stdout


def is_read(body):
    return tool("stream", message(body)).startswith(b"startup 3.")


def compare(port, greatest):
    """Says what differs."""
    for name, body in startups(greatest).items():
        answers = dict(answered(port, body))
        taken = b"R" in answers
        if taken != (is_read(body) or name in LAXER):
            yield f"{name}: the server {'takes' if taken else 'refuses'} it, and the tool doesn't"
        print(f"{name}: {'taken' if taken else 'refused'}")
        if version := answers.get(b"v"):
            options = "5f70715f2e61" if b"_pq_" in body else "-"
            written = tool("encode", f"negotiate 0 {options}\n".encode()).splitlines()[-1].split()
            if written != [b"v", str(len(version) + 4).encode(), version.hex().encode()]:
                yield f"{name}: the server negotiates by {version!r}, and the tool writes {written}"
            print(f"{name}: negotiated")


def finds_end(stream):
    """Whether pg_tool says where a message is to end."""
    return b"expected the end" in tool("stream", message(VERSION + USER + b"\0") + stream)


def compare_ends(port):
    """Says which bytes after the end of a message the server or the tool takes otherwise than is due."""
    for tag, (body, before) in LATER.items():
        longer = body + b"after"
        refused = [violates(port, tag, it, before) for it in (body, longer)]
        if refused != [False, tag not in ENDLESS]:
            yield f"bytes after a message {tag.decode()}: the server refuses it without and with them: {refused}"
        if finds_end(message(body, tag)) or not finds_end(message(longer, tag)):
            yield f"bytes after a message {tag.decode()}: the tool doesn't find them"
        print(f"bytes after a message {tag.decode()}: {'found' if refused[1] else 'ignored'}")


def main():
    lengths = {file: int(re.search(form, (TOP / file).read_text())[1]) for file, form in GREATEST.items()}
    port = int(asked.words(__doc__, "PORT")[0])
    wrong = [*compare(port, next(iter(lengths.values()))), *compare_ends(port)]
    if len(set(lengths.values())) != 1:
        wrong.append(f"the greatest lengths differ: {lengths}")
    print(*wrong, sep="\n", file=sys.stderr)
    sys.exit(bool(wrong))


if __name__ == "__main__":
    main()
