"""What a driver in pure Python does by `struct`, as short as it can be."""

import struct

HEAD = struct.Struct(">cI")
COUNT = struct.Struct(">H")
LENGTH = struct.Struct(">i")


class Stream:
    """The messages of a server: the tag of each, with its body, or its cells where it is a row."""

    def __init__(self):
        self._data = b""

    def feed(self, data):
        self._data += data

    def __iter__(self):
        data, at, end = self._data, 0, len(self._data)
        while end - at >= HEAD.size:
            tag, length = HEAD.unpack_from(data, at)
            if end - at <= length:
                break
            yield tag, row(data, at + HEAD.size) if tag == b"D" else data[at + HEAD.size : at + 1 + length]
            at += 1 + length
        self._data = data[at:]


def row(data, at):
    """The cells of a row."""
    (count,), cells = COUNT.unpack_from(data, at), []
    at += COUNT.size
    for _ in range(count):
        (length,) = LENGTH.unpack_from(data, at)
        at += LENGTH.size
        cells.append(None if length < 0 else data[at : at + length].decode())
        at += max(length, 0)
    return cells


def execution(statement, values):
    """A Bind and an Execute of the unnamed portal."""
    sent = [value.encode() for value in values]
    parts = [b"\0", statement, b"\0\0\0", COUNT.pack(len(sent)), *(LENGTH.pack(len(it)) + it for it in sent), b"\0\0"]
    body = b"".join(parts)
    return HEAD.pack(b"B", len(body) + 4) + body + b"E\0\0\0\x09\0\0\0\0\0"
