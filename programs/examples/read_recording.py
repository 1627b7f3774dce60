"""Reads a recording of pg_record, by the page of its format in programs/recording/src/lib.rs:

    read_recording.py FILE              a line for each record: offset, time, connection, kind, length of the content
    read_recording.py FILE NUMBER F|B   the bytes of a connection's client or server, joined

Its last line on standard error counts. A fault ends it with 1, by the offset of the record.
"""

import struct
import sys
import zlib

FILE_HEAD = struct.Struct(">8sIQI")
RECORD_HEAD = struct.Struct(">IBIQI")
CHECKSUM = struct.Struct(">I")
MOST = 1024 * 1024
LENGTHS = {"O": range(MOST + 1), "F": range(MOST + 1), "B": range(MOST + 1), "f": [5], "b": [5], "E": [0], "C": [1]}


def head_of(file):
    """The time at which a recording began."""
    head = file.read(FILE_HEAD.size)
    if len(head) < FILE_HEAD.size or head[:8] != b"PGMSGREC":
        raise SystemExit("no recording")
    _, version, begun, checksum = FILE_HEAD.unpack(head)
    if checksum != zlib.crc32(head[:-4]):
        raise SystemExit("offset 0: the checksum of the file's head")
    if version != 1:
        raise SystemExit(f"version {version}")
    return begun


def records(file):
    """The records: offset, kind, connection, time, content; None at last where the file ends within one."""
    at, opened, open_ones = FILE_HEAD.size, 0, set()
    while head := file.read(RECORD_HEAD.size):
        if len(head) < RECORD_HEAD.size:
            break
        length, letter, connection, time, checksum = RECORD_HEAD.unpack(head)
        kind = chr(letter)
        if checksum != zlib.crc32(head[:-4]):
            raise SystemExit(f"offset {at}: the checksum of a head")
        if kind not in LENGTHS or length not in LENGTHS[kind]:
            raise SystemExit(f"offset {at}: kind {letter} with {length} bytes")
        content, end = file.read(length), file.read(CHECKSUM.size)
        if len(content) + len(end) < length + CHECKSUM.size:
            break
        if CHECKSUM.unpack(end)[0] != zlib.crc32(content) or (kind == "C" and content not in (b"F", b"B")):
            raise SystemExit(f"offset {at}: the content")
        opened += kind == "O"
        if connection != opened if kind == "O" else connection not in open_ones:
            raise SystemExit(f"offset {at}: connection {connection} isn't open")
        (open_ones.discard if kind == "C" else open_ones.add)(connection)
        yield at, kind, connection, time, content
        at += RECORD_HEAD.size + length + CHECKSUM.size
    if head:
        yield None


def main():
    path, *chosen = sys.argv[1:]
    count = 0
    with open(path, "rb") as file:
        head_of(file)
        for record in records(file):
            if record is None:
                print("the file ends within a record", file=sys.stderr)
                break
            count += 1
            at, kind, connection, time, content = record
            if not chosen:
                print(at, time, connection, kind, len(content))
            elif [str(connection), kind] == chosen:
                sys.stdout.buffer.write(content)
    print(f"{count} records", file=sys.stderr)


if __name__ == "__main__":
    main()
