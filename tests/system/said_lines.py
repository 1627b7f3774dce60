#!/usr/bin/env python3
"""Compares the lines that said_lines prints of clients' streams with the tables of `pg_tool server stream`.

    said_lines.py PROGRAM

The streams are those of the tables, and one for each body there. Each of the shorter ones is also read with any byte changed,
where only the program's end is looked at. Then each message goes in once the line of the one before it is there.
"""

import itertools
import pathlib
import subprocess
import sys
import tempfile

import asked

sys.path.insert(0, str(pathlib.Path(__file__).resolve().parents[2] / "tests/tables"))
import rows_of_server as rows  # noqa: E402

OPENING, OPENED = "startup 3.0 -", b"\0\0\0\x09\0\3\0\0\0"

# The longest stream of which each byte is changed.
SHORT = 64


def streams():
    """Those of the tables, and one for each body that a stream can hold, with the lines of each."""
    yield from rows.STREAMS
    for tag, body, line in rows.decoded():
        length = (len(body) + 4).to_bytes(4, "big")
        if tag is None and len(body) >= 4:
            yield length + body, [line]
        elif tag is not None:
            yield OPENED + tag + length + body, [OPENING, line]


def changed(stream):
    """A stream with one byte changed, each in turn."""
    for at, byte in enumerate(stream):
        yield stream[:at] + bytes([byte ^ 0xFF]) + stream[at + 1 :]


def printed(program, streams):
    """The run of the program over streams, each of which is in a file of its own, and the lines of each."""
    with tempfile.TemporaryDirectory() as folder:
        files = [pathlib.Path(folder, str(number)) for number in range(len(streams))]
        for file, stream in zip(files, streams):
            file.write_bytes(stream)
        ran = subprocess.run([program, *files], capture_output=True)
    found = [[]]
    for line in ran.stdout.decode().split("\n"):
        if line:
            found[-1].append(line)
        else:
            found.append([])
    return ran, found


def judge(program, cases, hostile):
    """Words for each stream of which the program prints other lines than are due, and where it fails."""
    ran, found = printed(program, [*(stream for stream, _ in cases), *hostile])
    if (ran.returncode, ran.stderr) != (0, b""):
        yield f"status {ran.returncode} after {len(found)} streams: {ran.stderr.decode(errors='replace'):.300}"
    for (stream, due), lines in itertools.zip_longest(cases, found[: len(cases)], fillvalue=[]):
        if lines != due:
            yield f"{lines!s:.300} and not {due!s:.300}, of {stream.hex():.200}"


def as_it_comes(program):
    """Words where the line of a message isn't there before the next one is sent."""
    with subprocess.Popen([program], stdin=subprocess.PIPE, stdout=subprocess.PIPE, bufsize=0) as ran:
        for frame, line in rows.FRAMES:
            ran.stdin.write(frame)
            found = ran.stdout.readline().decode()
            if found != f"{line}\n":
                return [f"as it comes: {found!r} and not {line}"]
        ran.stdin.close()
        return [] if (ran.stdout.read(), ran.wait()) == (b"", 0) else ["as it comes: it ends otherwise"]


def main():
    [program], cases = asked.words(__doc__, "PROGRAM"), [*streams()]
    hostile = [other for stream, _ in cases if len(stream) <= SHORT for other in changed(stream)]
    wrong = [*judge(program, cases, hostile), *as_it_comes(program)]
    print(f"{len(cases) + len(hostile) + 1} streams")
    print(*wrong[:10], sep="\n", end="", file=sys.stderr)
    sys.exit(bool(wrong))


if __name__ == "__main__":
    main()
