#!/usr/bin/env python3
"""Passes recordings on, and compares what goes out with what came.

    passed_on.py FOLDER PROGRAM..    of the folder that `said.py keep` filled, each file goes through the program, in
                                     pieces that it cuts by a seed, once with all messages taken whole and once with a few;
                                     so does what a server said by a file of lines, each a tag and a body in hexadecimal
                                     digits; prints how many messages and bytes these were
"""

import pathlib
import subprocess
import sys

import asked

# The codes of an SSLRequest and a GSSENCRequest, each answered by a byte that is no message.
REQUESTS = {(80877103).to_bytes(4, "big"), (80877104).to_bytes(4, "big")}

# Tags that are taken whole in the second run: some of a client's and some of a server's.
TAGS = "QBDZE"


def requests(said):
    """How many requests for encryption begin what a client says."""
    count = 0
    while said[8 * count + 4 : 8 * count + 8] in REQUESTS:
        count += 1
    return count


def count(stream, firsts):
    """How many messages a stream has, of which so many are without a tag."""
    at = messages = 0
    while at < len(stream):
        head = 0 if messages < firsts else 1
        at += head + int.from_bytes(stream[at + head : at + head + 4], "big")
        messages += 1
    if at != len(stream):
        raise ValueError("a recording ends within a message")
    return messages


def frame(tag, body=""):
    """The bytes of a message."""
    content = bytes.fromhex(body.strip("-"))
    return bytes.fromhex(tag) + (len(content) + 4).to_bytes(4, "big") + content


def streams(folder):
    """The side, the bytes, and the number of messages of each recording."""
    for file in sorted(folder.iterdir()):
        if file.suffix == ".lines":
            lines = file.read_text().splitlines()
            yield "server", b"".join(frame(*line.split()) for line in lines), len(lines)
        elif not file.suffix:
            said, answered = file.read_bytes(), file.with_suffix(".answers").read_bytes()
            asked = requests(said)
            yield "client", said, count(said, asked + 1)
            yield "server", answered[asked:], count(answered[asked:], 0)


def judge(command, stream, messages):
    """Words where a program doesn't pass a stream on as it is."""
    ran = subprocess.run(command, input=stream, capture_output=True)
    due = f"{messages} messages of {len(stream)} bytes\n"
    if (ran.returncode, ran.stdout, ran.stderr.decode()) == (0, stream, due):
        return []
    return [f"{' '.join(command)}: status {ran.returncode}, {len(ran.stdout)} bytes, {ran.stderr.decode()} and not {due}"]


def main():
    folder, program = asked.words(__doc__, "FOLDER", "PROGRAM..")
    wrong, all_messages, all_bytes = [], 0, 0
    for seed, (side, stream, messages) in enumerate(streams(pathlib.Path(folder))):
        for tags in ([], [TAGS]):
            wrong += judge([*program, side, str(seed), *tags], stream, messages)
        all_messages += messages
        all_bytes += len(stream)
    print(f"{all_messages} messages of {all_bytes} bytes in {seed + 1} streams")
    print(*wrong[:10], sep="\n", end="", file=sys.stderr)
    sys.exit(bool(wrong))


if __name__ == "__main__":
    main()
