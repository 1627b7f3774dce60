#!/usr/bin/env python3
"""Passes sessions of random messages, cut anywhere, through pg_record.

    record_pieces.py PG_RECORD RECORDING COUNT

Each side must get the bytes that the other sent, and the recording must have them, but for the bodies of passwords and of
SASL. Some sides end within a message, or send bytes that are no message. Prints how many messages passed, and how many
were left out.
"""

import pathlib
import random
import socket
import struct
import subprocess
import sys
import threading

import asked

sys.path.insert(0, str(pathlib.Path(__file__).resolve().parents[2] / "programs/examples"))
import read_recording  # noqa: E402

FIRST = struct.pack(">II", 22, 196608) + b"user\0postgres\0"
SECRET_METHODS = (8, 10, 11, 12)


def message(tag, body):
    return tag + struct.pack(">I", 4 + len(body)) + body


def said_by(is_client):
    """What a side says: its bytes, what is recorded of them, how many messages it has, how many are left out."""
    said, taped, count, hidden = (FIRST, FIRST, 1, 0) if is_client else (b"", b"", 0, 0)
    for _ in range(random.randrange(40)):
        body = random.randbytes(random.choice((0, 1, 3, 4, 5, 9, 200, random.randrange(1000), random.randrange(200_000))))
        if is_client:
            tag = random.choice((b"Q", b"d", b"p", b"X", b"P"))
        else:
            tag = random.choice((b"R", b"R", b"D", b"d", b"\xff"))
            body = struct.pack(">I", random.choice((0, 3, 5, *SECRET_METHODS))) + body if random.random() < 0.7 else body[:3]
        is_hidden = tag == b"p" if is_client else tag == b"R" and len(body) > 3 and body[3] in SECRET_METHODS
        whole = message(tag, body)
        said, taped = said + whole, taped + (whole[:5] if is_hidden else whole)
        count, hidden = count + 1, hidden + is_hidden
    end = random.choice((b"", b"", b"Q\0", b"d\0\0\1\0abc", b"R\0\0\0\3" + random.randbytes(900)))
    return said + end, taped + end, count, hidden


def send(to, said):
    """Sends in pieces, and ends."""
    at = 0
    while at < len(said):
        size = random.choice((1, 2, 5, 8, 100, 100_000))
        to.sendall(said[at : at + size])
        at += size
    to.shutdown(socket.SHUT_WR)


def receive(source):
    got = bytearray()
    while more := source.recv(1 << 20):
        got += more
    return bytes(got)


def run_session(listener, port):
    """A session of both sides, and what is to be recorded of each."""
    client, asked = socket.create_connection(("127.0.0.1", port)), said_by(True)
    client.setsockopt(socket.IPPROTO_TCP, socket.TCP_NODELAY, 1)
    asking = threading.Thread(target=send, args=(client, asked[0]))
    asking.start()
    server, answered = listener.accept()[0], said_by(False)
    server.setsockopt(socket.IPPROTO_TCP, socket.TCP_NODELAY, 1)
    if receive(server) != asked[0]:
        sys.exit("the server doesn't get what the client says")
    answering = threading.Thread(target=send, args=(server, answered[0]))
    answering.start()
    if receive(client) != answered[0]:
        sys.exit("the client doesn't get what the server says")
    for thread, side in (asking, client), (answering, server):
        thread.join()
        side.close()
    return asked, answered


def check(path, sessions):
    """Compares a recording with what was said."""
    taped = {(number, side): [b"", 0] for number in range(1, len(sessions) + 1) for side in "FB"}
    with open(path, "rb") as file:
        read_recording.head_of(file)
        for _, kind, connection, _, content in read_recording.records(file):
            if kind in "FBfb":
                part = taped[connection, kind.upper()]
                part[0] += content
                part[1] += kind.islower()
    for number, session in enumerate(sessions, 1):
        for side, (_, expected, _, hidden) in zip("FB", session):
            if taped[number, side] != [expected, hidden]:
                sys.exit(f"what {side} of connection {number} says isn't what is recorded")


def main():
    program, path, count = asked.words(__doc__, "PG_RECORD", "RECORDING", "COUNT")
    seed = random.randrange(1 << 32)
    random.seed(seed)
    listener = socket.create_server(("127.0.0.1", 0))
    address = ["-h", "127.0.0.1", "-p", str(listener.getsockname()[1])]
    recorder = subprocess.Popen([program, *address, "-o", path, "0"], stderr=subprocess.PIPE, text=True)
    try:
        port = int(recorder.stderr.readline().split()[-1])
        sessions = [run_session(listener, port) for _ in range(int(count))]
    except SystemExit as fault:
        sys.exit(f"seed {seed}: {fault}")
    finally:
        recorder.terminate()
    if recorder.wait() != 143:
        sys.exit(f"seed {seed}: status {recorder.returncode}: {recorder.stderr.read()}")
    check(path, sessions)
    print(*(sum(side[place] for session in sessions for side in session) for place in (2, 3)))


if __name__ == "__main__":
    main()
