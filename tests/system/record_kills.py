#!/usr/bin/env python3
"""Kills a recorder while rows pass through it.

    record_kills.py PG_RECORD RECORDING TURNS

In each turn three clients ask the server at PGPORT for rows. Both readers must read each file to its last whole record, and
the file must have all that a client got. Prints the number of files, of their records, and of the files that end within a
record.
"""

import collections
import itertools
import pathlib
import random
import re
import struct
import subprocess
import sys
import threading
import time
import socket

import asked

sys.path.insert(0, str(pathlib.Path(__file__).resolve().parents[2] / "programs/examples"))
import read_recording  # noqa: E402

SETTINGS = b"user\0postgres\0database\0postgres\0\0"
STARTUP = struct.pack(">II", 8 + len(SETTINGS), 196608) + SETTINGS
ROWS = b"COPY (SELECT repeat('x', 1023) FROM generate_series(1, 1000000)) TO STDOUT\0"
LOADED = 10_000


def ask(port, got):
    """Asks for rows, takes them until the connection ends, and adds how many bytes came."""
    count = 0
    try:
        with socket.create_connection(("127.0.0.1", port)) as client:
            client.sendall(STARTUP + b"Q" + struct.pack(">I", 4 + len(ROWS)) + ROWS)
            while some := client.recv(1 << 16):
                count += len(some)
    except ConnectionError:
        pass
    got.append(count)


def killed(program, path):
    """Leaves a recording whose recorder was killed. How many bytes each client got, from the most on."""
    got = []
    path.unlink(missing_ok=True)
    recorder = subprocess.Popen([program, "-o", path, "0"], stderr=subprocess.PIPE, text=True)
    with recorder.stderr:
        port = int(recorder.stderr.readline().split()[-1])
    clients = [threading.Thread(target=ask, args=(port, got)) for _ in range(3)]
    for client in clients:
        client.start()
    while path.stat().st_size < LOADED:
        time.sleep(0.001)
    time.sleep(random.random() / 30)
    recorder.kill()
    recorder.wait()
    for client in clients:
        client.join()
    return sorted(got, reverse=True)


def sent_of(records):
    """How many bytes the records have of the server for each connection, from the most on."""
    sent = collections.Counter()
    for _, kind, connection, _, content in records:
        sent[connection] += len(content) if kind == "B" else 0
    return sorted(sent.values(), reverse=True)


def read_by_both(program, path):
    """The whole records of a recording, and whether it ends within one."""
    with open(path, "rb") as file:
        read_recording.head_of(file)
        records = list(read_recording.records(file))
    is_cut = records[-1] is None
    if is_cut:
        records.pop()
    run = subprocess.run([program, "--print", path, "--trace"], stdout=subprocess.DEVNULL, stderr=subprocess.PIPE, text=True)
    named = re.search(r"ends within a record: .* to offset (\d+)", run.stderr)
    if run.returncode != 0 or bool(named) != is_cut:
        sys.exit(f"status {run.returncode}: {run.stderr}")
    at, *_, content = records[-1]
    end = at + read_recording.RECORD_HEAD.size + len(content) + read_recording.CHECKSUM.size
    if end != (int(named[1]) if is_cut else path.stat().st_size):
        sys.exit(f"the last whole record ends at {end}: {run.stderr}")
    return records, is_cut


def main():
    program, path, turns = asked.words(__doc__, "PG_RECORD", "RECORDING", "TURNS")
    count, cut = 0, 0
    for _ in range(int(turns)):
        got = killed(program, pathlib.Path(path))
        records, is_cut = read_by_both(program, pathlib.Path(path))
        sent = sent_of(records)
        if any(count > most for count, most in itertools.zip_longest(got, sent, fillvalue=0)):
            sys.exit(f"clients got {got} bytes, of which {sent} are recorded")
        count, cut = count + len(records), cut + is_cut
    print(turns, "files,", count, "records,", cut, "end within one")


if __name__ == "__main__":
    main()
