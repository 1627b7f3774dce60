#!/usr/bin/env python3
"""Keeps what clients say to a server, and compares it with what pg_tool reads of it.

    said.py keep FOLDER PORT       passes connections on to a port of this machine, and keeps what each client says in a
                                   file of the folder, and what the server answers in one of its name with .answers;
                                   prints its own port
    said.py pass PORT SAID ANSWERED    passes one connection on, and keeps both sides in files; prints its own port
    said.py read FOLDER PROGRAM    PG_TOOL must read each file as messages and nothing else, and the program must print
                                   the same lines; prints each kind
"""

import collections
import contextlib
import itertools
import os
import pathlib
import socket
import subprocess
import sys
import threading

import asked

sys.path.insert(0, str(pathlib.Path(__file__).resolve().parents[2] / "tests/tables"))
import rows_of_server as rows  # noqa: E402

PIECE = 65536

# The first words of lines that have no message.
NO_KINDS = {"rest", *(line.split(" ")[0] for _, _, line in rows.FAULTS)}


def keep(folder, port):
    """Passes connections on until it is killed."""
    listener = socket.create_server(("127.0.0.1", 0))
    print(listener.getsockname()[1], flush=True)
    for number in itertools.count():
        client, _ = listener.accept()
        server = socket.create_connection(("127.0.0.1", port))
        said = open(folder / f"{number:04}", "wb", buffering=0)
        answered = open(folder / f"{number:04}.answers", "wb", buffering=0)
        for way in (client, server, said), (server, client, answered):
            threading.Thread(target=pass_on, args=way, daemon=True).start()


def keep_one(port, *paths):
    """Passes one connection on, and keeps what each side says."""
    with socket.create_server(("127.0.0.1", 0)) as listener:
        print(listener.getsockname()[1], flush=True)
        client, _ = listener.accept()
    server = socket.create_connection(("127.0.0.1", port))
    with client, server, open(paths[0], "wb") as said, open(paths[1], "wb") as answered:
        ways = [threading.Thread(target=pass_on, args=way) for way in ((client, server, said), (server, client, answered))]
        for way in ways:
            way.start()
        for way in ways:
            way.join()


def pass_on(source, target, kept):
    """Passes bytes on to their end, and keeps them."""
    with contextlib.suppress(OSError):
        while data := source.recv(PIECE):
            kept.write(data)
            target.sendall(data)
    with contextlib.suppress(OSError):
        target.shutdown(socket.SHUT_WR)


def lines_of(command, said):
    """The lines that a program prints of a stream."""
    return subprocess.run(command, input=said, stdout=subprocess.PIPE, check=True).stdout.decode().splitlines()


def read(folder, program):
    """Reads each file."""
    kinds = collections.Counter()
    files = [file for file in sorted(folder.iterdir()) if not file.suffix]
    for file in files:
        said = file.read_bytes()
        lines = lines_of([os.environ["PG_TOOL"], "server", "stream"], said)
        if lines_of([program], said) != lines:
            raise ValueError(f"{file.name}: {program} prints other lines")
        kinds.update(line.split(" ")[0] for line in lines)
    if not NO_KINDS.isdisjoint(kinds):
        raise ValueError(f"no messages: {kinds}")
    print(" ".join(sorted(kinds)))
    print(f"{kinds.total()} messages of {len(files)} connections", file=sys.stderr)


def main():
    match asked.words(__doc__, keep="FOLDER PORT", **{"pass": "PORT SAID ANSWERED"}, read="FOLDER PROGRAM"):
        case "keep", folder, port:
            keep(pathlib.Path(folder), int(port))
        case "pass", port, said, answered:
            keep_one(int(port), said, answered)
        case "read", folder, program:
            read(pathlib.Path(folder), program)


if __name__ == "__main__":
    main()
