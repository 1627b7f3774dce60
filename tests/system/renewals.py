#!/usr/bin/env python3
"""Two replays that renew one recording at the same time, while pg_tape drops a session of it; many rounds:

    renewals.py PROGRAMS FILE ROUNDS

PGPORT names a server at 127.0.0.1. Each replay gives a session another end and records a new one. Ends with 1 at a round
after which the recording has other sessions than it should have.
"""

import collections
import json
import os
import socket
import struct
import subprocess
import threading

import asked

# The status of pg_tape where another program has changed its file meanwhile, and of a replay that was told to end.
CHANGED = 7
ENDED = 143


def frame(tag, body):
    return tag + struct.pack(">I", 4 + len(body)) + body


class Replay:
    """A replay by which what is missing is recorded."""

    def __init__(self, programs, file):
        self.process = subprocess.Popen(
            [f"{programs}/pg_replay", "--record-missing", "--any-order", "--again", "-h", "127.0.0.1", "-p", os.environ["PGPORT"],
             file, "0"], stderr=subprocess.PIPE, text=True)
        self.port = int(self.process.stderr.readline().split()[-1])

    def say(self, *queries):
        """Says queries in a session, one after the other."""
        with socket.create_connection(("127.0.0.1", self.port)) as client:
            client.sendall(frame(b"", b"\0\3\0\0user\0postgres\0database\0postgres\0\0"))
            for query in queries:
                self.await_ready(client)
                client.sendall(frame(b"Q", query.encode() + b"\0"))
            self.await_ready(client)
            client.sendall(frame(b"X", b""))
            # The session is recorded once the other side has closed it.
            while client.recv(1 << 16):
                pass

    def await_ready(self, client):
        said = b""
        while not said.endswith(b"Z\0\0\0\5I"):
            data = client.recv(1 << 16)
            if not data:
                raise SystemExit(f"a replay ends: {said!r} {self.process.communicate()[1]}")
            said += data

    def end(self):
        said = self.process.communicate()[1]
        if self.process.returncode != ENDED:
            raise SystemExit(f"a replay ended with {self.process.returncode}: {said}")


def sessions(programs, file):
    """What each session of a recording asks, and how often."""
    lines = subprocess.run([f"{programs}/pg_tape", "export", file], check=True, stdout=subprocess.PIPE).stdout
    asked_by = collections.defaultdict(list)
    for line in map(json.loads, lines.splitlines()):
        if line["kind"] == "Query":
            asked_by[line["connection"]].append(line["query"])
    return collections.Counter(map(tuple, asked_by.values()))


def drop_first(programs, file):
    """Drops the first session, and begins anew where the recording was changed meanwhile."""
    status = CHANGED
    while status == CHANGED:
        status = subprocess.run([f"{programs}/pg_tape", "drop", file, "1", "-o", file], stderr=subprocess.DEVNULL).returncode
    if status:
        raise SystemExit(f"pg_tape drop ended with {status}")


def session(number, at, end):
    """What a client of one of the two replays asks in a round, and how that ends."""
    return f"SELECT '{number}, {at}'", f"SELECT '{number}, {at}, {end}'"


def run_round(programs, file, number):
    """Renews the sessions of the round before, records new ones, and drops the first of all."""
    replays = [Replay(programs, file) for _ in range(2)]
    for at, replay in enumerate(replays):
        replay.say(*session(number, at, "new"))
        replay.say(*session(number + 1, at, "old"))
    dropping = threading.Thread(target=drop_first, args=(programs, file))
    for replay in replays:
        replay.process.terminate()
    dropping.start()
    for replay in replays:
        replay.end()
    dropping.join()


def main(programs, file, rounds):
    dropped = [(f"SELECT '{number}'",) for number in range(rounds)]
    wanted = collections.Counter([*dropped, *(session(0, at, "old") for at in range(2))])
    replay = Replay(programs, file)
    for each in wanted:
        replay.say(*each)
    replay.process.terminate()
    replay.end()
    for number in range(rounds):
        run_round(programs, file, number)
        for at in range(2):
            wanted[session(number, at, "old")] -= 1
            wanted.update([session(number, at, "new"), session(number + 1, at, "old")])
        wanted[dropped[number]] -= 1
        wanted, found = +wanted, sessions(programs, file)
        if found != wanted:
            raise SystemExit(f"round {number + 1}: lost are {[*(wanted - found)]}, and too many {[*(found - wanted)]}")
    print(f"{rounds} rounds, {found.total()} sessions")


if __name__ == "__main__":
    programs, file, rounds = asked.words(__doc__, "PROGRAMS", "FILE", "ROUNDS")
    main(programs, file, int(rounds))
