#!/usr/bin/env python3
"""Says messages to the server at PGPORT of this machine, and prints its answers.

    replay_client.py WORD..

startup:user=ann,database=x    query:TEXT    parse:STATEMENT:TEXT    bind:PORTAL:STATEMENT:VALUE,VALUE
describe:S:NAME    close:P:NAME    execute:PORTAL:ROWS    copydata:TEXT    copydone    flush    sync    terminate
ssl    gss    cancel    raw:DIGITS    announce:TAG:LENGTH    huge:LENGTH:LETTER
send         sends what was said so far: at once, but `slowly` in pieces of a byte each hundredth of a second
read         sends, and reads up to a ReadyForQuery; `count:N` reads so many messages, and `byte` a byte
timed:SECONDS    does as `read`, and prints whether that took so long
end          sends, and reads to the end; `half` sends, and then no more; `sleep:SECONDS` waits
at:NUMBER    goes on with the connection of this number; the first is 1. `leave` closes it
"""

import os
import socket
import struct
import sys
import time

import asked


def frame(tag, *parts):
    body = b"".join(part if isinstance(part, bytes) else part.encode() + b"\0" for part in parts)
    return tag + struct.pack(">I", len(body) + 4) + body


def startup(settings):
    pairs = [part for setting in settings.split(",") for part in setting.split("=")]
    return frame(b"", struct.pack(">I", 196608), *pairs, b"\0")


def bind(portal, statement, values):
    values = values.split(",") if values else []
    counted = b"".join(struct.pack(">i", len(value)) + value.encode() for value in values)
    return frame(b"B", portal, statement, struct.pack(">HH", 0, len(values)), counted, b"\0\0")


MESSAGES = {
    "startup": startup,
    "query": lambda text: frame(b"Q", text),
    "parse": lambda statement, text: frame(b"P", statement, text, b"\0\0"),
    "bind": bind,
    "describe": lambda letter, name: frame(b"D", letter.encode(), name),
    "close": lambda letter, name: frame(b"C", letter.encode(), name),
    "execute": lambda portal, rows: frame(b"E", portal, struct.pack(">I", int(rows))),
    "copydata": lambda text: frame(b"d", text.encode() + b"\n"),
    "copydone": lambda: frame(b"c"),
    "flush": lambda: frame(b"H"),
    "sync": lambda: frame(b"S"),
    "terminate": lambda: frame(b"X"),
    "ssl": lambda: struct.pack(">II", 8, 80877103),
    "gss": lambda: struct.pack(">II", 8, 80877104),
    "cancel": lambda: struct.pack(">IIII", 16, 80877102, 1, 2),
    "raw": bytes.fromhex,
    "announce": lambda tag, length: tag.encode() + struct.pack(">I", int(length)),
    "huge": lambda length, letter: frame(b"d", letter.encode() * int(length)),
}


class Client:
    def __init__(self, port):
        self.socket = socket.create_connection(("127.0.0.1", port))
        self.socket.setsockopt(socket.IPPROTO_TCP, socket.TCP_NODELAY, 1)
        self.stream = self.socket.makefile("rb")
        self.said = b""
        self.is_slow = False

    def send(self):
        size = 1 if self.is_slow else max(len(self.said), 1)
        for at in range(0, len(self.said), size):
            self.socket.sendall(self.said[at:at + size])
            if self.is_slow:
                time.sleep(0.01)
        self.said = b""

    def read(self):
        """Prints a message, and answers its tag: none at the end."""
        head = self.stream.read(5)
        if len(head) < 5:
            print("end")
            return b""
        body = self.stream.read(struct.unpack(">I", head[1:])[0] - 4)
        print(head[:1].decode(), body if len(body) < 5000 else len(body))
        return head[:1]

    def read_to(self, last):
        self.send()
        while (tag := self.read()) not in (last, b""):
            pass
        sys.stdout.flush()

    def count(self, number):
        self.send()
        for _ in range(int(number)):
            self.read()
        sys.stdout.flush()

    def timed(self, seconds):
        begun = time.monotonic()
        self.read_to(b"Z")
        print("so long" if time.monotonic() - begun >= float(seconds) else "less")

    def leave(self):
        self.stream.close()
        self.socket.close()

    def byte(self):
        self.send()
        print(self.stream.read(1).decode())

    def do(self, word):
        name, *parts = word.split(":", word.count(":") if word.split(":")[0] not in ("query", "parse") else 1)
        if name == "parse":
            parts = parts[0].split(":", 1)
        if name in MESSAGES:
            self.said += MESSAGES[name](*parts)
        elif name == "slowly":
            self.is_slow = True
        elif name == "sleep":
            self.send()
            time.sleep(float(parts[0]))
        elif name == "read":
            self.read_to(b"Z")
        elif name == "end":
            self.read_to(b"")
        elif name == "half":
            self.send()
            self.socket.shutdown(socket.SHUT_WR)
        else:
            {"send": self.send, "count": self.count, "byte": self.byte, "timed": self.timed,
             "leave": self.leave}[name](*parts)


def say(words):
    """Says words, each at the connection that was named last."""
    port = int(os.environ["PGPORT"])
    sys.stdout.reconfigure(line_buffering=True)
    clients = {"1": Client(port)}
    client = clients["1"]
    for word in words:
        if word.startswith("at:"):
            number = word.removeprefix("at:")
            client = clients[number] = clients.get(number) or Client(port)
        else:
            client.do(word)


try:
    say(*asked.words(__doc__, "WORD.."))
except ConnectionError as error:
    print("broken", type(error).__name__)
