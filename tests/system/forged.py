#!/usr/bin/env python3
"""A server of one connection that says to its client what it is told to, also where that is no login.

It listens on a free port of 127.0.0.1, which its first line says. HEARD gets what the client says. The words of SCRAM-SHA-256
are those of RFC 5802 for the password `known to both`:

    offer       offers SCRAM, `costly` challenges by ten million iterations, and `endless` by four thousand million
    challenge   challenges by 4096 iterations
    final       shows that the server knows the password
    clear       asks for the password in clear text
    notice      says something that isn't part of a login
    version     says that it speaks an older version of the protocol
    ok          accepts the login
    ready       is ready for a query
    rows        answers a query by a row of the text `forged`, and is ready
    follows     answers START_REPLICATION by a table and an Insert of the text `forged` in a transaction
    early       the same without saying that data go both ways
    latin       the same of a text that isn't UTF-8
    done        ends its data
    over        ends START_REPLICATION, and is ready
    orders      answers a query by a row of texts that a terminal obeys, `byte` by such a byte that isn't UTF-8, and `error` by
                an error of all of these
    long        begins a message of two gigabytes
"""

import base64
import contextlib
import hashlib
import hmac
import pathlib
import socket

from asked import words
from trace_server import column, int4, message

PASSWORD, SALT, NONCE = b"known to both", b"salt", b"of-the-server"

# What a terminal obeys: an escape, one of one character in UTF-8, and what turns the order of a text; and last a text that it
# doesn't obey.
ORDERS = [b"a\x1b[2Jb", b"a\xc2\x9b2Jb", b"a\xe2\x80\xaeb", b"a\xe2\x81\xa6b\x7f\r", "gr\u00fcn \u6f22".encode()]

# An escape of one byte.
BYTE = b"a\x9b2Jb"


def row(*texts):
    """A DataRow."""
    return message("D", len(texts), *(int4(len(text)) + text for text in texts))


def answer(*texts):
    """What answers a query by a row of these texts."""
    columns = [column(text, 0, 0, 25, -1, -1, 0) for text in texts]
    return message("T", len(texts), *columns) + row(*texts) + message("C", "SELECT 1") + message("Z", b"I")


def changes(text):
    """A transaction of pgoutput that inserts a row."""
    contents = [
        b"B" + bytes(8 + 8 + 4), b"R\0\0\0\1public\0t\0d\0\1\0name\0\0\0\0\x19\xff\xff\xff\xff",
        b"I\0\0\0\1N\0\1t" + int4(len(text)) + text, b"C\0" + bytes(8) + (77).to_bytes(8, "big") + bytes(8)]
    return b"".join(message("d", b"w" + bytes(24) + it) for it in contents)


# Data go both ways: a CopyBothResponse.
BOTH = message("W", b"\0", 0)


def challenge(first, iterations):
    """The challenge to a client's first message."""
    return b"r=" + first.rpartition(b"r=")[2] + NONCE + b",s=" + base64.b64encode(SALT) + b",i=%d" % iterations


def verifier(first, challenged, answered):
    """What shows the client that the server knows the password."""
    signed = b",".join([first.partition(b"n,,")[2], challenged, answered.partition(b",p=")[0]])
    salted = hashlib.pbkdf2_hmac("sha256", PASSWORD, SALT, 4096)
    key = hmac.digest(salted, b"Server Key", "sha256")
    return b"v=" + base64.b64encode(hmac.digest(key, signed, "sha256"))


SAID = {
    "offer": message("R", int4(10), "SCRAM-SHA-256", b"\0"),
    "clear": message("R", int4(3)),
    "notice": message("N", "Ma", b"\0"),
    "version": message("v", int4(3 << 16), int4(0)),
    "ok": message("R", int4(0)),
    "ready": message("Z", b"I"),
    "rows": answer(b"forged"),
    "follows": BOTH + changes(b"forged"),
    "early": changes(b"forged"),
    "latin": BOTH + changes(b"gr\xfcn"),
    "done": message("c"),
    "over": message("C", "COPY 0") + message("C", "START_REPLICATION") + message("Z", b"I"),
    "orders": answer(*ORDERS),
    "byte": answer(BYTE),
    "error": message("E", "SERROR", "C42P01", b"M" + b"|".join([BYTE, *ORDERS]) + b"\0", b"\0"),
    "long": b"d\x7f\xff\xff\xff",
}

ITERATIONS = {"challenge": 4096, "costly": 10_000_000, "endless": 4_000_000_000}


class Exchange:
    """What was said of SCRAM."""

    def __init__(self):
        self.first = self.challenged = self.answered = b""

    def say(self, word):
        """The message of a word."""
        if word in ITERATIONS:
            self.challenged = challenge(self.first, ITERATIONS[word])
            return message("R", int4(11), self.challenged)
        if word == "final":
            return message("R", int4(12), verifier(self.first, self.challenged, self.answered))
        return SAID[word]

    def hear(self, word, said):
        """Takes what answers the message of a word."""
        if word == "offer":
            self.first = said[5:].partition(b"\0")[2][4:]
        elif word in ITERATIONS:
            self.answered = said[5:]


def serve(client, said, heard):
    """Says each of these words, and waits for an answer where one is due."""
    exchange = Exchange()
    heard.write(client.recv(65536))
    for word in said:
        client.sendall(exchange.say(word))
        if word not in ("notice", "version", "ok", "final") and (more := client.recv(65536)):
            heard.write(more)
            exchange.hear(word, more)
    client.shutdown(socket.SHUT_WR)
    while more := client.recv(65536):
        heard.write(more)


def main():
    path, said = words(__doc__, "HEARD", "WORDS..")
    with socket.create_server(("127.0.0.1", 0)) as listening, pathlib.Path(path).open("wb", 0) as heard:
        print(listening.getsockname()[1], flush=True)
        listening.settimeout(30)
        client = listening.accept()[0]
        client.settimeout(30)
        with client, contextlib.suppress(OSError):
            serve(client, said, heard)


main()
