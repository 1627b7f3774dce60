"""Bytes of any kind: each is read or refused by a Fault, and what is read is written as it came or can't be sent."""

import random
import unittest

from support import tagged
import samples
from pgmsg import *
from pgmsg.tags import BACKEND, FRONTEND

ROUNDS = 300

KINDS = [*BACKEND.values(), *FRONTEND.values(), PasswordMessage, SASLInitialResponse, SASLResponse, GSSResponse]

BODIES = sorted({data[5:] for _, data in samples.TAGGED} | {data[4:] for _, data in samples.FIRST})


def changed(chance, body):
    """A body with some bytes changed, and perhaps cut."""
    made = bytearray(body)
    for _ in range(chance.randrange(4)):
        if made:
            made[chance.randrange(len(made))] = chance.choice([0, 1, 4, 0x7F, 0x80, 0xC3, 0xFF, chance.randrange(256)])
    return bytes(made[: chance.randrange(len(made) + 1)] if chance.randrange(2) else made)


class TestHostile(unittest.TestCase):
    def test_bodies(self):
        chance = random.Random(1)
        for _ in range(ROUNDS):
            body = changed(chance, chance.choice(BODIES) if chance.randrange(4) else chance.randbytes(30))
            for kind in KINDS:
                with self.subTest(kind=kind.__name__, body=body):
                    try:
                        message = kind.read(Frame(kind.TAG, body))
                        again = message.write()
                    except Fault as fault:
                        self.assertLessEqual(fault.at, len(body))
                        continue
                    # What follows the parts of a server's message is left out.
                    front = again[4 + (kind.TAG is not None) :]
                    self.assertEqual(type(message).read(Frame(kind.TAG, front)), message)
                    self.assertLessEqual(len(front), len(body) + 4)

    def test_streams(self):
        chance = random.Random(2)
        for _ in range(ROUNDS):
            sent = changed(chance, b"".join(
                tagged(chance.choice(b"RKZTDv"), changed(chance, chance.choice(BODIES))) for _ in range(3)))
            streams = [ClientStream() for _ in range(2)]
            for stream, size in zip(streams, (1, len(sent) + 1)):
                stream.found = []
                try:
                    for at in range(0, len(sent), size):
                        stream.feed(sent[at : at + size])
                        for message in stream:
                            stream.found.append(message)
                except Fault:
                    self.assertRaises(Fault, list, stream)
            self.assertEqual(*[stream.found for stream in streams])

    def test_rows(self):
        chance = random.Random(3)
        for _ in range(ROUNDS):
            stream, rows = ClientStream(), []
            sent = changed(chance, b"".join(tagged(68, chance.choice(BODIES)) for _ in range(3)))
            stream.feed(sent)
            try:
                for kind in (bytes, memoryview, str):
                    rows += stream.rows(kind)
            except (Fault, UnicodeDecodeError):
                pass
            for row in rows:
                for cell in row:
                    self.assertTrue(cell is None or bytes(cell) in sent)


if __name__ == "__main__":
    unittest.main()
