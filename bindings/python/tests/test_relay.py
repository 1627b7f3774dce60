"""Streams that are passed on, cut anywhere, kept and changed."""

import random
import unittest
from unittest import mock

from support import tagged
import pgmsg
from pgmsg import Answer, Code, Fault, Frame, NoData, NoticeResponse, Part, Place, Relay, WholeFrame, check_frames, write

LIMIT = 1 << 16

REQUEST, STARTUP = b"\0\0\0\x08\x04\xd2\x16\x2f", b"\0\0\0\x12\0\3\0\0user\0ann\0\0"


def messages(chance):
    """Messages with tags, of which a few are of more bytes than a piece has."""
    lengths = [chance.randrange(chance.choice([1, 10, 300])) for _ in range(chance.randrange(20))]
    return [tagged(chance.randrange(256), chance.randbytes(length)) for length in lengths]


def pieces(chance, stream, most):
    """The pieces of a stream, each of up to so many bytes, also of none."""
    while stream:
        size = chance.randrange(most + 1)
        yield stream[:size]
        stream = stream[size:]


def passed(relay, pieces):
    """What goes out of pieces, with each whole message, all of which are kept."""
    whole = []

    def keep(frame):
        whole.append(bytes(frame.bytes))
        return Answer(Place.KEEP)

    return b"".join(relay.pass_on(piece, keep) for piece in pieces), whole


class TestPassing(unittest.TestCase):
    def test_random_messages_in_random_pieces(self):
        chance = random.Random(1)
        for turn in range(200):
            sent = messages(chance)
            wanted = chance.choice([bytes(range(256)), b"", chance.randbytes(100)])
            firsts = [REQUEST] * chance.randrange(3) + [STARTUP] if turn % 2 else []
            stream = b"".join(firsts + sent)
            relay = (Relay.of_client if turn % 2 else Relay.of_server)(LIMIT, wanted)
            out, whole = passed(relay, pieces(chance, stream, chance.randrange(100) + 1))
            self.assertEqual(out, stream)
            self.assertEqual(whole, firsts + [message for message in sent if message[0] in wanted])
            self.assertEqual((relay.held, relay.left, relay.expects_first), (b"", 0, False))

    def test_cut_in_two_and_ended_anywhere(self):
        stream = REQUEST + STARTUP + tagged(81, b"SELECT 1\0") + tagged(100, b"12") + tagged(83, b"")
        for wanted in (bytes(range(256)), b"", b"d", b"Q"):
            for at in range(len(stream) + 1):
                relay = Relay.of_client(LIMIT, wanted)
                self.assertEqual(passed(relay, [stream[:at], stream[at:]])[0], stream)
                relay = Relay.of_client(LIMIT, wanted)
                self.assertEqual(passed(relay, [stream[:at]])[0] + relay.held, stream[:at])

    def test_events(self):
        relay = Relay.of_client(LIMIT, b"Q")
        stream = STARTUP + tagged(81, b"q\0") + tagged(100, b"1234")[:7]
        first, rest = relay.next(stream)
        self.assertEqual(first, WholeFrame(None, memoryview(STARTUP), False))
        self.assertEqual(first.frame(), Frame(None, STARTUP[4:]))
        second, rest = relay.next(rest)
        self.assertEqual(second.frame(), Frame(81, b"q\0"))
        self.assertIs(second.bytes.obj, stream)
        part, rest = relay.next(rest)
        self.assertEqual((part, rest, relay.left), (Part(memoryview(b"d\0\0\0\x0812"), 2), b"", 2))
        self.assertEqual(relay.next(rest), (None, b""))
        self.assertEqual(relay.next(b"345"), (Part(memoryview(b"34"), 0), b"5"))

    def test_a_gigabyte_in_parts(self):
        relay = Relay.of_server(100, b"Z")
        data, left = bytes(1 << 20), 1 << 30
        part, rest = relay.next(pgmsg.copy_head(left))
        self.assertEqual((part.left, rest), (left, b""))
        while left:
            part, rest = relay.next(data)
            left -= len(data)
            self.assertEqual((len(part.bytes), part.left, rest, relay.held), (len(data), left, b"", b""))
        self.assertEqual(relay.pass_on(b"Z\0\0\0\x05I"), b"Z\0\0\0\x05I")

    def test_what_is_held_is_asked_for_as_it_comes(self):
        relay = Relay.of_server((1 << 64) - 1)
        self.assertEqual(relay.pass_on(b"D\x7f\xff\xff\xff123"), b"")
        self.assertEqual(relay.held, b"D\x7f\xff\xff\xff123")

    def test_views_of_what_was_joined_stay(self):
        relay, found = Relay.of_server(LIMIT), []
        for at in range(100):
            message = tagged(68, bytes([at]))
            self.assertEqual(relay.next(message[:3]), (None, b""))
            found.append(relay.next(message[3:])[0])
        self.assertEqual([frame.frame().body for frame in found], [bytes([at]) for at in range(100)])

    def test_what_another_thread_changes_is_copied(self):
        for made in (bytearray, lambda data: memoryview(bytearray(data)), lambda data: memoryview(data)[::1].cast("b")):
            piece = made(STREAM)
            frame, rest = Relay.of_server(LIMIT).next(piece)
            self.assertIsNot(frame.bytes.obj, piece)
            self.assertEqual(bytes(frame.bytes) + bytes(rest), STREAM)
        frame, _ = Relay.of_server(LIMIT).next(memoryview(STREAM))
        self.assertIs(frame.bytes.obj, STREAM)


class TestRefusals(unittest.TestCase):
    def refused(self, relay, piece):
        """The code of a refusal, which leaves the relay as it was."""
        held = relay.held
        for _ in range(2):
            with self.assertRaises(Fault) as refused:
                relay.next(piece)
            self.assertEqual((relay.held, relay.left), (held, 0))
        return refused.exception.code

    def test_limits(self):
        message = tagged(81, b"SELECT 1\0")
        for cut in range(5):
            for limit in (0, 13):
                relay = Relay.of_server(limit)
                relay.pass_on(message[:cut])
                self.assertIs(self.refused(relay, message[cut:5]), Code.FRAME_TOO_LONG)
                self.assertIs(self.refused(relay, message[cut:]), Code.FRAME_TOO_LONG)
                self.assertEqual(passed(Relay.of_server(limit, b""), [message[:cut], message[cut:]])[0], message)
            relay = Relay.of_server(14)
            self.assertEqual(relay.pass_on(message[:cut]) + relay.pass_on(message[cut:]), message)
        self.assertIs(self.refused(Relay.of_client(17, b""), STARTUP), Code.FRAME_TOO_LONG)

    def test_bad_lengths(self):
        for make, head in [(Relay.of_server, b"D\0\0\0\3"), (Relay.of_server, b"d\xff\xff\xff\xff"),
                           (Relay.of_client, b"\0\0\0\7"), (Relay.of_client, b"\x80\0\0\0")]:
            for cut in range(len(head)):
                for wanted in (b"", bytes(range(256))):
                    relay = make(LIMIT, wanted)
                    self.assertEqual(relay.pass_on(head[:cut]), b"")
                    self.assertIs(self.refused(relay, head[cut:]), Code.BAD_LENGTH)

    def test_bytes_of_any_kind(self):
        chance = random.Random(2)
        for _ in range(500):
            stream = b"".join(messages(chance)) + chance.randbytes(7)
            relay = chance.choice([Relay.of_server, Relay.of_client])(40, chance.randbytes(100))
            came, out = b"", b""
            for piece in pieces(chance, stream, 12):
                came += piece
                try:
                    out += relay.pass_on(piece)
                except Fault:
                    break
            else:
                self.assertEqual(out + relay.held, came)
            self.assertTrue(came.startswith(out))
            self.assertLess(len(relay.held), 40)

    def test_mistakes(self):
        for call in (lambda: Relay.of_server(-1), lambda: Relay.of_server(1 << 64), lambda: Relay.of_server(1, [256])):
            self.assertRaises(OverflowError, call)


STREAM = b"1\0\0\0\x04" b"D\0\0\0\x06\0\0" b"Z\0\0\0\x05I"

ADDED = write(NoticeResponse({}), NoData())


class TestAnswers(unittest.TestCase):
    def answered(self, size, answer):
        """What goes out of the stream in pieces of a size, where its row is answered so."""
        relay = Relay.of_server(100, b"D")
        return b"".join(relay.pass_on(STREAM[at : at + size], lambda _: answer) for at in range(0, len(STREAM), size))

    def test_each(self):
        begin, row, end = STREAM[:5], STREAM[5:12], STREAM[12:]
        for size in range(1, len(STREAM) + 1):
            for place, due in [(Place.KEEP, row), (Place.OMIT, b""), (Place.REPLACE, ADDED),
                               (Place.ADD_BEFORE, ADDED + row), (Place.ADD_AFTER, row + ADDED)]:
                self.assertEqual(self.answered(size, Answer(place, ADDED)), begin + due + end)
            self.assertEqual(self.answered(size, Answer(Place.REPLACE)), begin + end)

    def test_what_is_added_has_to_be_whole_messages(self):
        for broken in (ADDED[:5], ADDED[:7], b"n", b"n\0\0\0\3", ADDED + b"d\x7f\xff\xff\xff"):
            for place in (Place.REPLACE, Place.ADD_BEFORE, Place.ADD_AFTER):
                with self.assertRaises(Fault) as refused:
                    self.answered(4, Answer(place, broken))
                self.assertIs(refused.exception.code, Code.NOT_FRAMES)

    def test_what_is_tested_goes_out(self):
        for change in (bytearray.clear, bytearray.reverse):
            added = bytearray(ADDED)

            def tested(*args):
                found = check_frames(*args)
                change(added)
                return found

            # As another thread comes in right after the test.
            with mock.patch.object(pgmsg.relay, "check_frames", tested):
                self.assertEqual(self.answered(len(STREAM), Answer(Place.REPLACE, added)), STREAM[:5] + ADDED + STREAM[12:])

    def test_messages_without_a_tag(self):
        other, sync = STARTUP.replace(b"ann", b"bob"), b"S\0\0\0\x04"
        for at, place, added, due in [
            (0, Place.OMIT, b"", STARTUP), (0, Place.REPLACE, REQUEST * 2, REQUEST * 2 + STARTUP),
            (0, Place.ADD_BEFORE, REQUEST, REQUEST * 2 + STARTUP), (1, Place.REPLACE, other, REQUEST + other),
            (1, Place.ADD_AFTER, sync, REQUEST + STARTUP + sync),
            # After these the stream would not go on as it does.
            (1, Place.OMIT, b"", None), (0, Place.REPLACE, STARTUP, None), (0, Place.ADD_AFTER, sync, None),
            (1, Place.ADD_BEFORE, STARTUP, None), (1, Place.REPLACE, REQUEST, None), (1, Place.ADD_AFTER, REQUEST, None),
        ]:
            answers = [Answer(Place.KEEP), Answer(Place.KEEP)]
            answers[at] = Answer(place, added)
            with self.subTest(at=at, place=place):
                relay = Relay.of_client(100, b"")
                if due is None:
                    self.assertRaises(Fault, relay.pass_on, REQUEST + STARTUP, lambda _: answers.pop(0))
                else:
                    self.assertEqual(relay.pass_on(REQUEST + STARTUP, lambda _: answers.pop(0)), due)

    def test_check_frames(self):
        for data, is_first, due in [(b"", True, True), (ADDED, False, False), (REQUEST + STARTUP + ADDED, True, False)]:
            self.assertIs(check_frames(data, is_first), due)
        for data, is_first in [(ADDED, True), (STARTUP, False), (STARTUP[:17], True)]:
            with self.assertRaises(Fault) as refused:
                check_frames(data, is_first)
            self.assertIs(refused.exception.code, Code.NOT_FRAMES)


if __name__ == "__main__":
    unittest.main()
