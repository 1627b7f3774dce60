"""The messages of replication, whose bytes are written by hand after PostgreSQL's page "Streaming Replication Protocol"."""

import doctest
import random
import unittest

import support  # noqa: F401
from pgmsg import ClientStream, Code, CopyData, Fault, Frame, replication
from pgmsg.replication import *

EACH = [
    (XLogData(0x102030405, (1 << 64) - 8, -2, b"l\0g"),
     b"d\0\0\0\x20w\0\0\0\1\2\3\4\5\xff\xff\xff\xff\xff\xff\xff\xf8\xff\xff\xff\xff\xff\xff\xff\xfel\0g"),
    (XLogData(0, 0, 0, b""), b"d\0\0\0\x1dw" + bytes(24)),
    (PrimaryKeepalive(0x1000060, -1 << 63, True), b"d\0\0\0\x16k\0\0\0\0\1\0\0\x60\x80\0\0\0\0\0\0\0\1"),
    (PrimaryKeepalive(0, 0), b"d\0\0\0\x16k" + bytes(17)),
    (StandbyStatusUpdate(0x300, 0x200, 0x100, 258, True),
     b"d\0\0\0\x26r\0\0\0\0\0\0\3\0\0\0\0\0\0\0\2\0\0\0\0\0\0\0\1\0\0\0\0\0\0\0\1\2\1"),
    (HotStandbyFeedback(7, 0x80000001, 2, 3, 0xffffffff),
     b"d\0\0\0\x1dh\0\0\0\0\0\0\0\7\x80\0\0\1\0\0\0\2\0\0\0\3\xff\xff\xff\xff"),
    (NewArchive(b"16384.tar", b"/srv/\xe9"), b"d\0\0\0\x16n16384.tar\0/srv/\xe9\0"),
    (NewArchive(b"base.tar"), b"d\0\0\0\x0fnbase.tar\0\0"),
    (Manifest(), b"d\0\0\0\5m"),
    (BackupData(b"\0tar"), b"d\0\0\0\x09d\0tar"),
    (BackupData(b""), b"d\0\0\0\5d"),
    (Progress(0x8000000000000001), b"d\0\0\0\x0dp\x80\0\0\0\0\0\0\1"),
]

REFUSED = [
    (b"", Code.SHORT, 0), (b"Z", Code.UNKNOWN_MESSAGE_TYPE, 0), (b"w\0\0\0\0\0\0\0\1\0\0", Code.SHORT, 9),
    (b"na\0b", Code.MISSING_NUL, 3), (b"m!", Code.TRAILING_BYTES, 1),
]


class TestReplication(unittest.TestCase):
    def test_each(self):
        self.assertEqual({type(message) for message, _ in EACH}, set(replication.KINDS.values()))
        for message, data in EACH:
            with self.subTest(message=message):
                self.assertEqual(message.write(), data)
                found = replication.read(data[5:])
                self.assertEqual((found, type(found), hash(found)), (message, type(message), hash(message)))
                self.assertEqual(type(message).read(Frame(ord("d"), data[5:])), message)
                self.assertEqual(replication.read(memoryview(data)[5:]), message)
                self.assertFalse(hasattr(message, "__dict__"))

    def test_a_stream(self):
        stream = ClientStream()
        stream.feed(b"".join(data for _, data in EACH))
        found = [replication.read(message.data) for message in stream if isinstance(message, CopyData)]
        self.assertEqual(found, [message for message, _ in EACH])

    def test_a_flag_is_any_byte_but_0(self):
        self.assertIs(replication.read(b"k" + bytes(16) + b"\xff").wants_reply, True)

    def test_texts(self):
        archive = NewArchive(b"base.tar", b"\xff")
        self.assertEqual(archive.name_text, "base.tar")
        self.assertRaises(UnicodeDecodeError, getattr, archive, "location_text")

    def test_another_letter(self):
        for kind in replication.KINDS.values():
            for message, data in EACH:
                if not isinstance(message, kind):
                    with self.assertRaises(Fault) as refused:
                        kind.read(Frame(ord("d"), data[5:]))
                    self.assertIs(refused.exception.code, Code.WRONG_FORMAT)

    def test_what_is_cut_off_or_changed(self):
        numbers = random.Random(81)
        for message, data in EACH:
            for end in range(5, len(data)):
                self.assertNotEqual(self.taken(data[5:end]), message)
            for _ in range(200):
                changed = bytearray(data[5:])
                changed[numbers.randrange(len(changed))] = numbers.randrange(256)
                self.taken(changed + numbers.randbytes(numbers.randrange(2)))

    def taken(self, data):
        """What is read of data, which is then written as it is read again; None where it is refused."""
        try:
            found = replication.read(data)
        except Fault:
            return None
        again = found.write()
        self.assertEqual((len(again), replication.read(again[5:])), (len(data) + 5, found))
        return found

    def test_refused(self):
        for data, code, at in REFUSED:
            with self.subTest(data=data), self.assertRaises(Fault) as refused:
                replication.read(data)
            self.assertEqual((refused.exception.code, refused.exception.at), (code, at))
        for archive in (NewArchive(b"a\0"), NewArchive(b"a", b"\0")):
            with self.assertRaises(Fault) as refused:
                archive.write()
            self.assertIs(refused.exception.code, Code.TEXT_HOLDS_NUL)

    def test_mistakes(self):
        for make in (lambda: Progress(-1), lambda: Progress(1 << 64), lambda: PrimaryKeepalive(0, 1 << 63),
                     lambda: HotStandbyFeedback(0, 1 << 32, 0, 0, 0)):
            self.assertRaises(OverflowError, make)
        self.assertRaises(TypeError, BackupData, 5)

    def test_words(self):
        self.assertEqual(doctest.testmod(replication).failed, 0)
        for name in replication.__all__:
            self.assertTrue(getattr(replication, name).__doc__, name)


if __name__ == "__main__":
    unittest.main()
