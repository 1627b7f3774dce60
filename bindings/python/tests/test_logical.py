"""The messages of logical replication: the bytes are those of pgoutput of PostgreSQL 15, whose fields are read by hand after the
page "Logical Replication Message Formats"."""

import doctest
import random
import unittest

import support  # noqa: F401
from pgmsg import Code, Fault, logical
from pgmsg.logical import *

ID, NAME = Column(1, b"id", 23, -1), Column(0, b"name", 25, -1)
MOOD, RIGHTS = Column(0, b"mood", 0x40C1, -1), Column(0, b"rights", 1033, -1)

COLUMNS = (b"\1id\0\0\0\0\x17\xff\xff\xff\xff\0name\0\0\0\0\x19\xff\xff\xff\xff"
           b"\0mood\0\0\0\x40\xc1\xff\xff\xff\xff\0rights\0\0\0\4\x09\xff\xff\xff\xff")

# Outside of a stream.
EACH = [
    (Begin(0x195B5E8, 0x3047B24853C0D, 0x658), b"B\0\0\0\0\x01\x95\xb5\xe8\0\3\4{$\x85<\r\0\0\6X"),
    (TypeName(0x40C1, b"public", b"mood"), b"Y\0\0\x40\xc1public\0mood\0"),
    (Relation(0x40C5, b"public", b"person", ord("d"), (ID, NAME, MOOD, RIGHTS)),
     b"R\0\0\x40\xc5public\0person\0d\0\4" + COLUMNS),
    (Insert(0x40C5, (Binary(b"\0\0\0\1"), Binary(b"ann"), None, Text(b"postgres=r/postgres"))),
     b"I\0\0\x40\xc5N\0\4b\0\0\0\4\0\0\0\1b\0\0\0\3annnt\0\0\0\x13postgres=r/postgres"),
    (Commit(0, 0x195B5E8, 0x195B618, 0x3047B24853C0D),
     b"C\0\0\0\0\0\x01\x95\xb5\xe8\0\0\0\0\x01\x95\xb6\x18\0\3\4{$\x85<\r"),
    (Update(0x40CC, None, (Text(b"1"), Text(b"second"), UNCHANGED)), b"U\0\0\x40\xccN\0\3t\0\0\0\x011t\0\0\0\6secondu"),
    (Update(0x40F3, Key((Text(b"1"), None)), (Text(b"-1"), None)), b"U\0\0\x40\xf3K\0\2t\0\0\0\x011nN\0\2t\0\0\0\2-1n"),
    (Update(0x40D3, Whole((Text(b"1"), Text(b"one"))), (Text(b"1"), Text(b"uno"))),
     b"U\0\0\x40\xd3O\0\2t\0\0\0\x011t\0\0\0\3oneN\0\2t\0\0\0\x011t\0\0\0\3uno"),
    (Delete(0x40C5, Key((Text(b"10"), None, None, None))), b"D\0\0\x40\xc5K\0\4t\0\0\0\x0210nnn"),
    (Delete(0x40D3, Whole((Text(b"1"), Text(b"uno")))), b"D\0\0\x40\xd3O\0\2t\0\0\0\x011t\0\0\0\3uno"),
    (Truncate(1, (0x40D8, 0x40DD)), b"T\0\0\0\2\1\0\0\x40\xd8\0\0\x40\xdd"),
    (Message(1, 0x195EC10, b"later", b"a\0b"), b"M\1\0\0\0\0\x01\x95\xec\x10later\0\0\0\0\3a\0b"),
    (BeginPrepare(0x195ECC0, 0x195EDB8, 0x3047B248570F3, 0x667, b"kept"),
     b"b\0\0\0\0\x01\x95\xec\xc0\0\0\0\0\x01\x95\xed\xb8\0\3\4{$\x85p\xf3\0\0\6gkept\0"),
    (Prepare(0, 0x195ECC0, 0x195EDB8, 0x3047B248570F3, 0x667, b"kept"),
     b"P\0\0\0\0\0\x01\x95\xec\xc0\0\0\0\0\x01\x95\xed\xb8\0\3\4{$\x85p\xf3\0\0\6gkept\0"),
    (CommitPrepared(0, 0x195EDB8, 0x195EDF0, 0x3047B24857184, 0x667, b"kept"),
     b"K\0\0\0\0\0\x01\x95\xed\xb8\0\0\0\0\x01\x95\xed\xf0\0\3\4{$\x85q\x84\0\0\6gkept\0"),
    (RollbackPrepared(0, 0x195EF30, 0x195EF68, 0x3047B248572B4, 0x3047B24857333, 0x668, b"left"),
     b"r\0\0\0\0\0\x01\x95\xef0\0\0\0\0\x01\x95\xefh\0\3\4{$\x85r\xb4\0\3\4{$\x85s3\0\0\6hleft\0"),
    (Origin(0x100000028, b"far"), b"O\0\0\0\1\0\0\0(far\0"),
    (StreamAbort(0x66A, 0x66B), b"A\0\0\6j\0\0\6k"),
    (StreamCommit(0x66A, 0, 0x19F9518, 0x19F9630, 0x3047B2485D665),
     b"c\0\0\6j\0\0\0\0\0\x01\x9f\x95\x18\0\0\0\0\x01\x9f\x960\0\3\4{$\x85\xd6e"),
    (StreamPrepare(0, 0x1A38158, 0x1A38250, 0x3047B2485F81F, 0x66E, b"many"),
     b"p\0\0\0\0\0\x01\xa3\x81X\0\0\0\0\x01\xa3\x82P\0\3\4{$\x85\xf8\x1f\0\0\6nmany\0"),
]

# In order, a stream.
STREAMED = [
    (StreamStart(0x66A, True), b"S\0\0\6j\1"),
    (TypeName(0x40C1, b"public", b"mood", 0x66A), b"Y\0\0\6j\0\0\x40\xc1public\0mood\0"),
    (Relation(0x40C5, b"public", b"person", ord("d"), (ID, NAME, MOOD, RIGHTS), 0x66A),
     b"R\0\0\6j\0\0\x40\xc5public\0person\0d\0\4" + COLUMNS),
    (Insert(0x40C5, (Text(b"100"), Text(b"many"), Text(b"glad"), None), 0x66A),
     b"I\0\0\6j\0\0\x40\xc5N\0\4t\0\0\0\x03100t\0\0\0\4manyt\0\0\0\4gladn"),
    (Message(1, 0x19E2C68, b"among many", b"words", 0x66A),
     b"M\0\0\6j\1\0\0\0\0\x01\x9e\x2c\x68among many\0\0\0\0\5words"),
    (Update(0x40C5, None, (Text(b"1999"), Text(b"one of many"), Text(b"glad"), None), 0x66C),
     b"U\0\0\6l\0\0\x40\xc5N\0\4t\0\0\0\x041999t\0\0\0\x0bone of manyt\0\0\0\4gladn"),
    (Delete(0x40C5, Key((Text(b"100"), None, None, None)), 0x66C),
     b"D\0\0\6l\0\0\x40\xc5K\0\4t\0\0\0\x03100nnn"),
    (Truncate(0, (0x40D3,), 0x66C), b"T\0\0\6l\0\0\0\1\0\0\0\x40\xd3"),
    (StreamStop(), b"E"),
]

ALL = [(*it, False) for it in EACH] + [(*it, True) for it in STREAMED]

REFUSED = [
    (b"", Code.SHORT, 0), (b"Z", Code.UNKNOWN_MESSAGE_TYPE, 0), (b"B\0\0", Code.SHORT, 1),
    (b"O" + bytes(8) + b"far", Code.MISSING_NUL, 9),
    (b"E!", Code.TRAILING_BYTES, 1), (b"I\0\0\0\1X", Code.UNKNOWN_LETTER, 0),
    (b"D\0\0\0\1N\0\0", Code.UNKNOWN_LETTER, 0), (b"I\0\0\0\1N\0\1x", Code.UNKNOWN_LETTER, 0),
    (b"I\0\0\0\1N\0\1t\0\0\0\5four", Code.SHORT, 13),
]


class TestLogical(unittest.TestCase):
    def test_each(self):
        self.assertEqual({type(message) for message, _, _ in ALL}, set(logical.OF_ALL))
        self.assertEqual(len(logical.KINDS), 19)
        for message, content, streamed in ALL:
            with self.subTest(message=message):
                found = logical.read(content, streamed)
                self.assertEqual((found, type(found), hash(found)), (message, type(message), hash(message)))
                self.assertEqual(logical.read(memoryview(content), streamed), message)
                self.assertFalse(hasattr(message, "__dict__"))
                self.assertEqual(message.write(), content)

    def test_a_stream(self):
        stream = LogicalStream()
        for message, content in STREAMED + EACH + STREAMED:
            self.assertRaises(Fault, stream.read, b"Z")
            self.assertEqual(stream.read(content), message)
            self.assertIs(stream.streamed, type(message) is not StreamStop and (message, content) in STREAMED)

    def test_what_is_given_is_kept_as_it_is_read(self):
        for message, due in [
            (Message(0, 1, "p", bytearray(b"c")), Message(0, 1, b"p", b"c")),
            (Origin(1, "o"), Origin(1, b"o")),
            (Relation(1, "s", "n", 100, [Column(0, "c", 1, -1)]), Relation(1, b"s", b"n", 100, (Column(0, b"c", 1, -1),))),
            (Insert(1, [Text("5"), None]), Insert(1, (Text(b"5"), None))),
            (Update(1, Key([None]), [Binary(memoryview(b"5"))]), Update(1, Key((None,)), (Binary(b"5"),))),
            (Truncate(0, [1, 2]), Truncate(0, (1, 2))),
            (StreamStart(1, 1), StreamStart(1, True)),
            (StreamAbort(True, False), StreamAbort(1, 0)),
        ]:
            self.assertEqual((message, hash(message), repr(message)), (due, hash(due), repr(due)))
            self.assertEqual(logical.read(message.write()), due)

    def test_what_no_message_can_be_made_of(self):
        for made in (
            lambda: StreamAbort(1 << 32, 1), lambda: Truncate(256, ()), lambda: Truncate(0, [-1]), lambda: Begin(1 << 64, 0, 1),
            lambda: Begin(0, 1 << 63, 1), lambda: Commit(0, -1, 0, 0), lambda: Relation(1, b"", b"", 256, ()),
            lambda: Column(0, b"", 1, 1 << 31), lambda: Column(256, b"", 1, 0), lambda: TypeName(-1, b"", b""),
            lambda: Insert(1, (), 1 << 32),
        ):
            self.assertRaises(OverflowError, made)
        for made in (
            lambda: Origin(0, 5), lambda: Text(5), lambda: Insert(1, (b"1",)), lambda: Insert(1, ["1"]), lambda: Insert(1, None),
            lambda: Key((5,)), lambda: Delete(1, (Text("5"),)), lambda: Relation(1, b"", b"", 100, [b"c"]), lambda: Insert("1", ()),
            lambda: Delete(1, None), lambda: Origin(1.0, b""), lambda: Truncate(0, [1.0]),
        ):
            self.assertRaises(TypeError, made)

    def test_many_items(self):
        number = (1000).to_bytes(2, "big")
        found = logical.read(b"I\0\0\0\1N" + number + b"nu" * 500)
        self.assertEqual(found.new, (None, UNCHANGED) * 500)
        found = logical.read(b"R\0\0\0\1\0a\0d" + number + b"\0b\0\0\0\0\x17\0\0\0\1" * 1000)
        self.assertEqual(found.columns, (Column(0, b"b", 23, 1),) * 1000)
        found = logical.read(b"T\0\0\3\xe8\0" + b"".join(id.to_bytes(4, "big") for id in range(1000)))
        self.assertEqual(found.relations, tuple(range(1000)))

    def test_texts(self):
        relation = logical.read(b"R\0\0\0\1pub\0\xc3\xa4\0d\0\1\0\xff\0" + bytes(8))
        self.assertEqual((relation.schema_text, relation.name_text), ("pub", "ä"))
        self.assertRaises(UnicodeDecodeError, getattr, relation.columns[0], "name_text")
        self.assertEqual(Text("ä".encode()).value_text, "ä")

    def test_what_is_cut_off_or_changed(self):
        numbers = random.Random(81)
        for message, content, streamed in ALL:
            for end in range(len(content)):
                self.assertRaises(Fault, logical.read, content[:end], streamed)
            with self.assertRaises(Fault) as refused:
                logical.read(content + b"!", streamed)
            self.assertEqual((refused.exception.code, refused.exception.at), (Code.TRAILING_BYTES, len(content)))
            for _ in range(200):
                changed = bytearray(content)
                changed[numbers.randrange(len(changed))] = numbers.randrange(256)
                try:
                    logical.read(changed, streamed)
                except Fault as fault:
                    self.assertLessEqual(fault.at, len(changed))

    def test_refused(self):
        for content, code, at in REFUSED:
            with self.subTest(content=content), self.assertRaises(Fault) as refused:
                logical.read(content)
            self.assertEqual((refused.exception.code, refused.exception.at), (code, at))

    def test_refused_to_write(self):
        for message, code in (
            (Origin(0, b"f\0"), Code.TEXT_HOLDS_NUL), (Relation(1, b"", b"", 100, (Column(0, b"a\0", 0, 0),)), Code.TEXT_HOLDS_NUL),
            (Insert(1, (None,) * 65536), Code.TOO_MANY), (Update(1, Key((None,) * 65536), ()), Code.TOO_MANY),
        ):
            with self.subTest(kind=type(message)), self.assertRaises(Fault) as refused:
                message.write()
            self.assertIs(refused.exception.code, code)
        self.assertEqual(len(Insert(1, (UNCHANGED,) * 65535).write()), 8 + 65535)

    def test_words(self):
        self.assertEqual(doctest.testmod(logical).failed, 0)
        for kind in (Text, Binary, Key, Whole, Column, LogicalMessage, *logical.OF_ALL, LogicalStream, read):
            self.assertTrue(kind.__doc__, kind)


if __name__ == "__main__":
    unittest.main()
