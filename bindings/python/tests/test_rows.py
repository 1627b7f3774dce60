"""Many rows at once, and many executions."""

import gc
import sys
import unittest

import support  # noqa: F401
from pgmsg import *

ROWS = [("ab", None, "ä"), (), ("",) * 100]


def fed(*messages):
    """A stream that was fed."""
    stream = ClientStream()
    stream.feed(b"".join(it if isinstance(it, bytes) else it.write() for it in messages))
    return stream


class TestRows(unittest.TestCase):
    def test_kinds(self):
        data = [DataRow(row) for row in ROWS]
        self.assertEqual(fed(*data).rows(), ROWS)
        self.assertEqual(fed(*data).rows(str), ROWS)
        as_bytes = [tuple(None if cell is None else cell.encode() for cell in row) for row in ROWS]
        self.assertEqual(fed(*data).rows(bytes), as_bytes)
        views = fed(*data).rows(memoryview)
        self.assertEqual(views, as_bytes)
        self.assertTrue(all(cell.readonly and isinstance(cell, memoryview) for cell in views[0] if cell is not None))
        self.assertRaises(KeyError, fed(*data).rows, int)

    def test_up_to_what_is_no_row(self):
        stream = fed(NoData(), DataRow(["1"]), DataRow(["2"]), CommandComplete("SELECT 2"), DataRow(["3"]))
        self.assertEqual(stream.rows(), [])
        self.assertEqual(next(iter(stream)), NoData())
        self.assertEqual(stream.rows(), [("1",), ("2",)])
        self.assertEqual(stream.rows(), [])
        self.assertEqual(next(iter(stream)), CommandComplete("SELECT 2"))
        self.assertEqual((stream.rows(), stream.rows(), stream.held), ([("3",)], [], b""))

    def test_pieces_of_each_size(self):
        whole = write(*[DataRow([str(at), None, "x" * at]) for at in range(100)], NoData())
        for size in (1, 2, 3, 5, 7, 100, 1000, len(whole)):
            stream, found, rest = ClientStream(), [], []
            for at in range(0, len(whole), size):
                stream.feed(whole[at : at + size])
                found += stream.rows()
                rest += stream
                found += stream.rows()
            self.assertEqual(found, [(str(at), None, "x" * at) for at in range(100)])
            self.assertEqual(rest, [NoData()])

    def test_a_fault_comes_after_the_rows_before_it(self):
        for broken, error in [(b"D\0\0\0\x08\0\1\0\0", Fault), (b"D\0\0\0\x0c\0\1\0\0\0\3ab", Fault), (b"D\0\0\0\3", Fault),
                              (DataRow([b"\xff"]).write(), UnicodeDecodeError)]:
            stream = fed(DataRow(["1"]), broken)
            self.assertEqual(stream.rows(), [("1",)])
            for _ in range(2):
                self.assertRaises(error, stream.rows)
        with self.assertRaises(Fault) as refused:
            fed(b"D\0\0\0\x0c\0\1\0\0\0\5ab").rows()
        found = refused.exception
        self.assertEqual((found.code, found.at, str(found)), (Code.SHORT, 6, "expected 5 bytes at offset 6, got 2"))
        self.assertEqual(fed(DataRow([b"\xff"])).rows(bytes), [(b"\xff",)])

    def test_a_limit(self):
        stream = ClientStream(limit=10)
        stream.feed(b"D\0\0\0\x0b")
        for _ in range(2):
            self.assertRaises(Fault, stream.rows)

    def test_counts(self):
        for count in (0, 1, 63, 64, 65, 1664, 65535):
            row = tuple(str(at) for at in range(count))
            self.assertEqual(fed(DataRow(row), DataRow(["a"])).rows(), [row, ("a",)])

    def test_views_keep_what_was_fed(self):
        (row,) = fed(DataRow(["kept"])).rows(memoryview)
        gc.collect()
        self.assertEqual(row[0], b"kept")


class TestExecutions(unittest.TestCase):
    def test_each_is_a_bind_and_an_execute(self):
        for values in ([], [["1"]], [["1", None], (b"2", "ä"), [bytearray(b"x" * 600), memoryview(b"abcd")[1:]]] * 100):
            due = write(*(it for given in values for it in (
                Bind(given, "s", "p", [0], [1, 1]), Execute("p", 7))))
            self.assertEqual(executions(values, "s", b"p", [0], [1, 1], 7), due)
            self.assertEqual(executions(iter(values), b"s", "p", (0,), (1, 1), 7), due)

    def test_refused(self):
        for arguments, error in [
            (([["a"]], "a\0b"), Fault), (([[None] * 65536],), Fault), (([[5]],), TypeError), ((5,), TypeError),
            (([5],), TypeError), (([["\ud800"]],), UnicodeEncodeError), (([[memoryview(b"abcd")[::2]]],), BufferError),
            (([], 5), TypeError), (([], "", "\ud800"), UnicodeEncodeError), (([], "", "", [1 << 16]), OverflowError),
            (([], "", "", [], ["x"]), TypeError), (([], "", "", [], [-1]), OverflowError),
            (([], "", "", (), (), -1), OverflowError), (([], "", "", (), (), 1 << 32), OverflowError),
            (([["1"], iter_of_error()],), ZeroDivisionError),
        ]:
            with self.subTest(arguments=arguments):
                self.assertRaises(error, executions, *arguments)

    def test_buffers_are_let_go(self):
        held = bytearray(b"abc")
        for many in ([[held, held]], [[held, 5]], [[held] * 65536], [[held], 5]):
            try:
                executions(many)
            except (Fault, TypeError):
                pass
            held.clear()
            held.extend(b"abc")

    def test_nothing_is_lost(self):
        objects = [["a" * 2000, b"b", None, bytearray(b"c")], ["x"]]
        counts = None
        for _ in range(3):
            for _ in range(100):
                executions(objects, "s", "p", [1] * 70, [0] * 70, 1)
                for many in ([["a"], 5], [["\0"]], [["a", object()]]):
                    try:
                        executions(many, "a\0b")
                    except (Fault, TypeError):
                        pass
                stream = fed(DataRow(["a", None, "b" * 2000] * 50), b"D\0\0\0\x08\0\1\0\0")
                for kind in (str, bytes, memoryview):
                    stream = fed(DataRow(["a", None, "b" * 2000] * 50), b"D\0\0\0\x08\0\1\0\0")
                    stream.rows(kind)
                    try:
                        stream.rows(kind)
                    except Fault:
                        pass
            gc.collect()
            counts, before = (sys.getallocatedblocks(), sys.getrefcount(None)), counts
        self.assertLess(abs(counts[0] - before[0]), 200)
        if sys.version_info < (3, 12):
            self.assertLess(abs(counts[1] - before[1]), 200)


def iter_of_error():
    """Values that end by an error."""
    yield "1"
    1 / 0


if __name__ == "__main__":
    unittest.main()
