"""Streams of either side, cut anywhere."""

import unittest

import support  # noqa: F401
import samples
from pgmsg import *

SERVER = [message for message, _ in samples.OF_BOTH + samples.OF_SERVER]

FIRST = [SSLRequest(), GSSENCRequest(), CancelRequest(1, b"abcd"), StartupMessage({"user": "ann"})]

CLIENT = [*FIRST, *(message for message, _ in samples.OF_BOTH + samples.OF_CLIENT)]

SIDES = [(ClientStream, SERVER), (ServerStream, CLIENT)]


def fed(side, *pieces):
    """What a stream gives of some pieces, and what is left of them."""
    stream, found = side(), []
    for piece in pieces:
        stream.feed(piece)
        found += stream
    return found, stream.held


class TestStreams(unittest.TestCase):
    def test_pieces_of_each_size(self):
        for side, messages in SIDES:
            whole = write(*messages)
            for size in (*range(1, 40), 300, 1000, len(whole)):
                pieces = [whole[at : at + size] for at in range(0, len(whole), size)]
                self.assertEqual(fed(side, *pieces), (messages, b""))

    def test_cut_in_two_and_ended_anywhere(self):
        for side, messages in SIDES:
            whole = write(*messages)
            for at in range(len(whole) + 1):
                self.assertEqual(fed(side, whole[:at], whole[at:]), (messages, b""))
                found, rest = fed(side, whole[:at])
                self.assertEqual(found, messages[: len(found)])
                self.assertEqual(write(*found) + rest, whole[:at])

    def test_fed_while_it_is_read(self):
        stream, found = ClientStream(), []
        stream.feed(NoData().write())
        for message in stream:
            found.append(message)
            if len(found) < 3:
                stream.feed(bytearray(BindComplete().write()))
        self.assertEqual(found, [NoData(), BindComplete(), BindComplete()])

    def test_left_and_read_again(self):
        stream, found = ClientStream(), []
        stream.feed(write(*SERVER))
        for _ in SERVER:
            for message in stream:
                found.append(message)
                break
        self.assertEqual(found, SERVER)

    def test_bytes_that_are_changed_after_they_were_fed(self):
        stream, data = ClientStream(), bytearray(CopyData("before").write())
        stream.feed(memoryview(data))
        data[:] = bytes(len(data))
        self.assertEqual(list(stream), [CopyData("before")])

    def test_many_pieces_are_joined_once(self):
        stream = ClientStream()
        stream.feed(b"d\x00\x10\x00\x04")
        self.assertEqual(list(stream), [])
        for _ in range(1 << 14):
            self.assertEqual(len(stream._data), 5)
            stream.feed(bytes(64))
            if found := list(stream) + stream.rows():
                break
        self.assertEqual(found, [CopyData(bytes(1 << 20))])

    def test_what_is_left_is_not_copied_at_each_feed(self):
        row, pair = DataRow(["1"]).write(), write(DataRow(["1"]), NoData())
        for taken in (lambda stream: next(iter(stream)), lambda stream: stream.rows() or next(iter(stream))):
            stream, copied, data = ClientStream(), 0, b""
            for _ in range(2000):
                stream.feed(pair + row[:3])
                stream.feed(row[3:])
                taken(stream)
                copied += len(stream._data) if stream._data is not data else 0
                data = stream._data
            self.assertLess(copied, 3 * 2000 * len(pair + row))

    def test_rows_go_on_in_what_was_fed_later(self):
        row = DataRow(["1"]).write()
        for at in range(len(row) + 1):
            stream = ClientStream()
            stream.feed(NoData().write() + row + row[:at])
            self.assertEqual(next(iter(stream)), NoData())
            for piece in (row[at:], row, NoData().write() + row):
                stream.feed(piece)
            self.assertEqual(stream.rows(), [("1",)] * 3)
            self.assertEqual([*stream], [NoData(), DataRow(["1"])])


class TestFaults(unittest.TestCase):
    def test_one_is_found_again_after_what_came_before_it(self):
        for side, before, broken in [(ClientStream, NoData(), b"!\0\0\0\x04"), (ClientStream, NoData(), b"Z\0\0\0\x05Q"),
                                     (ServerStream, SSLRequest(), b"\0\0\0\x07")]:
            stream = side()
            stream.feed(before.write() + broken)
            self.assertEqual(next(iter(stream)), before)
            for _ in range(2):
                self.assertRaises(Fault, list, stream)

    def test_limits(self):
        for side, front in [(ClientStream, b""), (ServerStream, StartupMessage({}).write())]:
            for limit, is_refused in [(100, False), (99, True)]:
                stream = side(limit=limit)
                stream.feed(front + b"d\0\0\0\x64")
                if is_refused:
                    for call in (lambda: list(stream), lambda: list(stream)):
                        with self.assertRaises(Fault) as refused:
                            call()
                        self.assertIs(refused.exception.code, Code.FRAME_TOO_LONG)
                else:
                    self.assertEqual(len(list(stream)), len(front) > 0)
                    stream.feed(bytes(96))
                    self.assertEqual(list(stream), [CopyData(bytes(96))])

    def test_limits_of_whole_messages(self):
        long = DataRow([bytes(200)]).write()
        for limit, is_refused in [(len(long) - 1, False), (len(long) - 2, True), (1 << 70, False)]:
            for rows_of in (lambda stream: [list(row.values) for row in stream], lambda stream: stream.rows(bytes)):
                stream = ClientStream(limit=limit)
                stream.feed(long)
                if is_refused:
                    self.assertRaises(Fault, rows_of, stream)
                else:
                    self.assertEqual([list(row) for row in rows_of(stream)], [[bytes(200)]])

    def test_rows_before_one_that_is_too_long(self):
        row, long = DataRow(["1"]).write(), DataRow([bytes(200)]).write()
        for after in (long, long[:5]):
            stream = ClientStream(limit=100)
            stream.feed(row + row + after)
            self.assertEqual(stream.rows(), [("1",), ("1",)])
            for _ in range(2):
                with self.assertRaises(Fault) as refused:
                    stream.rows()
                self.assertIs(refused.exception.code, Code.FRAME_TOO_LONG)

    def test_a_tag_is_known_to_one_side(self):
        for side, front, rows in [(ClientStream, b"", samples.OF_SERVER + samples.OF_BOTH),
                                  (ServerStream, StartupMessage({}).write(), samples.OF_CLIENT + samples.OF_BOTH)]:
            known = {message.TAG for message, _ in rows}
            for tag in range(256):
                stream = side()
                stream.feed(front + bytes([tag]) + b"\0\0\0\x05")
                if tag in known:
                    self.assertEqual(len(list(stream)), len(front) > 0)
                else:
                    self.assertRaises(Fault, list, stream)


class TestServerStream(unittest.TestCase):
    def test_what_was_asked_for_says_what_answers(self):
        stream = ServerStream()
        stream.feed(StartupMessage({"user": "ann"}).write())
        list(stream)
        for asked, answer in [
            (AuthenticationCleartextPassword(), PasswordMessage("pw")),
            (AuthenticationMD5Password(b"abcd"), PasswordMessage.md5("ann", "pw", b"abcd")),
            (AuthenticationSASL(["X"]), SASLInitialResponse("X", "first")),
            (AuthenticationSASLContinue("challenge"), SASLResponse("proof")),
            (AuthenticationGSS(), GSSResponse("token")),
            (AuthenticationSSPI(), GSSResponse("token")),
            (AuthenticationGSSContinue("more"), GSSResponse("token")),
        ]:
            self.assertEqual(stream.send(asked), asked.write())
            stream.send(NoticeResponse({"M": "later"}))
            stream.feed(answer.write())
            self.assertEqual(list(stream), [answer])


if __name__ == "__main__":
    unittest.main()
