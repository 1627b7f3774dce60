"""Each code, with its words and its offset. What each reader refuses the tests of the C library have, and test_hostile.py that
no reader takes it here."""

import unittest

import support  # noqa: F401
import samples
from pgmsg import *
from pgmsg import fault
from pgmsg._library import lib

NOTICE_NOT_UTF8 = (
    "Postgres returned a non-UTF-8 string for its error message. This is most likely due to an error that occurred "
    "during authentication and the default lc_messages locale is not binary-compatible with UTF-8. See the server logs "
    "for the error details.")


def next_of_server(data):
    """The message at the front of a server's stream."""
    stream = ClientStream()
    stream.feed(data)
    return next(iter(stream), None)


def first_of_client(data):
    """The first message of a client."""
    stream = ServerStream()
    stream.feed(data)
    return next(iter(stream), None)


def next_of_client(data):
    """The message at the front of a client's stream, after those without a tag."""
    stream = ServerStream()
    stream.feed(StartupMessage({}).write() + data)
    return list(stream)[1]


def severity(body):
    """How grave an error is."""
    return ErrorResponse.read(Frame(ord("E"), body)).severity


def challenge(data):
    """The parts of a challenge."""
    return AuthenticationSASLContinue(data).challenge()


def verifier(data):
    """What proves that the server knows the password."""
    return AuthenticationSASLFinal(data).verifier()


# A class or a call with what it reads, and the code, the offset and the words that are due, None for those of the code.
REPORTED = [
    (next_of_server, b"!\0\0\0\x03", Code.UNKNOWN_MESSAGE_TYPE, 0, "unknown message type: 33"),
    (next_of_server, b"Z\0\0\0\x03", Code.BAD_LENGTH, 0, "bad message length: 3"),
    (ReadyForQuery, b"Q", Code.UNKNOWN_STATUS, 0, "unknown transaction status: 81"),
    (BackendKeyData, b"\0\0\x27\xc6\x89\x52", Code.BAD_KEY_LENGTH, 0, "secret key length out of range for protocol: 2"),
    (RowDescription, b"\xff\xff", Code.SHORT, 2, "expected 1245165 bytes at offset 2, got 0"),
    (DataRow, b"\0\1\0\0\0\5ab", Code.SHORT, 6, "expected 5 bytes at offset 6, got 2"),
    (ParameterStatus, b"a\0b", Code.MISSING_NUL, 2, "expected NUL after offset 2"),
    (severity, b"VFOO\0\0", Code.UNKNOWN_SEVERITY, 0, "unknown severity"),
    (severity, b"V\xff\0\0", Code.NOTICE_NOT_UTF8, 0, NOTICE_NOT_UTF8),
    (Authentication, b"\0\0\0\4", Code.UNKNOWN_AUTHENTICATION, 0, "unknown authentication method: 4"),
    (challenge, b"r", Code.SHORT_SASL_ITEM, 0, "SASL item of fewer than two bytes"),
    (verifier, b"v=*", Code.BASE64, 0, "SASL value is not base64"),
    (AuthenticationMD5Password, b"\0\0\0\5abc", Code.SHORT, 4, "expected 4 bytes at offset 4, got 3"),
    (NoData, b"a", Code.TRAILING_BYTES, 0, "expected the end of the message at offset 0"),
    (challenge, b"r=\xff", Code.NOT_UTF8, 0, "text is not UTF-8"),
    # What a client sent.
    (next_of_client, b"!\0\0\0\x04", Code.UNKNOWN_MESSAGE_TYPE, 0, "unknown message type: 33"),
    (first_of_client, b"\0\0\0\x07", Code.BAD_LENGTH, 0, "bad message length: 7"),
    (first_of_client, b"\0\0\x27\x15", Code.FIRST_TOO_LONG, 0, "expected a first message of at most 10004 bytes, got 10005"),
    (FirstMessage, b"\0\2\0\0", Code.UNKNOWN_CODE, 0, "unknown code: 131072"),
    (Describe, b"Xs\0", Code.UNKNOWN_TARGET, 0, "neither a statement nor a portal: 88"),
    (Query, b"a\0b\0", Code.TRAILING_BYTES, 2, "expected the end of the message at offset 2"),
    (Bind, b"\0\0\0\0\0\1\x80\0\0\0\0\0", Code.BAD_VALUE_LENGTH, 6, "bad value length at offset 6: -2147483648"),
]


# Codes that no message here provokes, with the reason.
WITHOUT = {
    "OUT_OF_MEMORY": "it is raised as MemoryError",
    "BODY_TOO_LONG": "a body of 2 GiB, which the tests in Rust have",
    "WRONG_FORMAT": "test_messages.py has it, where a frame has another tag",
    "MESSAGE_TOO_LONG": "test_messages.py has it of copy_head",
    "NOT_FRAMES": "test_relay.py has it",
    "FRAME_TOO_LONG": "test_relay.py and test_streams.py have it",
    "UNKNOWN_LETTER": "test_logical.py has it",
    "BUSY": "a ServerConnection waits then",
    **dict.fromkeys(["NOT_READY", "AFTER_END", "IN_COPY", "NOT_IN_COPY", "NOT_REFUSABLE", "UNASKED", "NOT_AN_ANSWER", "BEHIND_COPY", "SYNC_FIRST",
                     "FLOW_FULL"], "test_connection.py has it"),
}


def call_of(reader):
    """What reads a body as a class."""
    return (lambda body: reader.read(Frame(reader.TAG, body))) if isinstance(reader, type) else reader


class TestFaults(unittest.TestCase):
    def test_each_that_is_reported(self):
        for reader, body, code, at, words in REPORTED:
            with self.subTest(reader=reader.__name__, body=body):
                with self.assertRaises(Fault) as refused:
                    call_of(reader)(body)
                found = refused.exception
                self.assertEqual((found.code, found.at), (code, at))
                self.assertEqual(str(found), words)
                self.assertIsInstance(found.code, Code)

    def test_no_code_is_forgotten(self):
        tested = {code for _, _, code, _, _ in REPORTED} | {code for _, code in samples.REFUSED}
        self.assertEqual({code.name for code in set(Code) - tested}, set(WITHOUT))

    def test_the_codes_are_those_of_the_header(self):
        numbers = {name: getattr(lib, name) for name in dir(lib) if name.startswith("PGMSG_")}
        self.assertEqual({f"PGMSG_{code.name}": code for code in Code}, {
            name: number for name, number in numbers.items() if number < 0})

    def test_words_of_the_library(self):
        for code in set(Code) - {Code.OUT_OF_MEMORY}:
            self.assertGreater(len(str(fault.refusal(code))), 10)
        self.assertIsInstance(fault.refusal(Code.OUT_OF_MEMORY), MemoryError)
        self.assertIn("memory", str(fault.refusal(Code.OUT_OF_MEMORY)))


if __name__ == "__main__":
    unittest.main()
