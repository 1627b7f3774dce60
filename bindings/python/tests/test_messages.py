"""Each message each way, by its bytes."""

import dataclasses
import inspect
import unittest

import support  # noqa: F401
import pgmsg
import samples
from pgmsg import *

# What no repr shows: passwords, keys, and the data of an exchange.
SECRETS = [
    PasswordMessage("hidden"), PasswordMessage.md5("ann", "hidden", b"abcd"), SASLInitialResponse("X", "hidden"),
    SASLResponse("hidden"), GSSResponse("hidden"), AuthenticationSASLContinue("hidden"),
    AuthenticationSASLFinal("hidden"), AuthenticationGSSContinue("hidden"), BackendKeyData(7, b"hidden"),
    CancelRequest(7, b"hidden"),
]

# What no message can be made of.
MISTAKES = [
    (lambda: AuthenticationMD5Password(b"abc"), ValueError),
    (lambda: BackendKeyData(1 << 32, bytes(4)), OverflowError),
    (lambda: BackendKeyData(1, 5), TypeError),
    (lambda: NegotiateProtocolVersion(-1), OverflowError),
    (lambda: NegotiateProtocolVersion(1 << 16), OverflowError),
    (lambda: NegotiateProtocolVersion(0, major=1 << 16), OverflowError),
    (lambda: NegotiateProtocolVersion(0, major=3.0), TypeError),
    (lambda: ReadyForQuery("X"), ValueError),
    (lambda: NotificationResponse(-1, "a"), OverflowError),
    (lambda: Column("a", 1 << 32), OverflowError),
    (lambda: Column("a", 1, table=-1), OverflowError),
    (lambda: Column("a", 1, type_size=32768), OverflowError),
    (lambda: Column("a", 1, type_modifier=-1 << 32), OverflowError),
    (lambda: DataRow([5]), TypeError),
    (lambda: ParameterDescription([-1]), OverflowError),
    (lambda: CopyInResponse(128), OverflowError),
    (lambda: CopyOutResponse(columns=[32768]), OverflowError),
    (lambda: ErrorResponse({"\u0100": "a"}), OverflowError),
    (lambda: ErrorResponse({"SC": "a"}), TypeError),
    (lambda: StartupMessage({}, minor=1 << 16), OverflowError),
    (lambda: CancelRequest(1 << 32, bytes(4)), OverflowError),
    (lambda: Query(None), TypeError),
    (lambda: Query(5), TypeError),
    (lambda: Query("\ud800"), UnicodeEncodeError),
    (lambda: Parse("", types=[1 << 32]), OverflowError),
    (lambda: Bind([5]), TypeError),
    (lambda: Bind(formats=[65536]), OverflowError),
    (lambda: Bind(result_formats=[-1]), OverflowError),
    (lambda: Describe("X"), ValueError),
    (lambda: Execute(limit=-1), OverflowError),
    (lambda: Execute(limit=1.5), TypeError),
    (lambda: FunctionCall(-1), OverflowError),
    (lambda: FunctionCall(1, result_format=65536), OverflowError),
]


def frame_of(message, data):
    """The frame of a message."""
    return Frame(message.TAG, data[4 + (message.TAG is not None) :])


class TestEach(unittest.TestCase):
    def test_written(self):
        for message, data in samples.ALL:
            with self.subTest(message=message):
                self.assertEqual(message.write(), data)

    def test_read(self):
        for message, data in samples.ALL:
            with self.subTest(message=message):
                found = type(message).read(frame_of(message, data))
                self.assertEqual(found, message)
                self.assertIs(type(found), type(message))
                self.assertEqual(hash(found), hash(message))
                self.assertEqual(found.write(), data)

    def test_each_class_has_one(self):
        classes = {it for it in vars(pgmsg).values() if inspect.isclass(it) and dataclasses.is_dataclass(it)}
        self.assertEqual(classes - {Column}, {type(message) for message, _ in samples.ALL})
        self.assertEqual(len(classes), 54)

    def test_none_changes(self):
        for message, _ in samples.ALL:
            self.assertFalse(hasattr(message, "__dict__"))
            for name in message.__match_args__ or ["name"]:
                with self.assertRaises((dataclasses.FrozenInstanceError, TypeError)):
                    setattr(message, name, None)

    def test_another_tag(self):
        for message, data in samples.ALL:
            with self.assertRaises(Fault) as refused:
                type(message).read(Frame(ord("!"), frame_of(message, data).body))
            self.assertIs(refused.exception.code, Code.WRONG_FORMAT)

    def test_another_method_and_another_first_message(self):
        for kind, frame in [(AuthenticationOk, Frame(ord("R"), b"\0\0\0\3")), (SSLRequest, Frame(None, b"\x04\xd2\x16\x30"))]:
            with self.assertRaises(Fault) as refused:
                kind.read(frame)
            self.assertIs(refused.exception.code, Code.WRONG_FORMAT)

    def test_by_the_tag(self):
        for read, rows in [(read_backend, samples.OF_SERVER + samples.OF_BOTH),
                           (read_frontend, samples.FIRST + samples.OF_CLIENT + samples.OF_BOTH)]:
            for message, data in rows:
                self.assertEqual(read(frame_of(message, data)), message)
            known = {message.TAG for message, _ in rows}
            for tag in {*range(256), None} - known:
                with self.assertRaises(Fault) as refused:
                    read(Frame(tag, b""))
                self.assertIs(refused.exception.code, Code.UNKNOWN_MESSAGE_TYPE)
        for message, data in samples.ANSWERS:
            self.assertEqual(read_frontend(frame_of(message, data), type(message)), message)


class TestParts(unittest.TestCase):
    def test_texts(self):
        for message, data in samples.ALL:
            for name in dir(type(message)):
                if name.endswith("_text"):
                    value = getattr(message, name.removesuffix("_text"))
                    if value.isascii():
                        self.assertEqual(getattr(message, name), str(value, "ascii"))
                    elif b"\xff" in value:
                        self.assertRaises(UnicodeDecodeError, getattr, message, name)
        self.assertEqual(ParameterStatus("a", "ä").value_text, "ä")

    def test_a_text_is_any_bytes(self):
        for text in ("ä", "ä".encode(), bytearray("ä".encode()), memoryview("ä".encode()), memoryview("ä".encode()).cast("H")):
            self.assertEqual(Query(text), Query(b"\xc3\xa4"))

    def test_secrets(self):
        for message in SECRETS:
            shown = repr(message)
            self.assertTrue(shown.startswith(type(message).__name__))
            self.assertNotIn("hidden", shown)
            self.assertNotIn("md5", shown)
        self.assertEqual(repr(CommandComplete("SELECT 1")), "CommandComplete(command=b'SELECT 1')")
        self.assertEqual(repr(Frame(112, b"secret\0")), "Frame(tag=112, body=<7 bytes>)")

    def test_what_a_terminal_obeys(self):
        for text, due in [
            ("a\x1b[2Jb", r"a\x1b[2Jb"), ("a\x9b2Jb", r"a\x9b2Jb"), ("a\u202eb\u2066", r"a\u202eb\u2066"), ("\0\r\x7f", r"\x00\r\x7f"),
            ("gr\u00fcn \u6f22\t\u00a0\n", "gr\u00fcn \u6f22\t\u00a0\n"), ("", ""),
        ]:
            self.assertEqual(printable(text), due)
            for kind in (ErrorResponse, NoticeResponse):
                self.assertEqual((str(kind({"M": text})), kind({"M": text}).message), (due, text))
        self.assertEqual(str(ErrorResponse({"M": b"\x9b"})), "\ufffd")

    def test_match(self):
        match Bind(["1"], "s"):
            case Bind((value,), statement):
                self.assertEqual((value, statement), (b"1", b"s"))
        match CommandComplete("COPY 5"):
            case CommandComplete(b"COPY 5") as ended:
                self.assertEqual(ended.rows_affected, 5)

    def test_rows_affected(self):
        for command, due in [("INSERT 0 17", 17), ("BEGIN", 0), ("", 0), ("COPY 18446744073709551615", (1 << 64) - 1)]:
            self.assertEqual(CommandComplete(command).rows_affected, due)

    def test_fields(self):
        error = ErrorResponse(samples.FIELDS | {"V": "FATAL"})
        self.assertEqual((error.code, error.message, error.text("X")), ("42601", "\ufffd", ""))
        self.assertIs(error.severity, Severity.FATAL)
        for word, due in Severity.__members__.items():
            self.assertIs(NoticeResponse({"V": word}).severity, due)
        # As a server whose messages are in Latin-1 sends it.
        for fields in ({"S": b"PR\xc9CIS", "V": "ERROR", "M": b"\xe9"}, [("V", "ERROR"), ("S", b"\xff")]):
            self.assertIs(ErrorResponse(fields).severity, Severity.ERROR)
        for word, due in [("FATAL", Severity.FATAL), ("FEHLER", Severity.LOG)]:
            self.assertIs(ErrorResponse({"S": word}).severity, due)
        for fields, code in [({"V": "FOO", "S": "ERROR"}, Code.UNKNOWN_SEVERITY), ({"V": b"\xff"}, Code.NOTICE_NOT_UTF8)]:
            with self.assertRaises(Fault) as refused:
                ErrorResponse(fields).severity
            self.assertIs(refused.exception.code, code)

    def test_parameters(self):
        found = StartupMessage([("user", "ann"), ("user", "bob")])
        self.assertEqual((found.text("user"), found.text("database")), ("bob", ""))

    def test_many_items(self):
        for count in (0, 1, 15, 16, 17, 64, 65, 1664, 65535):
            codes, values = [at % 3 for at in range(count)], [b"%d" % at for at in range(count)]
            for message in (
                DataRow(values), Bind(values, formats=codes, result_formats=codes), FunctionCall(1, values, codes),
                Parse("", types=range(count)), ParameterDescription(range(count)),
                RowDescription(Column(value, 25) for value in values), AuthenticationSASL(values),
                CopyInResponse(0, codes[:32767]), ErrorResponse(("M", value) for value in values),
            ):
                self.assertEqual(type(message).read(frame_of(message, message.write())), message)
        pairs = [(f"name{at}", str(at)) for at in range(1000)]
        self.assertEqual(StartupMessage.read(Frame(None, StartupMessage(pairs).write()[4:])), StartupMessage(pairs))

    def test_long_texts(self):
        for length in range(500, 530):
            self.assertEqual(Query("x" * length).write(), b"Q" + (length + 5).to_bytes(4, "big") + b"x" * length + b"\0")
        data = bytes(range(256)) * 4096
        self.assertEqual(CopyData(data).write(), b"d" + (len(data) + 4).to_bytes(4, "big") + data)


class TestRefused(unittest.TestCase):
    def test_each(self):
        for message, code in samples.REFUSED:
            with self.subTest(code=code), self.assertRaises(Fault) as refused:
                message.write()
            self.assertIs(refused.exception.code, code)
            self.assertEqual((refused.exception.at, str(refused.exception)), (0, refused.exception.words))
            self.assertTrue(refused.exception.words)

    def test_mistakes(self):
        for make, error in MISTAKES:
            self.assertRaises(error, make)

    def test_head_of_copy_data(self):
        for length, due in [(0, b"d\0\0\0\x04"), (65536, b"d\0\1\0\x04"), (2147483643, b"d\x7f\xff\xff\xff")]:
            self.assertEqual(copy_head(length), due)
        for length in (2147483644, (1 << 64) - 1):
            with self.assertRaises(Fault) as refused:
                copy_head(length)
            self.assertIs(refused.exception.code, Code.MESSAGE_TOO_LONG)
        for length in (-1, 1 << 64):
            self.assertRaises(OverflowError, copy_head, length)


if __name__ == "__main__":
    unittest.main()
