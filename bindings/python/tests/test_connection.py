"""Sides of a connection: which request each message answers, and what may not come now."""

import unittest

import support  # noqa: F401
from pgmsg import *

LOGGED_IN = [AuthenticationOk(), ParameterStatus("a", "b"), BackendKeyData(1, bytes(4)), ReadyForQuery()]

STARTUP = StartupMessage({"user": "ann"})

OFFER = AuthenticationSASL(["SCRAM-SHA-256"])

ANSWER, GROUP, ALONE, LOGIN, END = (
    lambda request, is_last=False: Whose(Kind.ANSWER, request, request, is_last),
    lambda first, last: Whose(Kind.GROUP, first, last),
    Whose(Kind.BY_ITSELF), Whose(Kind.LOGIN), Whose(Kind.END))


def client(*messages):
    """A connection that is logged in, and has sent some messages."""
    connection = Connection()
    connection.send(STARTUP)
    for event in connection.receive(write(*LOGGED_IN)):
        assert event.whose == LOGIN
    connection.send(*messages)
    return connection


def server():
    """A connection of a server whose client is logged in."""
    connection = ServerConnection()
    assert [*connection.receive(STARTUP.write())] == [Request(STARTUP, None)]
    connection.send(*LOGGED_IN)
    return connection


class Case(unittest.TestCase):
    def refused(self, code, call, *args):
        with self.assertRaises(Fault) as refused:
            for _ in call(*args) or ():
                pass
        self.assertEqual(refused.exception.code, code)

    def hears(self, connection, *due):
        """A connection hears messages, whole and by bytes, and gives what they answer."""
        data = write(*(message for message, _ in due))
        events = [event for byte in data for event in connection.receive(bytes([byte]))]
        self.assertEqual(events, [Event(*event) for event in due])


class TestClient(Case):
    def test_a_query(self):
        connection = client(Query("SELECT 1"))
        self.assertEqual((connection.mode, connection.count, connection.waits), (Mode.BUSY, 1, 1))
        rows = write(RowDescription([]), DataRow(["1"]), DataRow(["2"]), CommandComplete("SELECT 2"),
                     ReadyForQuery(TransactionStatus.FAILED))
        events = [*connection.receive(rows)]
        self.assertEqual([event.message for event in events[1:3]], [[("1",), ("2",)], CommandComplete("SELECT 2")])
        self.assertEqual([event.request for event in events], [0, 0, 0, 0])
        self.assertEqual([event.is_last for event in events], [False, False, False, True])
        self.assertEqual((connection.mode, connection.status, connection.waits), (Mode.IDLE, TransactionStatus.FAILED, 0))

    def test_a_pipeline(self):
        pipeline = [Parse("SELECT 1"), Bind([]), Execute(), Sync(), Query("")]
        connection = client(*pipeline)
        self.hears(
            connection, (ParseComplete(), ANSWER(0, True)), (ErrorResponse({"M": "a"}), ANSWER(1, True)),
            (NoticeResponse({"M": "a"}), ALONE), (ReadyForQuery(), ANSWER(3, True)), (EmptyQueryResponse(), ANSWER(4)),
            (ReadyForQuery(), ANSWER(4, True)))

    def test_cells_of_other_kinds(self):
        connection = client(Execute())
        self.assertEqual([*connection.receive(write(DataRow(["1", None])), bytes)], [Event([(b"1", None)], ANSWER(0))])

    def test_what_is_not_iterated_over_comes_later(self):
        connection = client(Query("a"))
        events = connection.receive(CommandComplete("A").write())
        connection.receive(ReadyForQuery().write())
        with self.assertRaises(KeyError):
            connection.receive(ReadyForQuery().write(), int)
        self.assertEqual(next(events), Event(CommandComplete("A"), ANSWER(0)))
        self.assertEqual([*events], [Event(ReadyForQuery(), ANSWER(0, True))])

    def test_rows_that_may_not_come_stay_refused(self):
        connection = client(Query("a"))
        self.refused(Code.NOT_AN_ANSWER, connection.receive, write(DataRow(["1"]), CommandComplete("A")))
        self.refused(Code.NOT_AN_ANSWER, connection.receive, b"")
        self.refused(Code.NOT_AN_ANSWER, connection.rows)

    def test_states(self):
        flow = Flow()
        for state in (b"", flow.state[1:], flow.state + b"a"):
            with self.assertRaises(ValueError):
                flow.state = state

    def test_early_syncs(self):
        connection = client(Execute(), Sync())
        self.hears(connection, (CopyInResponse(), ANSWER(0)))
        self.assertEqual(connection.mode, Mode.COPY_IN)
        connection.send(CopyData(b"1"), CopyDone(), Sync())
        self.refused(Code.SYNC_FIRST, client_in_copy().send, Query(""))
        self.hears(connection, (ErrorResponse({"M": "a"}), ANSWER(0, True)), (ReadyForQuery(), GROUP(1, 2)))
        connection.send(Query(""))
        self.hears(connection, (ReadyForQuery(), GROUP(1, 2)), (EmptyQueryResponse(), ANSWER(3)))

    def test_what_may_not_be_sent(self):
        for code, message in [
            (Code.NOT_IN_COPY, CopyData(b"")), (Code.UNKNOWN_MESSAGE_TYPE, PasswordMessage("a")), (Code.UNKNOWN_MESSAGE_TYPE, STARTUP),
        ]:
            connection = client(Query(""))
            self.hears(connection, (CopyOutResponse(), ANSWER(0)))
            if code is Code.NOT_IN_COPY:
                connection = client_in_copy()
            state = connection._flow.state
            self.refused(code, connection.send, Flush(), message)
            self.assertEqual(connection._flow.state, state)
        self.refused(Code.NOT_READY, Connection().send, Query(""))
        connection = client(Terminate())
        self.assertEqual(connection.mode, Mode.ENDED)
        self.refused(Code.AFTER_END, connection.send, Query(""))

    def test_all_or_none_is_sent(self):
        connection = client()
        self.refused(Code.UNKNOWN_MESSAGE_TYPE, connection.send, Sync(), PasswordMessage("a"))
        self.assertEqual((connection.count, connection.mode), (0, Mode.IDLE))
        self.refused(Code.TEXT_HOLDS_NUL, connection.send, Sync(), Query("\0"))
        self.assertEqual((connection.count, connection.mode), (0, Mode.IDLE))
        self.assertEqual(connection.send(Sync()), Sync().write())

    def test_what_may_not_come(self):
        for messages, code, came in [
            ([], Code.UNASKED, DataRow([])), ([], Code.UNASKED, ReadyForQuery()), ([Query("")], Code.NOT_AN_ANSWER, DataRow([])),
            ([Query("")], Code.NOT_AN_ANSWER, ReadyForQuery()), ([Query(""), Query("")], Code.BEHIND_COPY, CopyInResponse()),
            ([Parse("")], Code.NOT_AN_ANSWER, BindComplete()),
        ]:
            self.refused(code, client(*messages).receive, came.write())

    def test_a_copy(self):
        connection = client(Query("COPY"))
        self.hears(connection, (CopyInResponse(), ANSWER(0)))
        self.refused(Code.IN_COPY, connection.send, Query(""))
        connection.send(CopyData(b"1"), CopyFail("a"))
        self.hears(connection, (ErrorResponse({"M": "a"}), ANSWER(0)), (ReadyForQuery(), ANSWER(0, True)))
        connection = client(Query("COPY"))
        self.hears(connection, (CopyOutResponse(), ANSWER(0)), (CopyData(b"1"), ANSWER(0)), (CopyDone(), ANSWER(0)))

    def test_last_words(self):
        connection = client()
        self.hears(connection, (ErrorResponse({"M": "a"}), END))
        self.assertEqual(connection.mode, Mode.ENDED)
        self.refused(Code.AFTER_END, connection.send, Query(""))

    def test_encryption(self):
        connection = Connection()
        self.assertEqual(connection.send(SSLRequest()), SSLRequest().write())
        self.refused(Code.NOT_READY, connection.send, STARTUP)
        self.assertFalse(connection.receive_encryption(b"N"))
        self.refused(Code.NOT_READY, connection.send, SSLRequest())
        connection.send(GSSENCRequest())
        self.assertTrue(connection.receive_encryption(b"G"))
        connection.send(STARTUP)
        connection = Connection()
        connection.send(SSLRequest())
        self.refused(Code.NOT_READY, connection.receive_encryption, b"E")
        self.refused(Code.NOT_READY, connection.receive_encryption, b"x")
        connection = Connection()
        connection.send(CancelRequest(1, b"abcd"))
        self.assertEqual(connection.mode, Mode.ENDED)

    def test_a_message_in_the_place_of_encryption(self):
        for asked in (SSLRequest(), GSSENCRequest()):
            for message in (NoticeResponse({"M": "a"}), ParameterStatus("a", "b")):
                connection = Connection()
                self.refused(Code.NOT_READY, connection.send, asked, STARTUP)
                connection.send(asked)
                self.refused(Code.NOT_READY, connection.receive, message.write())
            connection = Connection()
            connection.send(asked)
            self.hears(connection, (ErrorResponse({"M": "a"}), END))
        connection = Connection()
        connection.send(STARTUP)
        self.hears(connection, (AuthenticationOk(), LOGIN))
        for byte in (b"S", b"N"):
            self.refused(Code.NOT_READY, connection.receive_encryption, byte)

    def test_many_requests(self):
        connection = client(*[Sync()] * 1025)
        self.refused(Code.FLOW_FULL, connection.send, Sync())
        self.hears(connection, *((ReadyForQuery(), ANSWER(number, True)) for number in range(1025)))
        connection.send(Sync())


def client_in_copy():
    """A connection whose COPY in the extended protocol has a Sync before the end of its data, which were given."""
    connection = client(Execute(), Sync())
    assert [*connection.receive(CopyInResponse().write())]
    connection.send(CopyDone())
    return connection


class TestLogins(Case):
    """What a server that doesn't know the password might say."""

    def after(self, *messages):
        """A client that a server has said these messages, and that has answered them."""
        connection = Connection()
        connection.send(STARTUP)
        for message in messages:
            [event] = connection.receive(message.write())
            self.assertEqual(event.whose, LOGIN)
            match message:
                case AuthenticationSASL():
                    connection.send(SASLInitialResponse("SCRAM-SHA-256", b"n,,n=,r=a"))
                case AuthenticationSASLContinue():
                    connection.send(SASLResponse(b"c=biws"))
                case AuthenticationCleartextPassword():
                    connection.send(PasswordMessage("secret"))
        return connection

    def test_a_login(self):
        challenge, final = AuthenticationSASLContinue("r=a"), AuthenticationSASLFinal("v=AQID")
        connection = self.after(OFFER, challenge, final, *LOGGED_IN)
        self.assertEqual((connection.mode, connection.status), (Mode.IDLE, TransactionStatus.IDLE))

    def test_forged_logins(self):
        challenge, final = AuthenticationSASLContinue("r=a"), AuthenticationSASLFinal("v=AQID")
        logins = [[], [OFFER], [OFFER, challenge], [OFFER, challenge, final], [AuthenticationCleartextPassword()]]
        for messages in logins:
            for forged in (ReadyForQuery(), DataRow([]), ParameterStatus("a", "b"), RowDescription([])):
                self.refused(Code.NOT_READY, self.after(*messages).receive, forged.write())
        for messages in logins[1:]:
            for forged in (OFFER, AuthenticationCleartextPassword(), AuthenticationMD5Password(b"abcd")):
                self.refused(Code.NOT_READY, self.after(*messages).receive, forged.write())
        for messages in logins[1:3]:
            self.refused(Code.NOT_READY, self.after(*messages).receive, AuthenticationOk().write())

    def test_a_password_in_mid_session(self):
        for asked in (AuthenticationCleartextPassword(), OFFER, AuthenticationOk()):
            self.refused(Code.UNKNOWN_MESSAGE_TYPE, client().receive, asked.write())
        self.refused(Code.UNKNOWN_MESSAGE_TYPE, client().send, PasswordMessage("secret"))

    def test_a_refused_password(self):
        connection = self.after(AuthenticationCleartextPassword())
        self.hears(connection, (ErrorResponse({"M": "a"}), END))
        self.assertEqual(connection.mode, Mode.ENDED)


class TestServer(Case):
    def test_a_session(self):
        connection = server()
        data = write(Parse("SELECT 1"), Bind([]), Flush(), Sync(), Terminate())
        self.assertEqual([*connection.receive(data)], [Request(Parse("SELECT 1"), 0)])
        self.assertEqual([*connection.receive()], [])
        self.refused(Code.NOT_AN_ANSWER, connection.send, BindComplete())
        self.assertEqual(connection.send(ParseComplete()), ParseComplete().write())
        self.assertEqual([*connection.receive()], [Request(Bind([]), 1)])
        connection.send(ErrorResponse({"M": "a"}))
        self.assertEqual([*connection.receive()], [Request(Flush(), None), Request(Sync(), 2)])
        self.refused(Code.UNASKED, connection.send, ReadyForQuery(), ReadyForQuery())
        connection.send(ReadyForQuery())
        self.assertEqual([*connection.receive()], [Request(Terminate(), None)])
        self.refused(Code.AFTER_END, connection.send, ErrorResponse({"M": "a"}))

    def test_the_end_in_a_copy(self):
        for answer in (CopyInResponse(), CopyBothResponse()):
            connection = server()
            self.assertEqual([*connection.receive(write(Query("COPY"), Terminate()))], [Request(Query("COPY"), 0)])
            self.assertEqual([*connection.receive()], [])
            connection.send(answer)
            self.assertEqual([*connection.receive()], [Request(Terminate(), None)])

    def test_a_message_in_the_place_of_encryption(self):
        connection = ServerConnection()
        self.refused(Code.NOT_READY, connection.send_encryption, b"N")
        self.assertEqual([*connection.receive(SSLRequest().write())], [Request(SSLRequest(), None)])
        self.refused(Code.NOT_READY, connection.send, NoticeResponse({"M": "a"}))
        self.refused(Code.NOT_READY, connection.send_encryption, b"E")
        self.assertEqual(connection.send_encryption(b"N"), b"N")
        self.assertEqual([*connection.receive(STARTUP.write())], [Request(STARTUP, None)])
        connection.send(AuthenticationOk())
        self.refused(Code.NOT_READY, connection.send_encryption, b"N")

    def test_a_login(self):
        connection = ServerConnection()
        self.refused(Code.NOT_READY, connection.send, AuthenticationOk())
        self.assertEqual([*connection.receive(SSLRequest().write())], [Request(SSLRequest(), None)])
        self.assertEqual(connection.send_encryption(b"N"), b"N")
        self.assertEqual([*connection.receive(STARTUP.write())], [Request(STARTUP, None)])
        connection.send(OFFER)
        initial = SASLInitialResponse("SCRAM-SHA-256", b"n,,n=,r=a")
        self.assertEqual([*connection.receive(initial.write())], [Request(initial, None)])
        self.refused(Code.NOT_READY, connection.send, AuthenticationOk())
        connection.send(AuthenticationSASLContinue("r=a"))

    def test_what_may_not_come(self):
        self.refused(Code.NOT_READY, ServerConnection().receive, CancelRequest(1, b"abcd").write() + STARTUP.write())
        connection = server()
        self.refused(Code.UNKNOWN_MESSAGE_TYPE, connection.receive, b"p\0\0\0\5\0")

    def test_what_is_not_iterated_over_comes_later(self):
        connection = server()
        connection.receive(Flush().write())
        self.assertEqual([*connection.receive(Sync().write())], [Request(Flush(), None), Request(Sync(), 0)])

    def test_both_sides(self):
        ours, theirs = client(), server()
        sent = ours.send(Query("a"), Query("b"))
        for number, text in enumerate("ab"):
            [asked] = theirs.receive(sent if number == 0 else b"")
            self.assertEqual(asked, Request(Query(text), number))
            data = theirs.send(CommandComplete(text), ReadyForQuery())
            self.assertEqual([event.request for event in ours.receive(data)], [number, number])


if __name__ == "__main__":
    unittest.main()
