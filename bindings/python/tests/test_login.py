"""Logins, with the exchange of RFC 7677, and those that go wrong."""

import hashlib
import unittest
from unittest import mock

import support  # noqa: F401
from pgmsg import *

NONCE = "rOprNGfwEbeRWgbNEkqO"

CHALLENGE = AuthenticationSASLContinue(
    f"r={NONCE}%hvYDpWUa2RaTCAfuxFIlj)hNlF$k0,s=W22ZaJ0SNY7soEsUEjb6gQ==,i=4096")


def begun():
    """The exchange of the RFC."""
    return Scram("pencil", "user", NONCE)


class TestScram(unittest.TestCase):
    def test_the_exchange_of_the_rfc(self):
        scram = begun()
        self.assertEqual(scram.initial(), SASLInitialResponse("SCRAM-SHA-256", f"n,,n=user,r={NONCE}"))
        self.assertEqual(scram.response(CHALLENGE), SASLResponse(
            f"c=biws,r={NONCE}%hvYDpWUa2RaTCAfuxFIlj)hNlF$k0,p=dHzbZapWIk4jUhN+Ute9ytag9zjfMHgsqmmiz7AndVQ="))
        scram.check(AuthenticationSASLFinal("v=6rriTRBi23WpRR/wtup+mMhUZUn/dB5nLTJRsjl95G4="))

    def test_a_server_that_does_not_know_the_password(self):
        scram = begun()
        scram.response(CHALLENGE)
        for final in ("v=6rriTRBi23WpRR/wtup+mMhUZUn/dB5nLTJRsjl95G5=", "v=", "e=other-error"):
            with self.assertRaises((ValueError, Fault)):
                scram.check(AuthenticationSASLFinal(final))

    def test_before_a_challenge_nothing_is_right(self):
        for final in ("v=", "v=AA==", ""):
            with self.assertRaises((ValueError, Fault)):
                begun().check(AuthenticationSASLFinal(final))

    def test_a_challenge_of_another_exchange(self):
        for nonce in ("", NONCE, "x" + NONCE):
            self.assertRaises(ValueError, begun().response, AuthenticationSASLContinue(f"r={nonce},s=AQID,i=1"))

    def test_a_challenge_that_no_server_should_send(self):
        for data in (f"r={NONCE}x,s=AQID,i=0", f"r={NONCE}x,s=AQID,i=10000001", f"r={NONCE}x,s=AQID,i=4294967295",
                     f"r={NONCE}x,i=1", f"r={NONCE}x,s=,i=1", f"m=ext,r={NONCE}x,s=AQID,i=1"):
            with self.assertRaises((ValueError, Fault)):
                begun().response(AuthenticationSASLContinue(data))

    def test_a_second_challenge(self):
        scram = begun()
        scram.response(CHALLENGE)
        with mock.patch("hashlib.pbkdf2_hmac", wraps=hashlib.pbkdf2_hmac) as salted:
            self.assertRaises(ValueError, scram.response, CHALLENGE)
        salted.assert_not_called()

    def test_iterations_beyond_the_limit_are_none(self):
        for count in (10_000_001, 4294967295):
            with mock.patch("hashlib.pbkdf2_hmac", wraps=hashlib.pbkdf2_hmac) as salted:
                self.assertRaises(ValueError, begun().response, AuthenticationSASLContinue(f"r={NONCE}x,s=AQID,i={count}"))
            salted.assert_not_called()

    def test_parts_of_a_challenge(self):
        for data, due in [("r=abc,s=AQID,i=8192", Challenge(8192, b"\1\2\3", "abc")), ("r=a", Challenge(4096, b"", "a"))]:
            self.assertEqual(AuthenticationSASLContinue(data).challenge(), due)

    def test_forms_of_a_password(self):
        # The examples of RFC 4013, section 3, of which the last two are refused; and a space that isn't ASCII.
        for password, due in [("I\u00adX", "IX"), ("user", "user"), ("USER", "USER"), ("\u00aa", "a"), ("\u2168", "IX"),
                              ("\u0007", "\u0007"), ("\u06271", "\u06271"), ("a\u00a0b", "a b"), (b"\xff", b"\xff"),
                              ("", ""), ("\u0627\u0628", "\u0627\u0628")]:
            one, other = (Scram(it, "user", NONCE) for it in (password, due))
            self.assertEqual(one.response(CHALLENGE), other.response(CHALLENGE))

    def test_nonces_differ(self):
        self.assertNotEqual(Scram("a").initial(), Scram("a").initial())
        self.assertIn(b"n=a=2Cb=3D,r=", Scram("", "a,b=").initial().data)


# What a server asks for, of the exchange of the RFC.
OFFER = AuthenticationSASL(["SCRAM-SHA-256"])
FINAL = AuthenticationSASLFinal("v=6rriTRBi23WpRR/wtup+mMhUZUn/dB5nLTJRsjl95G4=")

# What comes in a login, in order.
LOGINS = [
    (AuthenticationOk(),),
    (AuthenticationCleartextPassword(), AuthenticationOk()),
    (AuthenticationMD5Password(b"abcd"), AuthenticationOk()),
    (OFFER, CHALLENGE, FINAL, AuthenticationOk()),
]

# What comes only after one, rows as `runs` gives them among these.
LATER = [
    ReadyForQuery(), [("1",)], DataRow(["1"]), RowDescription([]), CommandComplete("SELECT 1"), CopyData(b""), CopyBothResponse(),
    ParameterStatus("a", "b"), BackendKeyData(1, bytes(4)), NotificationResponse(1, "a"),
]

NOTICE = NoticeResponse({"M": "a"})

# How a Login refuses: a message that may not come now, or one that it doesn't like.
REFUSALS = Fault, ValueError


def after(messages):
    """A login that these messages came to."""
    with mock.patch("pgmsg.login.Scram", lambda password: begun()):
        login = Login("ann", "pencil")
        for message in messages:
            login.answer(message)
    return login


class TestLogin(unittest.TestCase):
    def test_passwords(self):
        for asked, answer in [
            (AuthenticationOk(), None),
            (AuthenticationCleartextPassword(), PasswordMessage("secret")),
            # A server's SELECT 'md5' || md5(md5('secret' || 'ann') || 'abcd').
            (AuthenticationMD5Password(b"abcd"), PasswordMessage("md5b74835331d7e1d325026d95f00dd69c5")),
        ]:
            self.assertEqual(Login("ann", "secret").answer(asked), answer)

    def test_what_comes_before_the_login_is_accepted(self):
        for messages in LOGINS:
            for count in range(len(messages)):
                for message in (*LATER, NOTICE):
                    self.assertRaises(Fault, after(messages[:count]).answer, message)
            for message in (*LATER, NOTICE):
                self.assertIsNone(after([*messages, ReadyForQuery()]).answer(message))
            for message in (NOTICE, ParameterStatus("a", "b"), BackendKeyData(1, bytes(4)), ReadyForQuery()):
                self.assertIsNone(after(messages).answer(message))
            for message in ([("1",)], DataRow(["1"]), CommandComplete("SELECT 1"), CopyData(b"")):
                self.assertRaises(Fault, after(messages).answer, message)

    def test_what_is_asked_out_of_turn(self):
        known = {asked for messages in LOGINS for asked in messages}
        for messages in LOGINS:
            for count in range(1, len(messages) + 1):
                for asked in known - {*messages[count : count + 1]}:
                    self.assertRaises(Fault, after(messages[:count]).answer, asked)

    def test_in_mid_session(self):
        for messages in LOGINS:
            for asked in (AuthenticationOk(), AuthenticationCleartextPassword(), OFFER, CHALLENGE, FINAL):
                self.assertRaises(Fault, after([*messages, ReadyForQuery(), [("1",)]]).answer, asked)

    def test_an_error_and_a_version(self):
        for messages in LOGINS:
            for count in range(len(messages) + 1):
                login = after(messages[:count])
                self.assertIsNone(login.answer(ErrorResponse({"M": "a"})))
                for asked in LOGINS[1]:
                    self.assertRaises(Fault, login.answer, asked)
            self.assertIsNone(after([]).answer(NegotiateProtocolVersion(0)))
            self.assertRaises(Fault, after(messages).answer, NegotiateProtocolVersion(0))

    def test_a_server_that_does_not_prove_itself(self):
        login = Login("ann", "secret")
        first = login.answer(AuthenticationSASL(["SCRAM-SHA-256-PLUS", "SCRAM-SHA-256"]))
        self.assertEqual(first.mechanism, b"SCRAM-SHA-256")
        nonce = first.data.decode().partition("r=")[2]
        self.assertRaises(Fault, login.answer, AuthenticationOk())
        answer = login.answer(AuthenticationSASLContinue(f"r={nonce}abc,s=AQID,i=1"))
        self.assertTrue(answer.data.startswith(f"c=biws,r={nonce}abc,p=".encode()))
        for message in (AuthenticationOk(), AuthenticationSASLFinal("v=AQID"), AuthenticationOk()):
            self.assertRaises(REFUSALS, login.answer, message)

    def test_what_is_not_known(self):
        for message in (AuthenticationGSS(), AuthenticationSSPI(), AuthenticationKerberosV5(), CHALLENGE,
                        AuthenticationSASL(["SCRAM-SHA-1"]), AuthenticationSASLFinal("v=AQID")):
            self.assertRaises(REFUSALS, Login("ann", "secret").answer, message)


if __name__ == "__main__":
    unittest.main()
