"""What a client answers to a server that asks who it is."""

from __future__ import annotations

from typing import Any

from .authentication import (
    Authentication, AuthenticationCleartextPassword, AuthenticationMD5Password, AuthenticationOk, AuthenticationSASL,
    AuthenticationSASLContinue, AuthenticationSASLFinal)
from .flow import HEADER, Flow, Mode, parts
from .message import BackendMessage, FrontendMessage, Text
from .passwords import PasswordMessage
from .scram import MECHANISM, Scram
from .session import ReadyForQuery

# The body of the StartupMessage with which a login begins, as far as it is looked at.
STARTUP = b"\0\3\0\0"

ROW = ord("D")


class Login:
    """A login by a password: in clear, as an MD5 digest, or by SCRAM-SHA-256, as the server asks.

    A password in clear or as a digest is no secret on a network that others read.
    """

    def __init__(self, user: Text, password: Text) -> None:
        self._user, self._password = user, password
        self._scram = Scram(password)
        self._flow = Flow()
        self._flow.said(None, STARTUP)

    def answer(self, message: BackendMessage | list[Any]) -> FrontendMessage | None:
        """What to send, None where nothing is due. It has to see each message of the server, also the rows of `runs`.

        A Fault says that the message may not come now: the server asks once more, goes on before it has accepted the login, or
        accepts it before it has proved that it knows the password. A ValueError says that the server asks for something
        else, or doesn't know the password. Close the connection after either.
        """
        if self._flow.mode is not Mode.LOGIN and not isinstance(message, Authentication):
            return None
        state = self._flow.state
        try:
            self._flow.heard(ROW if isinstance(message, list) else message.TAG, beginning(message))
            answer = self._answer(message)
            if answer is not None:
                self._flow.said(*parts(answer, answer.write()))
        except BaseException:
            self._flow.state = state
            raise
        return answer

    def _answer(self, message: BackendMessage | list[Any]) -> FrontendMessage | None:
        match message:
            case AuthenticationCleartextPassword():
                return PasswordMessage(self._password)
            case AuthenticationMD5Password(salt):
                return PasswordMessage.md5(self._user, self._password, salt)
            case AuthenticationSASL(mechanisms) if MECHANISM not in mechanisms:
                raise ValueError(f"the server offers no {MECHANISM.decode()}")
            case AuthenticationSASL():
                return self._scram.initial()
            case AuthenticationSASLContinue():
                return self._scram.response(message)
            case AuthenticationSASLFinal():
                self._scram.check(message)
            case Authentication() if not isinstance(message, AuthenticationOk):
                raise ValueError(f"{type(message).__name__} is no login that is known here")
        return None


def beginning(message: BackendMessage | list[Any]) -> bytes:
    """The body of a message, where the flow looks at it."""
    return message.write()[HEADER:] if isinstance(message, (Authentication, ReadyForQuery)) else b""
