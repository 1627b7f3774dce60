"""A login by SCRAM-SHA-256, as a client does it, by the hashes of Python's own library."""

from __future__ import annotations

import base64
import hashlib
import hmac
import secrets

from .authentication import AuthenticationSASLContinue, AuthenticationSASLFinal
from .message import Text, octets
from .passwords import SASLInitialResponse, SASLResponse
from .saslprep import prepared

MECHANISM = b"SCRAM-SHA-256"

# No channel binding.
HEADER = "n,,"

# A server may ask for any number of iterations; more take many seconds.
MOST_ITERATIONS = 10_000_000


class Scram:
    """An exchange: send `initial`, answer the challenge by `response`, and `check` the end before you trust the server.

    PostgreSQL takes the user of the session, whatever `user` says. A `nonce` is for a test alone.
    """

    def __init__(self, password: Text, user: str = "", nonce: str = "") -> None:
        self._password = prepared(octets(password))
        self._nonce = nonce or secrets.token_urlsafe(18)
        self._bare = f"n={user.replace('=', '=3D').replace(',', '=2C')},r={self._nonce}"
        self._verifier = b""
        self.is_checked = False

    def initial(self) -> SASLInitialResponse:
        """What begins it."""
        return SASLInitialResponse(MECHANISM, f"{HEADER}{self._bare}")

    def response(self, challenge: AuthenticationSASLContinue) -> SASLResponse:
        """What proves that the client knows the password.

        A server that answers another client, asks for more than MOST_ITERATIONS, or challenges twice is a ValueError.
        """
        if self._verifier:
            raise ValueError("the exchange has had its challenge")
        iterations, salt, nonce = challenge.challenge()
        begins = challenge.data.startswith(b"r=") and nonce.startswith(self._nonce)
        if not begins or nonce == self._nonce or not salt:
            raise ValueError("the challenge is no answer to what began the exchange")
        if not 0 < iterations <= MOST_ITERATIONS:
            raise ValueError(f"the server asks for {iterations} iterations")
        salted = hashlib.pbkdf2_hmac("sha256", self._password, salt, iterations)
        ending = f"c={base64.b64encode(HEADER.encode()).decode()},r={nonce}"
        signed = b",".join([self._bare.encode(), challenge.data, ending.encode()])
        key = digest(salted, b"Client Key")
        signature = digest(hashlib.sha256(key).digest(), signed)
        self._verifier = digest(digest(salted, b"Server Key"), signed)
        proof = bytes(a ^ b for a, b in zip(key, signature))
        return SASLResponse(f"{ending},p={base64.b64encode(proof).decode()}")

    def check(self, final: AuthenticationSASLFinal) -> None:
        """Raises a ValueError where the server doesn't know the password."""
        if not self._verifier or not hmac.compare_digest(final.verifier(), self._verifier):
            raise ValueError("the server doesn't know the password")
        self.is_checked = True


def digest(key: bytes, message: bytes) -> bytes:
    """The HMAC of a message."""
    return hmac.digest(key, message, "sha256")
