"""Why a call refuses."""

from __future__ import annotations

import enum

from ._library import ffi, lib


class Code(enum.IntEnum):
    """Why a call refuses, by the header's number."""

    OUT_OF_MEMORY = lib.PGMSG_OUT_OF_MEMORY
    TOO_MANY_PARAM_FORMATS = lib.PGMSG_TOO_MANY_PARAM_FORMATS
    TOO_MANY_RESULT_FORMATS = lib.PGMSG_TOO_MANY_RESULT_FORMATS
    TOO_MANY_PARAM_TYPES = lib.PGMSG_TOO_MANY_PARAM_TYPES
    MESSAGE_TOO_LONG = lib.PGMSG_MESSAGE_TOO_LONG
    WRONG_FORMAT = lib.PGMSG_WRONG_FORMAT
    BODY_TOO_LONG = lib.PGMSG_BODY_TOO_LONG
    UNKNOWN_MESSAGE_TYPE = lib.PGMSG_UNKNOWN_MESSAGE_TYPE
    UNKNOWN_AUTHENTICATION = lib.PGMSG_UNKNOWN_AUTHENTICATION
    UNKNOWN_STATUS = lib.PGMSG_UNKNOWN_STATUS
    UNKNOWN_SEVERITY = lib.PGMSG_UNKNOWN_SEVERITY
    SHORT = lib.PGMSG_SHORT
    MISSING_NUL = lib.PGMSG_MISSING_NUL
    NOT_UTF8 = lib.PGMSG_NOT_UTF8
    NOTICE_NOT_UTF8 = lib.PGMSG_NOTICE_NOT_UTF8
    SHORT_SASL_ITEM = lib.PGMSG_SHORT_SASL_ITEM
    BASE64 = lib.PGMSG_BASE64
    BAD_LENGTH = lib.PGMSG_BAD_LENGTH
    TEXT_HOLDS_NUL = lib.PGMSG_TEXT_HOLDS_NUL
    BAD_PARAMS = lib.PGMSG_BAD_PARAMS
    BAD_KEY_LENGTH = lib.PGMSG_BAD_KEY_LENGTH
    UNKNOWN_CODE = lib.PGMSG_UNKNOWN_CODE
    UNKNOWN_TARGET = lib.PGMSG_UNKNOWN_TARGET
    BAD_VALUE_LENGTH = lib.PGMSG_BAD_VALUE_LENGTH
    TRAILING_BYTES = lib.PGMSG_TRAILING_BYTES
    FIRST_TOO_LONG = lib.PGMSG_FIRST_TOO_LONG
    TOO_MANY = lib.PGMSG_TOO_MANY
    NOT_FRAMES = lib.PGMSG_NOT_FRAMES
    FRAME_TOO_LONG = lib.PGMSG_FRAME_TOO_LONG
    UNKNOWN_LETTER = lib.PGMSG_UNKNOWN_LETTER
    NOT_READY = lib.PGMSG_NOT_READY
    AFTER_END = lib.PGMSG_AFTER_END
    IN_COPY = lib.PGMSG_IN_COPY
    NOT_IN_COPY = lib.PGMSG_NOT_IN_COPY
    NOT_REFUSABLE = lib.PGMSG_NOT_REFUSABLE
    UNASKED = lib.PGMSG_UNASKED
    BUSY = lib.PGMSG_BUSY
    NOT_AN_ANSWER = lib.PGMSG_NOT_AN_ANSWER
    BEHIND_COPY = lib.PGMSG_BEHIND_COPY
    SYNC_FIRST = lib.PGMSG_SYNC_FIRST
    FLOW_FULL = lib.PGMSG_FLOW_FULL


class Fault(Exception):
    """A message that is refused, to be sent or as it was received.

    `code` says why. `words` say it for people. `at` is an offset in the body that was read, where the fault has one,
    else 0.
    """

    def __init__(self, code: Code, words: str, at: int = 0) -> None:
        super().__init__(code, words, at)
        self.code = code
        self.words = words
        self.at = at

    def __str__(self) -> str:
        return self.words


def refusal(number: int, words: str = "", at: int = 0) -> Exception:
    """What to raise for a number below 0 that a call returned, whose own words may be longer."""
    code = Code(number)
    words = words or ffi.string(lib.pgmsg_strerror(number)).decode("ascii")
    return MemoryError(words) if code is Code.OUT_OF_MEMORY else Fault(code, words, at)
