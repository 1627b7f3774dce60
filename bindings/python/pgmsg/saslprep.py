"""Passwords in the form that SASLprep gives them (RFC 4013)."""

from __future__ import annotations

import stringprep
import unicodedata

PROHIBITED = (
    stringprep.in_table_a1, stringprep.in_table_c12, stringprep.in_table_c21_c22, stringprep.in_table_c3,
    stringprep.in_table_c4, stringprep.in_table_c5, stringprep.in_table_c6, stringprep.in_table_c7, stringprep.in_table_c8,
    stringprep.in_table_c9)


def prepared(password: bytes) -> bytes:
    """The form in which PostgreSQL compares a password: as it is where it isn't UTF-8, or SASLprep refuses it."""
    try:
        text = password.decode()
    except UnicodeDecodeError:
        return password
    normal = unicodedata.normalize("NFKC", "".join(map(mapped, text)))
    return normal.encode() if is_allowed(normal) else password


def mapped(character: str) -> str:
    """A space for each other space, and nothing for what isn't seen."""
    if stringprep.in_table_c12(character):
        return " "
    return "" if stringprep.in_table_b1(character) else character


def is_allowed(text: str) -> bool:
    """Whether it has characters, none that is prohibited, and where some are written from right to left, such at both ends
    and none from left to right."""
    if not text or any(is_in(character) for character in text for is_in in PROHIBITED):
        return False
    if not any(map(stringprep.in_table_d1, text)):
        return True
    ends = stringprep.in_table_d1(text[0]) and stringprep.in_table_d1(text[-1])
    return ends and not any(map(stringprep.in_table_d2, text))
