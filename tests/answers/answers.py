"""The answers of the two programs that are compared, and the classes of difference between them.

The original's program is called with the words `decode more`, and then also reports why it refused a
body and where it panicked; ours is called without words. Both read the lines of `bodies.py`, which
are those of `pg_tool decode`: `TAGHEX BODYHEX`, with `-` for no bytes. Both print a line for each:

    NAME ok KEY=VALUE ...    decoded, every accessor called
    NAME err                 refused
    NAME untyped             a known tag without a type
    UNKNOWN err              an unknown tag
    NAME panic               of the original alone

Numbers are decimal, bytes hexadecimal or `-`, options `none` or a value, lists `[X,X]`. Of an
ErrorResponse `position` is `none`, `original:NUM` or `internal:NUM:HEX`. Of a NoticeResponse `raw`
has `LETTER:HEX` (a letter in two digits) for what `get_raw` answers, and `text` each LETTER for
which `get` does. A field of a RowDescription is `name:relation:attribute:type:size:modifier:format`.

A class is determined by the body and both answers; a difference that fits none is a fault of one side.
"""

import re
import struct
import subprocess
import sys
from concurrent.futures import ThreadPoolExecutor

from bodies import line


def lines_of(command, bodies):
    """What a program writes for some bodies."""
    text = "".join(line(tag, body) + "\n" for tag, body in bodies)
    run = subprocess.run(command, input=text, capture_output=True, text=True, check=True)
    lines = run.stdout.splitlines()
    if len(lines) != len(bodies):
        sys.exit(f"{command[0]} did not answer every line")
    return lines


def without_reasons(answer):
    """An answer as the original gives it without `more`."""
    words = answer.split(" ", 2)
    return " ".join(words[:2]) if words[1] in ("err", "panic") else answer


def both(programs, bodies):
    """Each body with the original's answer, reasons included, and with ours."""
    original, ours = programs
    commands = ([original, "decode", "more"], [ours])
    with ThreadPoolExecutor() as pool:
        answers = list(pool.map(lambda command: lines_of(command, bodies), commands))
    return [(*case, *lines) for case, *lines in zip(bodies, *answers)]


def number(form, body, at):
    """The number of a form at a place, or None where the body ends before it."""
    end = at + struct.calcsize(form)
    return struct.unpack(form, body[at:end])[0] if end <= len(body) else None


def is_short(tag, body):
    """Whether the body lacks a byte that its numbers or its count ask for."""
    if tag == "R":
        method = number(">I", body, 0)
        return method is None or method == 5 and len(body) < 8
    if tag in "GH":
        count = number(">h", body, 1)
        return count is None or len(body) < 3 + 2 * count
    if tag == "t":
        count = number(">H", body, 0)
        return count is None or len(body) < 2 + 4 * count
    return len(body) < {"K": 8, "A": 4, "Z": 1}.get(tag, 0)


def has_short_item(tag, body):
    """Whether SASL data has an item without a key and a separator."""
    items = body[4:].split(b",")
    return tag == "R" and number(">I", body, 0) in (11, 12) and any(len(item) < 2 for item in items)


def last_value_is_truncated(tag, body):
    """Whether every length of a row is there, and the last value ends past the body."""
    if tag != "D" or len(body) < 2:
        return False
    end = 2
    for _ in range(number(">H", body, 0)):
        length = number(">i", body, end)
        if length is None:
            return False
        end += 4 + max(length, 0)
    return end > len(body)


def has_bare_sign(value):
    """Whether a number is asked of a sign without a digit after it."""
    return value[:1] in (b"+", b"-") and not value[1:2].isdigit()


def bare_signs(tag, body):
    """The keys whose numbers are asked of a sign without a digit."""
    if tag == "R" and number(">I", body, 0) == 11:
        signs = [has_bare_sign(item[2:]) for item in body[4:].split(b",") if item[:1] == b"i"]
        return {"iterations"} if signs and signs[-1] else set()
    if tag != "E":
        return set()
    keys = set()
    for letter, key in ((b"P", "position"), (b"p", "position"), (b"L", "line")):
        values = [field[1:] for field in body.split(b"\0") if field[:1] == letter]
        if values and has_bare_sign(values[0]):
            keys |= {key, "display"} if key == "line" else {key}
    return keys


def parts_of(answer):
    """The values of an answer by their keys."""
    return dict(word.partition("=")[::2] for word in answer.split(" ")[2:])


# What a sign alone makes of each key: whether the original's value and ours are what they must be.
SIGN_VALUES = {
    "iterations": lambda one, other: (one, other) == ("0", "4096"),
    "line": lambda one, other: (one, other) == ("0", "none"),
    "display": lambda one, other: one == other.strip("-") + b" at line 0".hex(),
    "position": lambda one, other: re.fullmatch("original:0|internal:0:.*", one)
    and re.fullmatch("none|internal:.*", other),
}


def is_bare_sign(tag, body, original, ours):
    """Whether the answers differ only in numbers that are asked of a sign without a digit."""
    one, other = parts_of(original), parts_of(ours)
    if one.keys() != other.keys():
        return False
    changed = {key for key in one if one[key] != other[key]}
    return changed <= bare_signs(tag, body) and all(SIGN_VALUES[key](one[key], other[key]) for key in changed)


# Classes in which the original panics: where it does, and what is true of the body.
PANICS = {
    "short body: the original panics in decoding": ("decode:", is_short),
    "SASL item of fewer than two bytes: the original panics in decoding": ("decode:", has_short_item),
    "truncated last value of a row: the original panics in an accessor": ("access:", last_value_is_truncated),
}
BARE_SIGN = "sign without a digit: 0 for the original, no number for ours"
CLASSES = [*PANICS, BARE_SIGN]


def class_of(tag, body, original, ours):
    """The class of a difference, or None. `original` ends with the place of a panic."""
    words = original.split(" ")
    if words[1] == "panic":
        for name, (place, holds) in PANICS.items():
            if words[2] == place and ours == f"{words[0]} err" and holds(tag, body):
                return name
    elif words[1] == "ok" and ours.startswith(f"{words[0]} ok ") and is_bare_sign(tag, body, original, ours):
        return BARE_SIGN
    return None
