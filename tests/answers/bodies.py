#!/usr/bin/env python3
"""Writes received bodies to compare two decoders on, as lines `TAGHEX BODYHEX` (`-` for no bytes).

    bodies.py tags                   every byte as a tag, of no bytes and of one
    bodies.py short                  all bodies of 0 to 2 bytes of the fifteen tags that a type decodes
    bodies.py alphabets              all short bodies over a few bytes that matter to the message
    bodies.py handmade               bodies that show which of two parts is used
    bodies.py large                  bodies with the greatest counts, whole and without their last byte
    bodies.py good SEED COUNT        COUNT good bodies of every tag
    bodies.py damaged SEED COUNT     COUNT damaged copies of good bodies
"""

import argparse
import itertools
import random
import sys

sys.dont_write_bytecode = True

from good_bodies import TYPED, UNTYPED
from handmade_bodies import handmade

# Of a tag: the front of its bodies, the bytes after it, and how many of them at most.
ALPHABETS = [
    ("R", b"\0\0\0\x0a", b"\0a\xc3\xa4", 8), ("R", b"\0\0\0\x0b", b",=ris+7\xff", 6),
    ("R", b"\0\0\0\x0b", b"i=,-09", 7), ("R", b"\0\0\0\x0bs=", b"AQ/=,\0", 7),
    ("R", b"\0\0\0\x0c", b",v=Ag\xff", 7), ("C", b"", b" 079+-\0", 6),
    ("D", b"\0\x01", b"\0\x01\x02\xff", 8), ("D", b"\0\x02\0\0", b"\0\x01\xff", 10),
    ("E", b"", b"\0SVMC\xff", 7), ("N", b"", b"\0SVMC\xff", 7), ("E", b"", b"\0Ppq+7", 7),
    ("E", b"VLOG\0", b"\0LM-01", 7), ("A", b"\0\0\0\x01", b"\0a\xff", 10),
    ("t", b"\0", b"\0\x01\x02\xff", 8), ("G", b"", b"\0\x01\x02\xff", 8),
    ("H", b"", b"\0\x01\x80\xff", 8), ("S", b"", b"\0a\xc3\xa4", 8),
    ("T", b"\0\x01\xc3\xa4", b"\0\x01", 16), ("T", b"\0\x01a\0" + b"\0" * 12, b"\0\x01\xff", 7),
]

# What a changed byte mostly becomes: ends, signs, separators, numbers, no UTF-8.
BYTES = b"\0\x01\x02\x7f\x80\xff\xc3\xe2+-,=0 9CMSVPpqL"

# Tags that bodies have, the ones with most to decode more often; with one that no message has.
TAGS = [*TYPED, *TYPED, *"RRRRRREEEEEENNNNDDDDTTTTtt", *UNTYPED, "x"]


def line(tag, body):
    """The line of a tag and a body."""
    return f"{ord(tag):02x} {body.hex() or '-'}"


def tags():
    """Every byte as a tag, with the shortest bodies."""
    return ((chr(tag), body) for tag in range(256) for body in (b"", b"\0"))


def short():
    """Every body of 0 to 2 bytes."""
    for tag in TYPED:
        for length in range(3):
            for number in range(256 ** length):
                yield tag, number.to_bytes(length, "big")


def alphabets():
    """Every short body over an alphabet."""
    for tag, front, alphabet, most in ALPHABETS:
        for length in range(most + 1):
            for back in itertools.product(alphabet, repeat=length):
                yield tag, front + bytes(back)


def large():
    """Bodies with the greatest counts, and with more fields than any server sends."""
    most, most_codes = b"\xff\xff", b"\x7f\xff"
    bodies = [
        ("D", most + b"\xff\xff\xff\xff" * 65535), ("D", most + b"\0\0\0\x01x" * 65535),
        ("T", most + b"\0" * 19 * 65535), ("T", most + (b"name\0" + b"\x01" * 18) * 65535),
        ("t", most + b"\x01" * 4 * 65535), ("G", b"\x01" + most_codes + b"\0\x01" * 32767),
        ("H", b"\x01" + most_codes + b"\x80\0" * 32767), ("E", b"Xvalue\0" * 20000 + b"L7\0"),
        ("N", b"Xvalue\0" * 2000 + b"C1\0Mm\0"), ("R", b"\0\0\0\x0a" + b"name\0" * 20000),
        ("R", b"\0\0\0\x0b" + b"i=7," * 20000 + b"r=n"), ("d", b"x" * 2 ** 20),
    ]
    for length in (255, 256, 32767, 32768, 65535, 65536):
        bodies += [(tag, b"D" + b"x" * length + b"\0Mm\0L7\0\0") for tag in "EN"]
        bodies += [("A", b"\0\0\0\x01" + b"x" * length + b"\0y\0"), ("S", b"x" * length + b"\0y\0"),
                   ("D", b"\0\x02" + length.to_bytes(4, "big") + b"x" * length + b"\0\0\0\x01y")]
    for tag, body in bodies:
        yield tag, body
        yield tag, body[:-1]


def good(rng):
    """A tag and a good body."""
    tag = rng.choice(TAGS)
    return tag, {**TYPED, **UNTYPED}.get(tag, TYPED["C"])(rng)


def place(rng, body):
    """A place in a body, often near its front, where the counts are."""
    end = len(body) if rng.random() < 0.7 else min(len(body), 8)
    return rng.randint(0, end)


def replaced(rng, body):
    """A byte of the body becomes another."""
    at = place(rng, body)
    return body[:at] + bytes([rng.choice(BYTES)]) + body[at + 1:]


def flipped(rng, body):
    """A bit of the body flips."""
    at = place(rng, body)
    return body[:at] + bytes(byte ^ 1 << rng.randrange(8) for byte in body[at:at + 1]) + body[at + 1:]


def inserted(rng, body):
    """Some bytes come in."""
    at = place(rng, body)
    return body[:at] + bytes(rng.choices(BYTES, k=rng.choice([1, 1, 2, 4]))) + body[at:]


def deleted(rng, body):
    """Some bytes go."""
    at = place(rng, body)
    return body[:at] + body[at + rng.choice([1, 1, 2, 4, 8]):]


def duplicated(rng, body):
    """Some bytes stand twice."""
    at = place(rng, body)
    return body[:at + rng.choice([1, 2, 4, 8, 16])] + body[at:]


def truncated(rng, body):
    """The end goes."""
    return body[:place(rng, body)]


def extended(rng, body):
    """Bytes after the end."""
    return body + rng.randbytes(rng.randint(1, 4))


def counted_anew(rng, body):
    """The count at the front becomes another, or its bytes change places."""
    count = int.from_bytes(body[:2], "big")
    other = rng.choice([count + 1, count - 1, count * 2, count << 8, 0, 65535, 32768]) % 65536
    return other.to_bytes(2, "big") + body[2:]


def spliced(rng, body):
    """The front of the body, and the end of another."""
    _, other = good(rng)
    return body[:place(rng, body)] + other[place(rng, other):]


def exchanged(rng, body):
    """Two parts of the body change places."""
    one, two, three = sorted(place(rng, body) for _ in range(3))
    return body[:one] + body[two:three] + body[one:two] + body[three:]


DAMAGES = [replaced, replaced, flipped, inserted, deleted, duplicated, truncated, extended,
           counted_anew, spliced, exchanged]


def damaged(seed, count):
    """Damaged copies of good bodies, at times with the tag of another message."""
    rng = random.Random(seed)
    for _ in range(count):
        tag, body = good(rng)
        for _ in range(rng.choice([1, 1, 1, 2, 3])):
            body = rng.choice(DAMAGES)(rng, body)
        if rng.random() < 0.03:
            tag = rng.choice(TAGS)
        yield tag, body


def cases(words):
    """The tags and bodies that the words of a command name, or None."""
    match words:
        case ["tags"]:
            return tags()
        case ["short"]:
            return short()
        case ["alphabets"]:
            return alphabets()
        case ["handmade"]:
            return handmade()
        case ["large"]:
            return large()
        case ["good", seed, count]:
            rng = random.Random(int(seed))
            return (good(rng) for _ in range(int(count)))
        case ["damaged", seed, count]:
            return damaged(int(seed), int(count))
    return None


def main():
    parser = argparse.ArgumentParser(description=__doc__, formatter_class=argparse.RawDescriptionHelpFormatter)
    parser.add_argument("words", nargs="+")
    found = cases(parser.parse_args().words)
    if found is None:
        parser.error("no bodies have this name")
    sys.stdout.writelines(line(tag, body) + "\n" for tag, body in found)


if __name__ == "__main__":
    main()
