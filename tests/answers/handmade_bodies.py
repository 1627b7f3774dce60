"""Bodies written by hand that show which of two parts is used, and where reading stops."""

REPORTS = [
    # the last message and the last code that are read
    b"Ma\0Mb\0Cc\0\0", b"Ca\0Cb\0Mm\0\0", b"Ma\0Cb\0Mc\0Cd\0\0", b"M\0Cc\0Mm\0Mx\0\0", b"Ma\0M\0Cc\0Mm\0\0",
    # after them nothing is read, not even a field that is not UTF-8 or not a severity
    b"Ma\0Cb\0M\xff\0\0", b"Ma\0Cb\0S\xff\0\0", b"Ma\0Cb\0Vno\0\0", b"Ma\0Cb\0VERROR\0\0", b"Ma\0C\0Vno\0\0",
    # the last severity that is read, and before it that of V
    b"SERROR\0SFATAL\0\0", b"VERROR\0VFATAL\0\0", b"VDEBUG\0SERROR\0\0", b"SERROR\0VDEBUG\0\0",
    b"SERROR\0SFEHLER\0\0", b"SFEHLER\0SERROR\0\0", b"SFEHLER\0VINFO\0\0", b"Verror\0\0", b"V\0\0",
    # the first field of a letter, also where it is no text
    b"Xa\0Xb\0\0", b"X\xff\0Xa\0\0", b"Da\0Db\0\0", b"D\xff\0Da\0\0", b"\x80a\0\xffb\0\0",
    # the first number, and the client's query before the server's
    b"P1\0P2\0\0", b"Px\0P2\0\0", b"Px\0P2\0p3\0qq\0\0", b"P4\0p3\0qq\0\0", b"p1\0p2\0qa\0qb\0\0", b"p1\0\0",
    b"qa\0\0", b"p1\0q\xff\0qa\0\0", b"px\0p1\0qa\0\0", b"L1\0L2\0\0", b"Lx\0L2\0\0", b"Ma\0L3\0\0",
    b"L18446744073709551615\0P18446744073709551615\0\0", b"L18446744073709551616\0P18446744073709551616\0\0",
    # the end of the fields
    b"", b"\0", b"\0Ma\0\0", b"Ma", b"Ma\0", b"Ma\0C", b"Ma\0Cb", b"M", b"Ma\0\0Cb\0",
]

# Up to more fields than a server sends, each of another letter, in either order.
LETTERS = bytes(range(ord("A"), ord("z") + 1))
REPORTS += [b"".join(bytes([letter]) + b"7\0" for letter in letters[:count]) + b"\0"
            for letters in (LETTERS, LETTERS[::-1]) for count in (7, 8, 9, 15, 16, 17, 31, 32, 33, 58)]

MECHANISMS = [
    b"a\0b\0\0", b"a\0b\0", b"a\0b", b"a\0\0b\0", b"\0a\0", b"\xff\0a\0", b"a\0\xff\0b\0\0", b"a\0\xff",
]

CHALLENGES = [
    b"r=a,r=b", b"r=a,r=", b"s=AQ==,s=Ag==", b"s=AQ==,s=", b"s=A,s=AQ==", b"i=1,i=2", b"i=1,i=x", b"i=x,i=1",
    b"i=4294967295", b"i=4294967296", b"i=42949672950", b"i=1x", b"i=01", b"i=,r=a",
    b"r=\xff,r=a", b"r=a,x=\xff", b"rxa,sxAQ==,ix7", b"R=a,S=AQ==,I=7", b"a=r=b",
    b"r=a=b", b"xx", b"xx,r=a", b"s=AQ==\0", b"s=AQ=", b"s=AQ", b"s=AR==", b"s= AQ==", b"s=AQ==AQ==", b"s=-_8=",
]

VERIFIERS = [b"v=AQ==,v=Ag==", b"v=AQ==,v=", b"v=A,v=AQ==", b"vxAQ==", b"V=AQ==", b"xx", b"e=\xff,v=AQ=="]

COMMANDS = [
    b"A 1 2\0", b"A 1 \0", b"A1\0", b"1\0", b" 1", b"A 1x\0", b"A x1\0", b"A +1\0", b"A -1\0", b"A -0\0",
    b"A +-1\0", b"A 18446744073709551615\0", b"A 18446744073709551616\0", b"A 184467440737095516150\0",
    b"", b" ", b"A\0 1\0",
]

ROWS = [
    b"\0\0", b"\0\0x", b"\0\1\0\0\0\1ab", b"\0\1\x80\0\0\0a", b"\0\1\xff\xff\xff\xfea",
    b"\0\2\0\0\0\1a\xff\xff\xff\xff",
    b"\0\2\xff\xff\xff\xff\0\0\0\1a", b"\0\2\0\0\0\0\0\0\0\1a", b"\0\2\0\0\0\5\0\0\0\0",
    b"\0\1\x7f\xff\xff\xff",
]


def handmade():
    """The tag and the body of each."""
    yield from ((tag, body) for body in REPORTS for tag in "EN")
    for method, bodies in ((10, MECHANISMS), (11, CHALLENGES), (12, VERIFIERS)):
        yield from (("R", method.to_bytes(4, "big") + body) for body in bodies)
    yield from (("C", body) for body in COMMANDS)
    yield from (("D", body) for body in ROWS)
