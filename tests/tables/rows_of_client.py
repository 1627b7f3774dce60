"""What pg_tool prints, by hand from the standard, PostgreSQL's "Message Formats" and "Message Flow"."""

from rows import NULL, cut, fronts, lines, listed, no_nul, short

FINE = "ok"

NOT_UTF8 = "text is not UTF-8"
NOTICE_NOT_UTF8 = (
    "Postgres returned a non-UTF-8 string for its error message. This is most likely due to an error that occurred "
    "during authentication and the default lc_messages locale is not binary-compatible with UTF-8. See the server logs "
    "for the error details.")
ITEM = "SASL item of fewer than two bytes"
BASE64 = "SASL value is not base64"

ZEROS = bytes(18)
ID = b"\0\x01id\0\0\0\x40\x06\0\x01\0\0\0\x17\0\x04\xff\xff\xff\xff\0\x01"
ROW = b"\0\x08" + b"".join(NULL + b"\0\0\0\x04\0\0\0" + last for last in (b"\x0a", b"\x14", b"\x28", b"\x50"))

# Bodies by kind and tag. Each pair is the length of a last front and the answer of all from the one before on.
FRONTS = {
    ("Authentication", b"R"): [
        (b"\0\0\0\x07", (3, short(0, 4)), (4, "unknown authentication method: 7")),
        (b"\0\0\0\x05\x01\x02\x03", (3, short(0, 4)), (7, short(4, 4))),
        (b"\0\0\0\0\xff", (3, short(0, 4)), (5, FINE)),
        (b"\0\0\0\x0a", (3, short(0, 4)), (4, FINE)),
        (b"\0\0\0\x0aSCRAM-SHA-256\0\xff\0PLAIN\0\0", (3, short(0, 4)), (27, FINE)),
    ],
    ("BackendKeyData", b"K"): [(b"\0\0\x27\xc6\x89\x52\xc5\x2b", (3, short(0, 4)), (7, short(4, 4)), (8, FINE))],
    ("CommandComplete", b"C"): [
        (tag, (len(tag), FINE))
        for tag in (b"INSERT 0 1214\0", b"BEGIN\0", b"UPDATE 18446744073709551616\0",
                    b"COPY +5\0", b"SELECT 007x\0", b"SELECT 7 \0")],
    ("CopyDone", b"c"): [(b"X", (1, FINE))],
    ("CopyInResponse", b"G"): [
        (b"\0\xff\xff", (0, short(0, 1)), (2, short(1, 2)), (3, FINE)),
        (b"\0\0\x02\0\x01", (0, short(0, 1)), (2, short(1, 2)), (5, short(3, 4))),
    ],
    ("CopyOutResponse", b"H"): [
        (b"\x01\0\x02\0\0\0\x01", (0, short(0, 1)), (2, short(1, 2)), (6, short(3, 4)), (7, FINE)),
        (b"\0\x7f\xff", (0, short(0, 1)), (2, short(1, 2)), (3, short(3, 65534))),
    ],
    ("DataRow", b"D"): [
        (ROW, (1, short(0, 2)), (33, short(2, 32)), (37, short(34, 4)), (41, short(38, 4)),
         (45, short(42, 4)), (49, short(46, 4)), (50, FINE)),
        (b"\0\x01\0\0\0\x05ab", (1, short(0, 2)), (5, short(2, 4)), (8, short(6, 5))),
        (b"\0\x01\xff\xff\xff\xfez", (1, short(0, 2)), (5, short(2, 4)), (7, FINE)),
        (b"\xff\xff", (1, short(0, 2)), (2, short(2, 262140))),
        (b"\0\0", (1, short(0, 2)), (2, FINE)),
        (b"\0\x02\0\0\0\0" + NULL + b"z", (1, short(0, 2)), (9, short(2, 8)), (11, FINE)),
        (b"\0\x02\0\0\0\x04abcd", (1, short(0, 2)), (9, short(2, 8)), (10, short(10, 4))),
        (b"\0\x01\x7f\xff\xff\xff", (1, short(0, 2)), (5, short(2, 4)), (6, short(6, 2147483647))),
    ],
    ("ErrorResponse", b"E"): [
        (fields, (len(fields), FINE))
        for fields in (b"Mboom\0C23505\0L12\0\0", b"Px\0p7\0qSELECT\0\0", b"P+3x\0\0", b"P-0\0\0", b"p7\0\0",
                       b"Mm\0Lx\0\0", b"C53300\0\0")],
    ("NoticeResponse", b"N"): [
        (fields, (len(fields), FINE))
        for fields in (b"Mfoo\0Mbar\0C1\0VERROR\0\0", b"Mfoo\0M\0C1\0Mbar\0\0", b"Cx\0M\0Ma\0VFOO\0\0", b"Ma\0C1\0M\xff\0\0",
                       b"SFEHLER\0VERROR\0\0", b"SERROR\0SFOO\0\0", b"X\xff\0Xa\0\0", b"Mfoo", b"Sfoo\0\0")
    ] + [
        (b"M\xff\0", (2, FINE), (3, NOTICE_NOT_UTF8)),
        (b"VFOO\0\0", (4, FINE), (6, "unknown severity")),
    ],
    ("NotificationResponse", b"A"): [
        (b"\x34\x20\x10\x02TEST-CHANNEL\0THIS IS A TEST\0", (3, short(0, 4)), (16, no_nul(4)), (31, no_nul(17)), (32, FINE)),
        (b"\0\0\0\x01\xff\0\0", (3, short(0, 4)), (5, no_nul(4)), (6, no_nul(6)), (7, FINE)),
        (b"\0\0\0\x01a\0", (3, short(0, 4)), (5, no_nul(4)), (6, no_nul(6))),
    ],
    ("ParameterDescription", b"t"): [
        (b"\0\x02\0\0\0\x01\0", (1, short(0, 2)), (7, short(2, 8))),
        (b"\xff\xff", (1, short(0, 2)), (2, short(2, 262140))),
    ],
    ("ParameterStatus", b"S"): [
        (b"a\0\xff\0", (1, no_nul(0)), (3, no_nul(2)), (4, NOT_UTF8)),
        (b"\xff\0", (1, no_nul(0)), (2, NOT_UTF8)),
        (b"a\0b", (1, no_nul(0)), (3, no_nul(2))),
    ],
    ("ReadyForQuery", b"Z"): [
        (b"Q", (0, short(0, 1)), (1, "unknown transaction status: 81")),
        (b"I1", (0, short(0, 1)), (2, FINE)),
    ],
    ("RowDescription", b"T"): [
        (ID, (1, short(0, 2)), (20, short(2, 19)), (22, short(5, 18)), (23, FINE)),
        (b"\0\x01\0" + ZEROS, (1, short(0, 2)), (20, short(2, 19)), (21, FINE)),
        (b"\0\x01" + b"a" * 19, (1, short(0, 2)), (20, short(2, 19)), (21, no_nul(2))),
        (b"\0\x01\xff\0" + ZEROS, (1, short(0, 2)), (20, short(2, 19)), (22, NOT_UTF8)),
        (b"\xff\xff", (1, short(0, 2)), (2, short(2, 1245165))),
    ],
}

# The data of a SASL exchange, after the number of its method.
CONTINUED, FINAL = b"\0\0\0\x0b", b"\0\0\0\x0c"
SASL = [
    (CONTINUED, b"rXabc,s=,i=x", (1, ITEM), (5, FINE), (7, ITEM), (8, FINE), (10, ITEM), (12, FINE)),
    (CONTINUED, b"r=a,s=QUJD,i=0", (1, ITEM), (3, FINE), (5, ITEM), (6, FINE), (9, BASE64), (10, FINE), (12, ITEM), (14, FINE)),
    (CONTINUED, b"r=a,,s=", (1, ITEM), (3, FINE), (7, ITEM)),
    (CONTINUED, b"r\xc3\xa9", (1, ITEM), (3, NOT_UTF8)),
    (CONTINUED, b"r\xc3\xa9,r=b", (1, ITEM), (3, NOT_UTF8), (5, ITEM), (7, FINE)),
    (CONTINUED, b"r=a,x=\xff", (1, ITEM), (3, FINE), (5, ITEM), (6, FINE), (7, NOT_UTF8)),
    (CONTINUED, b"s=*,r", (1, ITEM), (2, FINE), (5, BASE64)),
    (CONTINUED, b"i=+5", (1, ITEM), (4, FINE)),
    (CONTINUED, b"i=-1", (1, ITEM), (4, FINE)),
    (CONTINUED, b"i=12x", (1, ITEM), (5, FINE)),
    (FINAL, b"v=QUI=", (1, ITEM), (2, FINE), (5, BASE64), (6, FINE)),
    (FINAL, b"v=QUJD,v=", (1, ITEM), (2, FINE), (5, BASE64), (6, FINE), (8, ITEM), (9, FINE)),
    (FINAL, b"v=*", (1, ITEM), (2, FINE), (3, BASE64)),
    (FINAL, b"\xff=", (1, ITEM), (2, FINE)),
]

# Bodies of kinds that have no type, and of a tag that no server sends.
UNTYPED = [
    (b"1", b"", "ParseComplete untyped"),
    (b"2", b"x", "BindComplete untyped"),
    (b"3", b"", "CloseComplete untyped"),
    (b"I", b"", "EmptyQueryResponse untyped"),
    (b"d", b"", "CopyData ok"),
    (b"n", b"", "NoData untyped"),
    (b"s", b"", "PortalSuspended untyped"),
    (b"v", b"", "unknown message type: 118"),
]


def decoded():
    """Tags and bodies, and what is printed of each."""
    rows = [(name, tag, body, answers) for (name, tag), rows in FRONTS.items() for body, *answers in rows]
    for name, tag, body, answers in rows:
        yield from ((tag, front, printed(name, answer)) for front, answer in fronts(body, *answers))
    for head, data, *answers in SASL:
        yield from ((b"R", head + front, printed("Authentication", answer)) for front, answer in fronts(data, *answers))
    yield from UNTYPED


def printed(name, answer):
    return f"{name} ok" if answer == FINE else f"Postgres protocol error (reading {name}): {answer}"


# Lines that name messages of a client, and the tag and the body of each.
ENCODED = [
    ("bind 0 1 1 2 00000002abcdffffffff 0,1", b"B", b"\0sqlx_s_1\0\0\1\0\1\0\2\0\0\0\2\xab\xcd" + NULL + b"\0\2\0\0\0\1"),
    ("bind 7 0 - 0 - -", b"B", b"sqlx_p_7\0\0" + bytes(6)),
    ("bind 0 0 - 0 0001 -", b"B", bytes(6) + b"\0\1\0\0"),
    ("close S 0", b"C", b"S\0"),
    ("close P 7", b"C", b"Psqlx_p_7\0"),
    ("copydata 5100000004", b"d", b"Q\0\0\0\4"),
    ("copydata -", b"d", b""),
    ("copydone", b"c", b""),
    ("copyfail no", b"f", b"no\0"),
    ("describe S 1234567890", b"D", b"Ssqlx_s_1234567890\0"),
    ("describe P 0", b"D", b"P\0"),
    ("execute 0 5", b"E", b"\0\0\0\0\5"),
    ("execute 1 4294967295", b"E", b"sqlx_p_1\0" + NULL),
    ("flush", b"H", b""),
    ("md5 3E2C9D99D49B201EF867A36F3F9ED62C", b"p", b"md53e2c9d99d49b201ef867a36f3f9ed62c\0"),
    ("parse 1 25,0 SELECT $1", b"P", b"sqlx_s_1\0SELECT $1\0\0\2\0\0\0\x19\0\0\0\0"),
    ("parse 4294967295 - ", b"P", b"sqlx_s_4294967295\0\0\0\0"),
    ("password a b", b"p", b"a b\0"),
    ("query SELECT 1", b"Q", b"SELECT 1\0"),
    ("query ", b"Q", b"\0"),
    ("query a\0\u00e9", b"Q", b"a\0\xc3\xa9\0"),
    ("sasl ab", b"p", b"ab"),
    ("saslinit 0 x", b"p", b"SCRAM-SHA-256\0\0\0\0\1x"),
    ("saslinit 1 ", b"p", b"SCRAM-SHA-256-PLUS\0\0\0\0\0"),
    ("sync", b"S", b""),
    ("terminate", b"X", b""),
]

TYPES = FORMATS = listed("0", 65536)
MANY_TYPES = "param_types.len() too large for binary protocol: 65536"
NOT_SO_MANY = "refused: params are not num_params values"
HOLDS_NUL = "refused: text holds NUL"

# Lines whose messages are refused, and the words of each.
REFUSED = [
    (f"parse 0 {TYPES} SELECT 1", MANY_TYPES),
    (f"bind 0 0 {FORMATS} 0 - {FORMATS}", "too many parameter format codes (65536)"),
    (f"bind 0 0 - 0 - {FORMATS}", "too many result format codes (65536)"),
]

USAGE = "usage: pg_tool encode|decode|stream\n"

# Whole runs: the words after the program's name, the input, and what is printed.
RUNS = [
    ([], "sync\n", lines("1 ok", "S 4 -")),
    (["encode"], "", ""),
    (["encode"], "sync", lines("1 ok", "S 4 -")),
    (["encode"], "strict", ""),
    (["encode"], lines("strict", "bind 0 0 - 0 0001 -", "sync"), lines(f"1 {NOT_SO_MANY}", "2 ok", "S 4 -")),
    (["encode"], lines("strict", "query a\0b", "parse 0 - a\0b", f"parse 0 {TYPES} a\0b", "copyfail a\0", "password a\0"),
     lines(f"1 {HOLDS_NUL}", f"2 {HOLDS_NUL}", f"3 refused: {MANY_TYPES}", f"4 {HOLDS_NUL}", f"5 {HOLDS_NUL}")),
    (["encode"], lines("strict", "copydata 6100", "sasl a\0", "saslinit 0 a\0"),
     lines("1 ok", "2 ok", "3 ok", "d 6 6100", "p 6 6100", "p 24 534352414d2d5348412d32353600000000026100")),
    (["encode"], lines("strict", "bind 0 0 - 0 - 0", "bind 0 0 - 1 00000002abcd -", "bind 0 0 - 2 00000000ffffffff -"),
     lines("1 ok", "2 ok", "3 ok", "B 14 00000000000000010000", "B 18 00000000000100000002abcd0000",
           "B 20 00000000000200000000ffffffff0000")),
    (["encode"], lines("strict", "bind 0 0 - 1 fffffffe -", "bind 0 0 - 1 0000000261 -", "bind 0 0 - 1 0000000000 -",
                       "bind 0 0 - 65535 - -"),
     lines(*(f"{number} {NOT_SO_MANY}" for number in (1, 2, 3, 4)))),
    (["encode"], lines("strict", f"bind 0 0 {FORMATS} 0 00 -"), lines("1 refused: too many parameter format codes (65536)")),
    (["decode"], "", ""),
    (["decode"], "5A 4900\n31 -", lines("ReadyForQuery ok", "ParseComplete untyped")),
]

# Lines that fit no form, by the word that the program is run with.
BAD = {
    "encode": [
        b"", b"sink", b"strict", b"query", b"query \xff", b"sync ", b" sync", b"sync\r", b"Query a", b"flush now",
        b"execute 4294967296 0", b"execute +1 0", b"execute 00000000001 0", b"execute 0", b"execute 0 0 ", b"bind 0 0 2 0 - -",
        b"bind 0 0 - 65536 - -", b"bind 0 0 - 000000 - -", b"bind 0 0 - 0 - - -", b"bind 0 0 , 0 - -", b"bind 0 0 - 0 -",
        b"md5 3e", b"md5 " + b"3e" * 17, b"md5 " + b"3g" * 16, b"copydata", b"copydata ", b"copydata 5", b"saslinit 2 x",
        b"saslinit 1", b"describe X 1", b"describe S", b"close P -1", b"close S", b"parse 1 25, SELECT", b"parse 1 -",
    ],
    "decode": [
        b"", b"5a", b"5a ", b"5 -", b"5a4 -", b"zz -", b"5g 45", b"5a45", b"5a 4", b"5a 4g", b"5a  45", b" 5a 49", b"5a 49 ",
        b"5a 49\r", b"5a 45 45", b"5a \xff", b"first 00",
    ],
}

# Streams, and the lines of each.
STREAMS = [
    (b"", []),
    (b"1\xff\xff\xff\xff", ["bad message length: -1"]),
    (b"1\0\0\0\3", ["bad message length: 3"]),
    (b"Z\0\0\0\5Iv\0\0\0\3", ["ReadyForQuery 5 49", "unknown message type: 118"]),
    (b"D\x7f\xff\xff\xff\0", ["rest 6"]),
    (b"d\0\0\x4e\x24" + b"\xab" * 20000 + b"Z\0\0\0\5I", ["CopyData 20004 " + "ab" * 20000, "ReadyForQuery 5 49"]),
]

# Messages one after the other, and the line of each.
FRAMES = [
    (b"Z\0\0\0\5I", "ReadyForQuery 5 49"),
    (b"C\0\0\0\x0aBEGIN\0", "CommandComplete 10 424547494e00"),
    (b"1\0\0\0\4", "ParseComplete 4 -"),
]

STREAMS += cut(FRAMES)
