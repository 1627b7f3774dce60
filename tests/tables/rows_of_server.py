"""What `pg_tool server` prints, by hand from the standard, PostgreSQL's "Message Formats" and "Message Flow"."""

from rows import NULL, cut, fronts, lines, listed, no_nul, short

VERSION, CANCEL, SSL, GSS_ENC = b"\0\3\0\0", b"\x04\xd2\x16\x2e", b"\x04\xd2\x16\x2f", b"\x04\xd2\x16\x30"

HOLDS_NUL, MANY = "text holds NUL", "too many items for a message: "
KEY_LENGTH = "secret key length out of range for protocol: "


def end(at):
    return f"expected the end of the message at offset {at}"


def bad_key(length):
    return f"bad secret key length: {length - 8}"


# Messages of clients: the tag, none of a first message, a body, and what is printed of it or of each of its fronts. Where
# those are listed, the last byte is one too many.
MESSAGES = [
    (b"B", b"p1\0s\0\0\2\0\0\0\1\0\3\0\0\0\2hi" + NULL + b"\0\0\0\0\0\1\0\1\0",
     (2, no_nul(0)), (4, no_nul(3)), (6, short(5, 2)), (10, short(7, 4)), (12, short(11, 2)), (16, short(13, 4)),
     (18, short(17, 2)), (22, short(19, 4)), (26, short(23, 4)), (28, short(27, 2)), (30, short(29, 2)),
     (31, "bind 7031 73 0,1 x6869,null,x 1"), (32, end(31))),
    (b"B", bytes(8), "bind - - - - -"),
    (b"B", b"\0\0\0\2\xff\xff\x80\0\0\0\0\1\x7f\xff", "bind - - -1,-32768 - 32767"),
    (b"B", b"\0\0\0\0\0\1\0\0\0\3\0\0\xff\0\0", "bind - - - x0000ff -"),
    (b"B", b"\0\0\xff\xff" + b"\0\1" * 65535 + bytes(4), f"bind - - {listed('1', 65535)} - -"),
    (b"C", b"Ss\0\0", (0, short(0, 1)), (2, no_nul(1)), (3, "close S 73"), (4, end(3))),
    (b"C", b"P\0", "close P -"),
    (b"D", b"Pp1\0a", (0, short(0, 1)), (3, no_nul(1)), (4, "describe P 7031"), (5, end(4))),
    (b"D", b"S\0", "describe S -"),
    (b"E", b"p\0\0\0\0\5\0", (1, no_nul(0)), (5, short(2, 4)), (6, "execute 70 5"), (7, end(6))),
    (b"E", b"\0" + NULL, "execute - -1"),
    (b"E", b"\0\x7f\xff\xff\xff", "execute - 2147483647"),
    (b"E", b"\0\x80\0\0\0", "execute - -2147483648"),
    (b"F", b"\0\0\4\xd2\0\1\0\1\0\2\0\0\0\1A" + NULL + b"\0\0\0",
     (3, short(0, 4)), (5, short(4, 2)), (7, short(6, 2)), (9, short(8, 2)), (13, short(10, 4)), (14, short(14, 1)),
     (18, short(15, 4)), (20, short(19, 2)), (21, "functioncall 1234 1 x41,null 0"), (22, end(21))),
    (b"F", NULL + b"\0\0\0\0\xff\xff", "functioncall 4294967295 - - -1"),
    (b"H", b"\0", (0, "flush"), (1, end(0))),
    (b"P", b"s\0SELECT $1\0\0\2\0\0\0\x17\0\0\0\0\0",
     (1, no_nul(0)), (11, no_nul(2)), (13, short(12, 2)), (21, short(14, 8)),
     (22, "parse 73 53454c454354202431 23,0"), (23, end(22))),
    (b"P", b"\0\0\0\1" + NULL, "parse - - 4294967295"),
    (b"P", bytes(4), "parse - - -"),
    (b"Q", b"SELECT 1\0b", (8, no_nul(0)), (9, "query 53454c4543542031"), (10, end(9))),
    (b"Q", b"\xff\x01\0", "query ff01"),
    (b"Q", b"\0", "query -"),
    (b"S", b"\0", (0, "sync"), (1, end(0))),
    (b"X", b"X", (0, "terminate"), (1, end(0))),
    (b"c", b"\xff", (0, "copydone"), (1, end(0))),
    (b"d", b"\t\0", (0, "copydata -"), (1, "copydata 09"), (2, "copydata 0900")),
    (b"f", b"no\0\0", (2, no_nul(0)), (3, "copyfail 6e6f"), (4, end(3))),
    (b"p", b"s\0", (0, "password -"), (1, "password 73"), (2, "password 7300")),
    (None, VERSION + b"user\0me\0database\0\0\0\0",
     (3, short(0, 4)), (8, no_nul(4)), (11, no_nul(9)), (20, no_nul(12)), (21, no_nul(21)), (22, no_nul(22)),
     (23, "startup 3.0 75736572=6d65,6461746162617365=-"), (24, end(23))),
    (None, VERSION + b"\0", "startup 3.0 -"),
    (None, b"\0\3\0\2a\0b\0a\0b\0\0", "startup 3.2 61=62,61=62"),
    (None, b"\0\3\xff\xff\0", "startup 3.65535 -"),
    (None, SSL + b"\0", (3, short(0, 4)), (4, "sslrequest"), (5, end(4))),
    (None, GSS_ENC + b"\0", (3, short(0, 4)), (4, "gssencrequest"), (5, end(4))),
    (None, CANCEL + b"\0\0\x30\x39\1\2\3\4",
     (3, short(0, 4)), (7, short(4, 4)), (11, bad_key), (12, "cancelrequest 12345 01020304")),
    (None, CANCEL + NULL + bytes(256), "cancelrequest 4294967295 " + "00" * 256),
]

# Bodies that are no message, and the words of their faults.
FAULTS = [
    (b"\0", b"", "unknown message type: 0"),
    (b"b", b"", "unknown message type: 98"),
    (b"\xff", bytes(8), "unknown message type: 255"),
    (None, b"\0\2\0\0", "unknown code: 131072"),
    (None, b"\0\4\0\0", "unknown code: 262144"),
    (None, b"\x04\xd2\x16\x2d\0", "unknown code: 80877101"),
    (None, b"\x04\xd2\x16\x31", "unknown code: 80877105"),
    (b"C", b"sx\0", "neither a statement nor a portal: 115"),
    (b"D", b"\0", "neither a statement nor a portal: 0"),
    (b"D", b"\xffx", "neither a statement nor a portal: 255"),
    (b"B", b"\0\0\xff\xff", "expected 131070 bytes at offset 4, got 0"),
    (b"B", b"\0\0\0\0\0\1\x7f\xff\xff\xff", "expected 2147483647 bytes at offset 10, got 0"),
    (b"B", b"\0\0\0\0\0\1\xff\xff\xff\xfe\0\0", "bad value length at offset 6: -2"),
    (b"F", b"\0\0\0\1\0\0\0\2\0\0\0\0\x80\0\0\0", "bad value length at offset 12: -2147483648"),
    (None, CANCEL + b"\0\0\0\1" + bytes(257), "bad secret key length: 257"),
]

def decoded():
    """Tags and bodies, and what is printed of each."""
    for tag, body, *answers in [*MESSAGES, *FAULTS]:
        yield from ((tag, front, answer) for front, answer in fronts(body, *answers))


# Lines that name messages of a server, and the tag and the body of each.
ENCODED = [
    ("authentication ok", b"R", bytes(4)),
    ("authentication cleartext", b"R", b"\0\0\0\3"),
    ("authentication md5 01FF0203", b"R", b"\0\0\0\5\1\xff\2\3"),
    ("authentication sasl 534352414d2d5348412d3235362d504c5553,534352414d2d5348412d323536", b"R",
     b"\0\0\0\x0aSCRAM-SHA-256-PLUS\0SCRAM-SHA-256\0\0"),
    ("authentication sasl -", b"R", b"\0\0\0\x0a\0"),
    ("authentication continue 723d612c733d41513d3d2c693d31", b"R", b"\0\0\0\x0br=a,s=AQ==,i=1"),
    ("authentication continue -", b"R", b"\0\0\0\x0b"),
    ("authentication final 763d41513d3d", b"R", b"\0\0\0\x0cv=AQ=="),
    ("authentication final 00", b"R", b"\0\0\0\x0c\0"),
    ("backendkeydata 12345 01020304", b"K", b"\0\0\x30\x39\1\2\3\4"),
    ("backendkeydata 4294967295 " + "00" * 256, b"K", NULL + bytes(256)),
    ("bindcomplete", b"2", b""),
    ("closecomplete", b"3", b""),
    ("commandcomplete 494e534552542030203130", b"C", b"INSERT 0 10\0"),
    ("commandcomplete -", b"C", b"\0"),
    ("copyboth 0 -", b"W", b"\0\0\0"),
    ("copyboth -128 -32768,32767", b"W", b"\x80\0\2\x80\0\x7f\xff"),
    ("copydata 3109320a00", b"d", b"1\t2\n\0"),
    ("copydata -", b"d", b""),
    ("copydone", b"c", b""),
    ("copyin 1 1,0,-1", b"G", b"\1\0\3\0\1\0\0\xff\xff"),
    ("copyout 127 0", b"H", b"\x7f\0\1\0\0"),
    ("datarow x6869,null,x,x00", b"D", b"\0\4\0\0\0\2hi" + NULL + b"\0\0\0\0\0\0\0\1\0"),
    ("datarow -", b"D", b"\0\0"),
    ("emptyqueryresponse", b"I", b""),
    ("errorresponse S=4552524f52,V=4552524f52,C=3432503031,M=6e6f,P=37", b"E", b"SERROR\0VERROR\0C42P01\0Mno\0P7\0\0"),
    ("errorresponse q=62,2c=61,Ff=-", b"E", b"qb\0,a\0\xff\0\0"),
    ("errorresponse -", b"E", b"\0"),
    ("functioncallresponse null", b"V", NULL),
    ("functioncallresponse x", b"V", bytes(4)),
    ("functioncallresponse x00ff", b"V", b"\0\0\0\2\0\xff"),
    # servers send both halves of the version, where the standard speaks of the minor one alone
    ("negotiate 0 5f70715f2e61,-", b"v", b"\0\3\0\0\0\0\0\2_pq_.a\0\0"),
    ("negotiate 65535 -", b"v", b"\0\3\xff\xff" + bytes(4)),
    ("nodata", b"n", b""),
    ("noticeresponse M=c3a9,~=-", b"N", b"M\xc3\xa9\0~\0\0"),
    ("notification 258 6a6f6273 37", b"A", b"\0\0\1\2jobs\0007\0"),
    ("notification 0 - -", b"A", bytes(6)),
    ("parameterdescription 23,0,4294967295", b"t", b"\0\3\0\0\0\x17\0\0\0\0" + NULL),
    ("parameterdescription -", b"t", b"\0\0"),
    ("parameterstatus 54696d655a6f6e65 555443", b"S", b"TimeZone\0UTC\0"),
    ("parameterstatus - -", b"S", b"\0\0"),
    ("parsecomplete", b"1", b""),
    ("portalsuspended", b"s", b""),
    ("ready I", b"Z", b"I"),
    ("ready T", b"Z", b"T"),
    ("ready E", b"Z", b"E"),
    ("rowdescription 6964:16384:1:23:4:-1:0", b"T", b"\0\1id\0\0\0\x40\0\0\1\0\0\0\x17\0\4" + NULL + b"\0\0"),
    ("rowdescription -:4294967295:-32768:4294967295:-1:-2147483648:32767,61:0:0:0:0:0:0", b"T",
     b"\0\2\0" + NULL + b"\x80\0" + NULL + b"\xff\xff\x80\0\0\0\x7f\xffa\0" + bytes(18)),
    ("rowdescription -", b"T", b"\0\0"),
    # as many items as can be counted
    ("copyin 0 " + listed("1", 32767), b"G", b"\0\x7f\xff" + b"\0\1" * 32767),
    ("copyboth 0 " + listed("1", 32767), b"W", b"\0\x7f\xff" + b"\0\1" * 32767),
    ("datarow " + listed("null", 65535), b"D", b"\xff\xff" + NULL * 65535),
    ("parameterdescription " + listed("7", 65535), b"t", b"\xff\xff" + b"\0\0\0\7" * 65535),
    ("rowdescription " + listed("-:0:0:0:0:0:0", 65535), b"T", b"\xff\xff" + bytes(19) * 65535),
    ("negotiate 0 " + listed("61", 65536), b"v", b"\0\3\0\0\0\1\0\0" + b"a\0" * 65536),
]

# Lines whose messages are refused, and the words of each.
REFUSED = [
    ("authentication sasl 61,-", HOLDS_NUL),
    ("authentication sasl -,61", HOLDS_NUL),
    ("authentication sasl 6100", HOLDS_NUL),
    ("backendkeydata 1 -", KEY_LENGTH + "0"),
    ("backendkeydata 1 010203", KEY_LENGTH + "3"),
    ("backendkeydata 1 " + "00" * 257, KEY_LENGTH + "257"),
    ("commandcomplete 00", HOLDS_NUL),
    ("copyboth 0 " + listed("0", 32768), MANY + "32768"),
    ("copyin 0 " + listed("0", 32768), MANY + "32768"),
    ("copyout 0 " + listed("0", 65536), MANY + "65536"),
    ("datarow " + listed("null", 65536), MANY + "65536"),
    ("errorresponse M=61,C=0061", HOLDS_NUL),
    ("errorresponse \0=61", HOLDS_NUL),
    ("negotiate 0 61,00", HOLDS_NUL),
    ("noticeresponse 00=-", HOLDS_NUL),
    ("notification 1 00 -", HOLDS_NUL),
    ("notification 1 - 6100", HOLDS_NUL),
    ("parameterdescription " + listed("0", 65536), MANY + "65536"),
    ("parameterstatus 00 -", HOLDS_NUL),
    ("parameterstatus - 00", HOLDS_NUL),
    ("rowdescription 61:0:0:0:0:0:0,6100:0:0:0:0:0:0", HOLDS_NUL),
    # the count is looked at first
    ("rowdescription " + listed("00:0:0:0:0:0:0", 65536), MANY + "65536"),
]

USAGE = "usage: pg_tool server encode|decode|stream\n"

# Whole runs: the words after the program's name, the input, and what is printed.
RUNS = [
    (["decode"], "", ""),
    (["decode"], "53 -", "sync\n"),
    (["decode"], "43 5374\n70 AbcD\nfirst 04D2162F\n", lines("expected NUL after offset 1", "password abcd", "sslrequest")),
    (["encode"], "", ""),
    (["encode"], "ready I\ncommandcomplete 00\nnodata", lines("1 ok", "2 refused: text holds NUL", "3 ok", "Z 5 49", "n 4 -")),
]

# Lines that fit no form, by the word that the program is run with.
BAD = {
    "decode": [
        b"", b"53", b"53 ", b"53-", b"5 -", b"53  -", b" 53 -", b"53 - ", b"53 - -", b"53 -\r", b"53 0", b"53 0g", b"5g -",
        b"053 -", b"sync", b"first", b"first ", b"first  04d2162f", b"first 04d2162", b"first 04d2162f -", b"First 04d2162f",
        b"53 \xff", b"first \xff",
    ],
    "encode": [
        b"", b" ", b"sync", b"strict", b"Nodata", b"nodata ", b"nodata -", b" nodata", b"nodata\r", b"nodata\0", b"5a 49",
        b"authentication", b"authentication ", b"authentication gss", b"authentication ok -", b"authentication OK",
        b"authentication  ok", b"authentication md5 -", b"authentication md5 010203", b"authentication md5 0102030405",
        b"authentication md5 0102030g", b"authentication sasl", b"authentication sasl ", b"authentication sasl 61,",
        b"authentication sasl ,61", b"authentication sasl 6", b"authentication sasl 61 62", b"authentication continue",
        b"authentication final ", b"backendkeydata 1", b"backendkeydata - 01020304", b"backendkeydata -1 01020304",
        b"backendkeydata +1 01020304", b"backendkeydata 4294967296 01020304", b"backendkeydata 00000000001 01020304",
        b"backendkeydata 1 01020304 -", b"bindcomplete -", b"commandcomplete", b"commandcomplete ", b"commandcomplete 4",
        b"commandcomplete 4g", b"commandcomplete 41 -", b"copyin", b"copyin 0", b"copyin 128 -", b"copyin -129 -", b"copyin +1 -",
        b"copyin - -", b"copyin 0001 -", b"copyin 0 32768", b"copyout 0 -32769", b"copyboth 0 0,", b"copyboth 0 000000",
        b"copyboth 0 --1", b"copydata", b"copydata 5", b"copydata \xff", b"datarow", b"datarow ", b"datarow null,", b"datarow x-",
        b"datarow 00", b"datarow Null", b"datarow x0", b"datarow xx00", b"datarow null x", b"errorresponse", b"errorresponse M",
        b"errorresponse M=", b"errorresponse =41", b"errorresponse MM=41", b"errorresponse 04d=41", b"errorresponse M=41=42",
        b"errorresponse M=41,", b"errorresponse \xc3\xa9=41", b"errorresponse \xff=41", b"noticeresponse  =41",
        b"functioncallresponse", b"functioncallresponse -", b"functioncallresponse null,null", b"negotiate 0", b"negotiate - -",
        b"negotiate -1 -", b"negotiate 65536 -", b"notification 1 -", b"notification 1 - - -", b"parameterdescription",
        b"parameterdescription -1", b"parameterdescription 1,,2", b"parameterstatus -", b"parameterstatus - - -", b"ready",
        b"ready -", b"ready i", b"ready IT", b"ready I ", b"rowdescription", b"rowdescription 61", b"rowdescription 61:0:0:0:0:0",
        b"rowdescription 61:0:0:0:0:0:0:0", b"rowdescription :0:0:0:0:0:0", b"rowdescription 61:-1:0:0:0:0:0",
        b"rowdescription 61:0:32768:0:0:0:0", b"rowdescription 61:0:0:4294967296:0:0:0", b"rowdescription 61:0:0:0:-32769:0:0",
        b"rowdescription 61:0:0:0:0:2147483648:0", b"rowdescription 61:0:0:0:0:-2147483649:0",
        b"rowdescription 61:0:0:0:0:0:32768",
    ],
}

# Streams from the start of a connection, and the lines of each.
STREAMS = [
    (b"", []),
    (b"\0\0\0", ["rest 3"]),
    (b"\0\0\0\x08" + SSL + b"\0\0\0\x09" + VERSION + b"\0S\0\0\0\4X\0\0\0\4", ["sslrequest", "startup 3.0 -", "sync", "terminate"]),
    (b"\0\0\0\x08" + GSS_ENC + b"\0\0\0\x10" + CANCEL + b"\0\0\0\7\1\2\3\4", ["gssencrequest", "cancelrequest 7 01020304"]),
    (b"\0\0\0\x09" + VERSION + b"\0Q\0\0\0\5AQ\0\0\0\5\0", ["startup 3.0 -", "expected NUL after offset 0", "query -"]),
    (b"\0\0\0\x09" + SSL + b"\0\0\0\0\x09" + VERSION + b"\0", ["expected the end of the message at offset 4", "startup 3.0 -"]),
    (b"\0\0\0\x08\0\2\0\0H\0\0\0\4c\0\0\0", ["unknown code: 131072", "flush", "rest 4"]),
    (b"\0\0\0\x09" + VERSION + b"\0d\x7f\xff\xff\xff\0", ["startup 3.0 -", "rest 6"]),
    (b"\0\0\x27\x14" + VERSION + b"a\0" + b"b" * 9992 + b"\0\0p\0\0\0\4", ["startup 3.0 61=" + "62" * 9992, "password -"]),
    # faults
    (b"\0\0\x27\x15", ["expected a first message of at most 10004 bytes, got 10005"]),
    (b"\0\0\0\x08" + SSL + b"S\0\0\0\4", ["sslrequest", "expected a first message of at most 10004 bytes, got 1392508928"]),
    (b"\0\0\0\7" + SSL, ["bad message length: 7"]),
    (b"\x80\0\0\0", ["bad message length: -2147483648"]),
    (b"\0\0\0\x09" + VERSION + b"\0S\0\0\0\3", ["startup 3.0 -", "bad message length: 3"]),
    (b"\0\0\0\x09" + VERSION + b"\0Z\0\0\0\4S\0\0\0\4", ["startup 3.0 -", "unknown message type: 90"]),
    (b"\0\0\0\x09" + VERSION + b"\0Z\0\0\0", ["startup 3.0 -", "rest 4"]),
]

# A connection's messages one after the other, and the line of each.
FRAMES = [
    (b"\0\0\0\x08" + SSL, "sslrequest"),
    (b"\0\0\0\x11" + VERSION + b"user\0me\0\0", "startup 3.0 75736572=6d65"),
    (b"Q\0\0\0\5A", "expected NUL after offset 0"),
    (b"d\0\0\0\6\xab\xcd", "copydata abcd"),
    (b"X\0\0\0\4", "terminate"),
]

STREAMS += [*cut(FRAMES), (FRAMES[1][0] + b"d\0\0\x4e\x24" + bytes(20000), [FRAMES[1][1], "copydata " + "00" * 20000])]
