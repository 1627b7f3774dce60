"""Messages with their bytes, as the page "Message Formats" of PostgreSQL's documentation has them."""

from pgmsg import *
from pgmsg import Column

ID = Column("id", 23, table=16385, attribute=-2, type_size=4, format=1)

FIELDS = {"S": "ERROR", "C": "42601", "M": b"\xff", "P": "8"}

# What both sides send.
OF_BOTH = [
    (CopyData(b"1\t2\n"), b"d\0\0\0\x081\t2\n"),
    (CopyData(b""), b"d\0\0\0\x04"),
    (CopyDone(), b"c\0\0\0\x04"),
]

OF_SERVER = [
    (AuthenticationOk(), b"R\0\0\0\x08\0\0\0\0"),
    (AuthenticationKerberosV5(), b"R\0\0\0\x08\0\0\0\2"),
    (AuthenticationCleartextPassword(), b"R\0\0\0\x08\0\0\0\3"),
    (AuthenticationMD5Password(b"abcd"), b"R\0\0\0\x0c\0\0\0\5abcd"),
    (AuthenticationSCMCredential(), b"R\0\0\0\x08\0\0\0\6"),
    (AuthenticationGSS(), b"R\0\0\0\x08\0\0\0\7"),
    (AuthenticationGSSContinue(b"\0\xff"), b"R\0\0\0\x0a\0\0\0\x08\0\xff"),
    (AuthenticationSSPI(), b"R\0\0\0\x08\0\0\0\x09"),
    (AuthenticationSASL(["A", b"\xe9C"]), b"R\0\0\0\x0e\0\0\0\x0aA\0\xe9C\0\0"),
    (AuthenticationSASL([]), b"R\0\0\0\x09\0\0\0\x0a\0"),
    (AuthenticationSASLContinue("r=a"), b"R\0\0\0\x0b\0\0\0\x0br=a"),
    (AuthenticationSASLFinal(b"\0\xff="), b"R\0\0\0\x0b\0\0\0\x0c\0\xff="),
    (BackendKeyData(1234, b"\xff\0\0\1"), b"K\0\0\0\x0c\0\0\4\xd2\xff\0\0\1"),
    (BackendKeyData(0xFFFFFFFF, bytes(256)), b"K\0\0\1\x08\xff\xff\xff\xff" + bytes(256)),
    (BindComplete(), b"2\0\0\0\x04"),
    (CloseComplete(), b"3\0\0\0\x04"),
    (CommandComplete("INSERT 0 1"), b"C\0\0\0\x0fINSERT 0 1\0"),
    (CopyInResponse(0, [0, -1]), b"G\0\0\0\x0b\0\0\2\0\0\xff\xff"),
    (CopyOutResponse(1), b"H\0\0\0\x07\1\0\0"),
    (CopyBothResponse(columns=[1]), b"W\0\0\0\x09\0\0\1\0\1"),
    (DataRow(["ab", None, b"", bytearray(b"\0\xff")]),
     b"D\0\0\0\x1a\0\4\0\0\0\2ab\xff\xff\xff\xff\0\0\0\0\0\0\0\2\0\xff"),
    (DataRow([]), b"D\0\0\0\x06\0\0"),
    (EmptyQueryResponse(), b"I\0\0\0\x04"),
    (ErrorResponse(FIELDS), b"E\0\0\0\x19SERROR\0C42601\0M\xff\0P8\0\0"),
    (FunctionCallResponse("ab"), b"V\0\0\0\x0a\0\0\0\2ab"),
    (FunctionCallResponse(""), b"V\0\0\0\x08\0\0\0\0"),
    (FunctionCallResponse(None), b"V\0\0\0\x08\xff\xff\xff\xff"),
    (NegotiateProtocolVersion(2, ["_pq_.a", b""]), b"v\0\0\0\x14\0\3\0\2\0\0\0\2_pq_.a\0\0"),
    (NegotiateProtocolVersion(0), b"v\0\0\0\x0c\0\3" + bytes(6)),
    # The minor version alone, as the documentation has it.
    (NegotiateProtocolVersion(2, [], major=0), b"v\0\0\0\x0c\0\0\0\2" + bytes(4)),
    (NoData(), b"n\0\0\0\x04"),
    (NoticeResponse([("\xff", "a"), ("M", "")]), b"N\0\0\0\x0a\xffa\0M\0\0"),
    (NotificationResponse(42, "jobs", "new"), b"A\0\0\0\x11\0\0\0\x2ajobs\0new\0"),
    (ParameterDescription([23, 0xFFFFFFFF]), b"t\0\0\0\x0e\0\2\0\0\0\x17\xff\xff\xff\xff"),
    (ParameterStatus("TimeZone", b"\xe9"), b"S\0\0\0\x0fTimeZone\0\xe9\0"),
    (ParseComplete(), b"1\0\0\0\x04"),
    (PortalSuspended(), b"s\0\0\0\x04"),
    (ReadyForQuery(), b"Z\0\0\0\x05I"),
    (ReadyForQuery(TransactionStatus.FAILED), b"Z\0\0\0\x05E"),
    (RowDescription([ID, Column(b"\xff", 25)]),
     b"T\0\0\0\x2f\0\2" b"id\0\0\0\x40\1\xff\xfe\0\0\0\x17\0\4\xff\xff\xff\xff\0\1"
     b"\xff\0\0\0\0\0\0\0\0\0\0\x19\xff\xff\xff\xff\xff\xff\0\0"),
    (RowDescription([]), b"T\0\0\0\x06\0\0"),
]

FIRST = [
    (StartupMessage({"user": "ann", "options": ""}), b"\0\0\0\x1b\0\3\0\0user\0ann\0options\0\0\0"),
    (StartupMessage([(b"user", "ä")], minor=2), b"\0\0\0\x11\0\3\0\2user\0\xc3\xa4\0\0"),
    (StartupMessage({}), b"\0\0\0\x09\0\3\0\0\0"),
    (SSLRequest(), b"\0\0\0\x08\x04\xd2\x16\x2f"),
    (GSSENCRequest(), b"\0\0\0\x08\x04\xd2\x16\x30"),
    (CancelRequest(1234, b"\xff\0\0\1"), b"\0\0\0\x10\x04\xd2\x16\x2e\0\0\4\xd2\xff\0\0\1"),
    (CancelRequest(1, bytes(256)), b"\0\0\1\x0c\x04\xd2\x16\x2e\0\0\0\1" + bytes(256)),
]

OF_CLIENT = [
    (Bind([b"ab", None, ""], "s", "p", [1, 65535], [2]),
     b"B\0\0\0\x22p\0s\0\0\2\0\1\xff\xff\0\3\0\0\0\2ab\xff\xff\xff\xff\0\0\0\0\0\1\0\2"),
    (Bind(), b"B\0\0\0\x0c\0\0\0\0\0\0\0\0"),
    (Close(Target.STATEMENT), b"C\0\0\0\x06S\0"),
    (Close(Target.PORTAL, "p"), b"C\0\0\0\x07Pp\0"),
    (CopyFail("no"), b"f\0\0\0\x07no\0"),
    (Describe(Target.STATEMENT, "s"), b"D\0\0\0\x07Ss\0"),
    (Describe("P", b"\xff"), b"D\0\0\0\x07P\xff\0"),
    (Execute("p", 100), b"E\0\0\0\x0ap\0\0\0\0\x64"),
    (Execute(limit=0xFFFFFFFF), b"E\0\0\0\x09\0\xff\xff\xff\xff"),
    (Flush(), b"H\0\0\0\x04"),
    (FunctionCall(16385, ["a", None], [0], 1), b"F\0\0\0\x19\0\0\x40\x01\0\1\0\0\0\2\0\0\0\1a\xff\xff\xff\xff\0\1"),
    (FunctionCall(1), b"F\0\0\0\x0e\0\0\0\1\0\0\0\0\0\0"),
    (Parse("SELECT $1", "s", [23, 0]), b"P\0\0\0\x1as\0SELECT $1\0\0\2\0\0\0\x17\0\0\0\0"),
    (Parse(b"\xff"), b"P\0\0\0\x09\0\xff\0\0\0"),
    (PasswordMessage("pw"), b"p\0\0\0\x07pw\0"),
    (Query("SELECT 1"), b"Q\0\0\0\x0dSELECT 1\0"),
    (Query(b"\xff"), b"Q\0\0\0\x06\xff\0"),
    (Sync(), b"S\0\0\0\x04"),
    (Terminate(), b"X\0\0\0\x04"),
]

# The answers of SASL and GSSAPI, whose tag is that of a PasswordMessage.
ANSWERS = [
    (SASLInitialResponse("SCRAM-SHA-256", "n,,n=,r=x"), b"p\0\0\0\x1fSCRAM-SHA-256\0\0\0\0\x09n,,n=,r=x"),
    (SASLInitialResponse("X", b""), b"p\0\0\0\x0aX\0\0\0\0\0"),
    (SASLInitialResponse("X"), b"p\0\0\0\x0aX\0\xff\xff\xff\xff"),
    (SASLResponse(b"c=biws\xff"), b"p\0\0\0\x0bc=biws\xff"),
    (GSSResponse(b"\0\xff"), b"p\0\0\0\x06\0\xff"),
]

TAGGED = OF_BOTH + OF_SERVER + OF_CLIENT + ANSWERS

ALL = FIRST + TAGGED

TOO_MANY = 65536

# Messages that can't be sent, and the code: one of each code, and one of each way in which a text comes to a call.
REFUSED = [
    (AuthenticationSASL(["A", "B\0"]), Code.TEXT_HOLDS_NUL),
    (ErrorResponse({"S": "ERROR", "M": "a\0"}), Code.TEXT_HOLDS_NUL),
    (RowDescription([ID, Column("a\0", 1)]), Code.TEXT_HOLDS_NUL),
    (StartupMessage([("", "b")]), Code.TEXT_HOLDS_NUL),
    (Query("a\0b"), Code.TEXT_HOLDS_NUL),
    (Bind(statement="a\0b"), Code.TEXT_HOLDS_NUL),
    (CancelRequest(1, bytes(3)), Code.BAD_KEY_LENGTH),
    (DataRow([None] * TOO_MANY), Code.TOO_MANY),
    (Parse("", types=[0] * TOO_MANY), Code.TOO_MANY_PARAM_TYPES),
    (Bind([None] * TOO_MANY), Code.BAD_PARAMS),
    (Bind(formats=[0] * TOO_MANY), Code.TOO_MANY_PARAM_FORMATS),
    (Bind(result_formats=[0] * TOO_MANY), Code.TOO_MANY_RESULT_FORMATS),
]
