"""Bodies that a server may send, by the formats of PostgreSQL's documentation.

Each function below takes a `random.Random` and gives one body.
Documentation: "Message Formats", "Error and Notice Message Fields", "SCRAM Authentication".
"""

import base64
import struct

WORDS = ["", "a", "id", "users", "total", "größe", "名前", "x" * 40, "select 1", "a,b", "=", "0"]
NUMBERS = ["0", "1", "7", "42", "007", "+5", "-0", "-3", "12x", "x", "", "4096", "65536",
           "4294967295", "4294967296", "18446744073709551615", "18446744073709551616"]
OIDS = [0, 16, 20, 21, 23, 25, 700, 701, 1043, 1082, 1114, 1184, 1700, 2950, 3802, 4294967295]
SIZES = [-2, -1, 1, 2, 4, 8, 16, 64]
SEVERITIES = ["PANIC", "FATAL", "ERROR", "WARNING", "NOTICE", "DEBUG", "INFO", "LOG"]
LOCAL_SEVERITIES = ["FEHLER", "ERREUR", "WARNUNG", "ОШИБКА", "エラー"]
STATES = ["00000", "01000", "08P01", "23502", "23503", "23505", "23514", "23P01", "22012", "42601",
          "42P01", "42710", "53300", "57P03", "57P01", "XX000"]
SETTINGS = ["application_name", "client_encoding", "DateStyle", "integer_datetimes", "IntervalStyle",
            "server_version", "session_authorization", "standard_conforming_strings", "TimeZone"]
COMMANDS = ["INSERT 0", "DELETE", "UPDATE", "MERGE", "SELECT", "MOVE", "FETCH", "COPY"]
PLAIN_COMMANDS = ["BEGIN", "COMMIT", "ROLLBACK", "CREATE TABLE", "DROP INDEX", "SET", "LISTEN", ""]


def text(string):
    """A text with its NUL."""
    return string.encode() + b"\0"


def blob(rng, most):
    """Any bytes, mostly few."""
    return rng.randbytes(rng.choice([0, 1, 2, 4, 8, 16, rng.randint(0, most)]))


def sasl_items(rng, items):
    """Some of the items, in some order, with commas between them."""
    chosen = [rng.choice(items) for _ in range(rng.choice([1, 2, 3, 3, 3, 4, 6]))]
    if rng.random() < 0.5:
        chosen = items[:3]
    return ",".join(chosen).encode()


def base64_text(rng):
    """Mostly base64, of lengths that end with each padding."""
    spelled = base64.b64encode(blob(rng, 40)).decode()
    return spelled if rng.random() < 0.9 else rng.choice([spelled.rstrip("="), "AB==", "A", "ü==="])


def challenge(rng):
    """The data of a SASL challenge."""
    nonce = rng.choice(["", "fyko+d2lbbFgONRv9qkxdawL", "größe", "r=r", "x" * 60])
    return sasl_items(rng, [
        "r=" + nonce, "s=" + base64_text(rng), "i=" + rng.choice(NUMBERS),
        "m=ext", "i=" + rng.choice(NUMBERS), "r:again", "s=" + base64_text(rng), "xy"])


def verifier(rng):
    """The last data of a SASL exchange."""
    return sasl_items(rng, [
        "v=" + base64_text(rng), "e=other-error", "x=1", "v:" + base64_text(rng)])


def authentication(rng):
    """Authentication (R)."""
    method = rng.choice([0, 3, 5, 5, 10, 10, 11, 11, 11, 11, 12, 12, 12, 2, 6, 7, 8, 9])
    front = struct.pack(">I", method)
    if method == 5:
        return front + rng.randbytes(4)
    if method == 8:
        return front + blob(rng, 30)
    if method == 10:
        names = ["SCRAM-SHA-256", "SCRAM-SHA-256-PLUS", "OAUTHBEARER", "größe"]
        return front + b"".join(text(rng.choice(names)) for _ in range(rng.randint(0, 4))) + b"\0"
    if method == 11:
        return front + challenge(rng)
    if method == 12:
        return front + verifier(rng)
    return front


def backend_key_data(rng):
    """BackendKeyData (K), whose secret newer servers may make longer."""
    return rng.randbytes(rng.choice([8, 8, 8, 12, 36]))


def command_complete(rng):
    """CommandComplete (C)."""
    if rng.random() < 0.3:
        return text(rng.choice(PLAIN_COMMANDS))
    return text(rng.choice(COMMANDS) + " " + rng.choice(NUMBERS + [str(rng.randrange(10 ** 6))]))


def copy_data(rng):
    """CopyData (d)."""
    return rng.choice([b"1\tone\n2\t\\N\n", blob(rng, 100)])


def copy_done(_rng):
    """CopyDone (c)."""
    return b""


def copy_response(rng):
    """CopyInResponse (G) and CopyOutResponse (H)."""
    whole = rng.randint(0, 1)
    count = rng.choice([0, 1, 2, 3, 5, 20])
    codes = [rng.choice([0, whole, whole]) for _ in range(count)]
    return struct.pack(f">bh{count}h", whole, count, *codes)


def data_row(rng):
    """DataRow (D)."""
    cells = []
    for _ in range(rng.choice([0, 1, 2, 3, 3, 5, 8, 50])):
        length = rng.choice([-1, -1, 0, 1, 4, 8, 8, 16, 30])
        cells.append(struct.pack(">i", length) + rng.randbytes(max(length, 0)))
    return struct.pack(">H", len(cells)) + b"".join(cells)


def report_field(rng, letter):
    """A field of an error or a notice."""
    if letter in "SV":
        value = rng.choice(SEVERITIES if letter == "V" else SEVERITIES + LOCAL_SEVERITIES)
    elif letter == "C":
        value = rng.choice(STATES)
    elif letter in "PpL":
        value = rng.choice(NUMBERS + [str(rng.randrange(2000))])
    else:
        value = rng.choice(WORDS)
    return letter.encode() + text(value)


def report(rng):
    """ErrorResponse (E) and NoticeResponse (N)."""
    letters = list("SVCM" + rng.choice(["", "FLR", "DHPpqWstcdnFLR", "PFLR", "pqWFLR"]))
    if rng.random() < 0.3:
        letters.remove(rng.choice(letters))
    if rng.random() < 0.3:
        letters.insert(rng.randint(0, len(letters)), rng.choice("SVCMPpqLFXz"))
    if rng.random() < 0.2:
        rng.shuffle(letters)
    return b"".join(report_field(rng, letter) for letter in letters) + b"\0"


def notification(rng):
    """NotificationResponse (A)."""
    return rng.randbytes(4) + text(rng.choice(WORDS)) + text(rng.choice(WORDS))


def parameter_description(rng):
    """ParameterDescription (t), also of more types than stand in place."""
    count = rng.choice([0, 1, 2, 5, 6, 7, 8, 20])
    return struct.pack(f">H{count}I", count, *(rng.choice(OIDS) for _ in range(count)))


def parameter_status(rng):
    """ParameterStatus (S)."""
    return text(rng.choice(SETTINGS)) + text(rng.choice(WORDS + ["UTF8", "17.2", "on", "Etc/UTC"]))


def ready_for_query(rng):
    """ReadyForQuery (Z)."""
    return rng.choice([b"I", b"T", b"E"])


def row_description(rng):
    """RowDescription (T)."""
    columns = []
    for number in range(rng.choice([0, 1, 1, 2, 3, 5, 10])):
        table = rng.choice([0, 0, 16384, 4294967295])
        numbers = struct.pack(">IhIhih", table, rng.choice([0, number + 1, -1]), rng.choice(OIDS),
                              rng.choice(SIZES), rng.choice([-1, 0, 259]), rng.randint(0, 1))
        columns.append(text(rng.choice(WORDS)) + numbers)
    return struct.pack(">H", len(columns)) + b"".join(columns)


def empty(_rng):
    """A message that is its tag alone."""
    return b""


# The maker of the bodies of each tag: fifteen that a type decodes, then those of a known tag alone.
TYPED = {
    "R": authentication, "K": backend_key_data, "C": command_complete, "d": copy_data,
    "c": copy_done, "G": copy_response, "H": copy_response, "D": data_row, "E": report,
    "N": report, "A": notification, "t": parameter_description, "S": parameter_status,
    "Z": ready_for_query, "T": row_description,
}
UNTYPED = dict.fromkeys("231Ins", empty)
