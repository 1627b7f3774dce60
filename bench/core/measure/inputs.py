"""The bytes that each side gets: scripts of messages to encode, streams of messages to decode. They come
from a fixed seed, so they are the same in every run."""

from random import Random
from struct import pack

TYPES = (25, 23, 20, 16, 1043, 1184, 701, 2950)

STATUSES = (
    ("in_hot_standby", "off"),
    ("integer_datetimes", "on"),
    ("TimeZone", "Etc/UTC"),
    ("IntervalStyle", "postgres"),
    ("is_superuser", "on"),
    ("application_name", "psql"),
    ("default_transaction_read_only", "off"),
    ("scram_iterations", "4096"),
    ("DateStyle", "ISO, MDY"),
    ("standard_conforming_strings", "on"),
    ("session_authorization", "postgres"),
    ("client_encoding", "UTF8"),
    ("server_version", "16.4 (Debian 16.4-1.pgdg120+1)"),
    ("server_encoding", "UTF8"),
)

LETTERS = "abcdefghijklmnopqrstuvwxyz"


def seeded():
    return Random(20261122)


def word(random, length):
    return "".join(random.choices(LETTERS, k=length))


def spread(random, low, high):
    """A number from low to high, each octave as likely."""
    return int(low * (high / low) ** random.random())


def counted(data):
    return pack(">I", len(data)) + data


# Scripts: a letter and the fields of each message, as `bench/core/pg_bench/src/script.rt.in` reads them.


def bind(random):
    """A Bind of one to five values, one format for all, as a driver sends it."""
    values = []
    for _ in range(random.randint(1, 5)):
        length = random.choice((None, 4, 4, 4, 8, 8, 8, 16, -1, -1))
        if length is None:
            values.append(pack(">i", -1))
        elif length > 0:
            values.append(counted(random.randbytes(length)))
        else:
            values.append(counted(word(random, spread(random, 4, 60)).encode()))
    statement = spread(random, 1, 5000)
    head = pack(">cIIBBH", b"B", 0, statement, 1, 1, len(values))
    return head + counted(b"".join(values)) + bytes((1, 1))


def extended_queries(messages):
    """Bind, Execute and Sync in turn."""
    random, script = seeded(), []
    while len(script) < messages:
        limit = random.choice((0, 0, 0, 1))
        script += (bind(random), pack(">cII", b"E", 0, limit), b"S")
    return b"".join(script[:messages])


def sql(random, length):
    """A text of this length that looks like a statement."""
    text = "SELECT "
    while len(text) < length:
        text += word(random, random.randint(3, 11)) + random.choice((" = $1, ", ", ", ", "))
    return text[:length].encode()


def texts(messages):
    """Parse, Describe and Query in turn, with texts of 20 to 2000 bytes."""
    random, script = seeded(), []
    while len(script) < messages:
        name = pack(">I", 1 + len(script) // 3)
        types = bytes((random.randint(0, len(TYPES)),))
        script.append(b"P" + name + counted(sql(random, spread(random, 20, 2000))) + types)
        script.append(b"D\1" + name)
        script.append(b"Q" + counted(sql(random, spread(random, 20, 2000))))
    return b"".join(script[:messages])


def queries(messages, length):
    random = seeded()
    return b"".join(b"Q" + counted(sql(random, length)) for _ in range(messages))


def copies(messages, length):
    random = seeded()
    return b"".join(b"d" + counted(random.randbytes(length)) for _ in range(messages))


# Streams: messages as a server sends them.


def message(tag, body):
    return tag + pack(">I", 4 + len(body)) + body


def rows(messages, cells, length):
    random = seeded()
    return b"".join(
        message(b"D", pack(">H", cells) + b"".join(counted(random.randbytes(length)) for _ in range(cells)))
        for _ in range(messages)
    )


def column(random, table, index):
    name = word(random, random.randint(2, 16)).encode() + b"\0"
    table, index = random.choice([(table, index)] * 5 + [(0, 0)])
    size = random.choice((4, 8, -1, 16))
    return name + pack(">IhIhih", table, index, random.choice(TYPES), size, -1, 1)


def descriptions(messages, columns):
    random, stream = seeded(), []
    for _ in range(messages):
        table = random.randint(16384, 18384)
        body = b"".join(column(random, table, 1 + index) for index in range(columns))
        stream.append(message(b"T", pack(">H", columns) + body))
    return b"".join(stream)


def completions(messages):
    """CommandComplete and ReadyForQuery in turn."""
    random, stream = seeded(), []
    while len(stream) < messages:
        count = spread(random, 1, 100_000)
        words = ("INSERT 0 {}", "UPDATE {}", "DELETE {}", "BEGIN", "SELECT {}")
        tag = random.choice(words).format(count).encode() + b"\0"
        status = random.choice((b"I", b"T", b"E"))
        stream += (message(b"C", tag), message(b"Z", status))
    return b"".join(stream)


def error(random):
    """The body of an error of ten fields, in the order in which a server sends them."""
    severity = random.choice(("ERROR", "FATAL", "PANIC"))
    fields = (
        "S" + severity,
        "V" + severity,
        "C" + random.choice(("23505", "42P01", "22P02", "40001")),
        f'Mduplicate key value violates "{word(random, 8)}"',
        "D" + word(random, random.randint(30, 89)),
        "HNo function matches the given name and argument types.",
        f"P{random.randint(1, 500)}",
        "Fparse_func.c",
        f"L{random.randint(1, 3000)}",
        "RParseFuncOrColumn",
    )
    return "".join(field + "\0" for field in fields).encode() + b"\0"


def errors(messages):
    random = seeded()
    return b"".join(message(b"E", error(random)) for _ in range(messages))


def statuses(messages):
    """What a server sends at the start of a session, over and over."""
    turns = (STATUSES[index % len(STATUSES)] for index in range(messages))
    return b"".join(message(b"S", f"{name}\0{value}\0".encode()) for name, value in turns)
