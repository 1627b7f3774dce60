"""Changes a server's tables by a script, and compares what pgoutput says of that with what the script did:

    logical.py run PORT SLOT..           makes the tables, a publication and the slots, and runs the script
    logical.py follow PORT SLOT BINARY   reads the slot up to the end of the script, with values as text or, where BINARY
                                         is true, in the formats of their types
    logical.py recorded FILE             reads what a server said to a client of a slot in a recording

Fails where another transaction is read than one of the script, or a kind of message never came. Prints how many messages of
each kind there are.
"""

import collections
import itertools
import socket
import sys
from dataclasses import dataclass

import asked
import replicated
from pgmsg import ClientStream, CopyData, ErrorResponse, Query, ReadyForQuery, StartupMessage, Terminate
from pgmsg import logical, replication
from pgmsg.logical import UNCHANGED, Binary, Key, Text, Whole

# The options of pgoutput, but whether values are binary.
OPTIONS = "proto_version '3', publication_names 'changes', streaming 'true', two_phase 'true', messages 'true'"

TABLES = """
CREATE TYPE mood AS ENUM ('calm', 'glad');
CREATE TABLE person (id int PRIMARY KEY, name text, mood mood, rights aclitem);
CREATE TABLE note (id int PRIMARY KEY, about text, long text);
ALTER TABLE note ALTER long SET STORAGE EXTERNAL;
CREATE TABLE word (id int, word text);
ALTER TABLE word REPLICA IDENTITY FULL;
CREATE TABLE parent (id int PRIMARY KEY);
CREATE TABLE child (id int PRIMARY KEY, parent int REFERENCES parent);
CREATE PUBLICATION changes FOR ALL TABLES;
SELECT pg_replication_origin_create('far');
"""

# The columns of each table, with their types and those of its key, and the letter of its replica identity.
COLUMNS = {
    "person": ("d", ["id int4", "name text", "mood mood", "rights aclitem"], ["id"]),
    "note": ("d", ["id int4", "about text", "long text"], ["id"]),
    "word": ("f", ["id int4", "word text"], ["id", "word"]),
    "parent": ("d", ["id int4"], ["id"]),
    "child": ("d", ["id int4", "parent int4"], ["id"]),
}

# What has the number of its transaction in a stream.
IN_STREAM = [logical.Message, logical.Relation, logical.TypeName, logical.Insert, logical.Update, logical.Delete,
             logical.Truncate]

# The names of types that are built in.
BUILT_IN = {23: "int4", 25: "text", 1033: "aclitem"}


@dataclass(frozen=True)
class Done:
    """How a transaction ended, and what it did."""

    how: str
    changes: tuple = ()
    name: str | None = None
    origin: tuple | None = None


def insert(table, *new):
    return "insert", table, None, new


def update(table, old, *new):
    return "update", table, old, new


def delete(table, old):
    return "delete", table, old, None


def truncate(options, *tables):
    return "truncate", tables, options


def say(prefix, content):
    return "say", prefix, content


def inserts(table, first, last, *rest):
    """A row for each number."""
    return tuple(insert(table, number, *rest) for number in range(first, last + 1))


def committed(*changes, **more):
    return Done("committed", changes, **more)


ADA, LONG = "postgres=arw/postgres", "long " * 1000

# Statements, and the transactions that they make.
SCRIPT = [
    ([f"INSERT INTO person VALUES (1, 'ann', 'calm', '{ADA}'), (2, NULL, NULL, NULL)"],
     [committed(insert("person", 1, "ann", "calm", ADA), insert("person", 2, None, None, None))]),
    (["UPDATE person SET name = 'bea' WHERE id = 1"], [committed(update("person", None, 1, "bea", "calm", ADA))]),
    (["UPDATE person SET id = 10 WHERE id = 1"],
     [committed(update("person", ("key", 1, None, None, None), 10, "bea", "calm", ADA))]),
    (["DELETE FROM person WHERE id = 10"], [committed(delete("person", ("key", 10, None, None, None)))]),
    (["INSERT INTO word VALUES (1, 'one')"], [committed(insert("word", 1, "one"))]),
    (["UPDATE word SET word = 'uno'"], [committed(update("word", ("whole", 1, "one"), 1, "uno"))]),
    (["DELETE FROM word"], [committed(delete("word", ("whole", 1, "uno")))]),
    (["INSERT INTO note VALUES (1, 'first', repeat('long ', 1000))"], [committed(insert("note", 1, "first", LONG))]),
    (["UPDATE note SET about = 'second'"], [committed(update("note", None, 1, "second", UNCHANGED))]),
    (["UPDATE note SET long = 'short'"], [committed(update("note", None, 1, "second", "short"))]),
    (["INSERT INTO parent VALUES (1)"], [committed(insert("parent", 1))]),
    (["INSERT INTO child VALUES (5, 1)"], [committed(insert("child", 5, 1))]),
    (["TRUNCATE parent CASCADE"], [committed(truncate(1, "parent", "child"))]),
    (["TRUNCATE word RESTART IDENTITY"], [committed(truncate(2, "word"))]),
    (["SELECT pg_logical_emit_message(true, 'later', E'a\\\\000b'::bytea)"], [committed(say("later", b"a\0b"))]),
    (["SELECT pg_logical_emit_message(false, 'at once', 'words')"], [Done("said", (say("at once", b"words"),))]),
    (["BEGIN", "INSERT INTO word VALUES (2, 'two')", "PREPARE TRANSACTION 'kept'"],
     [Done("prepared", (insert("word", 2, "two"),), "kept")]),
    (["COMMIT PREPARED 'kept'"], [Done("committed", name="kept")]),
    (["BEGIN", "INSERT INTO word VALUES (3, 'three')", "PREPARE TRANSACTION 'left'"],
     [Done("prepared", (insert("word", 3, "three"),), "left")]),
    (["ROLLBACK PREPARED 'left'"], [Done("undone", name="left")]),
    (["SELECT pg_replication_origin_session_setup('far')", "BEGIN",
      "SELECT pg_replication_origin_xact_setup('1/28', '2026-01-02 UTC')", "INSERT INTO word VALUES (4, 'four')", "COMMIT",
      "SELECT pg_replication_origin_session_reset()"],
     [committed(insert("word", 4, "four"), origin=(0x1_0000_0028, "far"))]),
    # Large ones, which are streamed while they are open: with a part that is undone, undone as a whole, and prepared.
    (["BEGIN", "INSERT INTO person SELECT n, 'many', 'glad' FROM generate_series(100, 1999) n", "SAVEPOINT undone",
      "INSERT INTO person SELECT n, 'undone', 'calm' FROM generate_series(3000, 4999) n", "ROLLBACK TO undone",
      "SELECT pg_logical_emit_message(true, 'among many', 'words')",
      "UPDATE person SET name = 'one of many' WHERE id = 1999", "DELETE FROM person WHERE id BETWEEN 100 AND 1500",
      "TRUNCATE word", "COMMIT"],
     [committed(*inserts("person", 100, 1999, "many", "glad", None), say("among many", b"words"),
                update("person", None, 1999, "one of many", "glad", None),
                *(delete("person", ("key", number, None, None, None)) for number in range(100, 1501)),
                truncate(0, "word"))]),
    (["BEGIN", "INSERT INTO word SELECT n, 'gone' FROM generate_series(1, 2000) n", "ROLLBACK"], []),
    (["BEGIN", "INSERT INTO word SELECT n, 'many' FROM generate_series(1, 2000) n", "PREPARE TRANSACTION 'many'"],
     [Done("prepared", inserts("word", 1, 2000, "many"), "many")]),
    (["COMMIT PREPARED 'many'"], [Done("committed", name="many")]),
    (["SELECT pg_logical_emit_message(true, 'end', '')"], [committed(say("end", b""))]),
]

END = SCRIPT[-1][1][0]


class Session:
    """A session of the server, which trusts it, up to the end of a block."""

    def __init__(self, port, **settings):
        self.connection = socket.create_connection(("127.0.0.1", int(port)), timeout=60)
        self.stream = ClientStream()
        self.send(StartupMessage({"user": "postgres", "database": "postgres", **settings}))
        self.until(ReadyForQuery)

    def __enter__(self):
        return self

    def __exit__(self, *_):
        with self.connection:
            self.send(Terminate())

    def send(self, *messages):
        self.connection.sendall(b"".join(message.write() for message in messages))

    def messages(self):
        """What the server says, up to its end."""
        while data := self.connection.recv(1 << 16):
            self.stream.feed(data)
            for message in self.stream:
                if isinstance(message, ErrorResponse):
                    sys.exit(message.message)
                yield message

    def until(self, kind):
        """Passes over messages up to one of a class."""
        for message in self.messages():
            if isinstance(message, kind):
                return
        sys.exit("the server has left")

    def run(self, *statements):
        for statement in statements:
            self.send(Query(statement))
            self.until(ReadyForQuery)


class Follower:
    """Makes transactions of the messages of a slot, in the order in which they end."""

    def __init__(self):
        self.stream = logical.LogicalStream()
        self.counts, self.streamed = collections.Counter(), set()
        self.tables, self.types = {}, dict(BUILT_IN)
        # The changes of each transaction that is open, each with the number of the subtransaction that made it.
        self.open, self.current, self.origin = {}, None, None
        self.done = []

    def take(self, content):
        """Reads a message, which is written as the bytes that it was read of."""
        message = self.stream.read(content)
        if message.write() != content:
            sys.exit(f"written as other bytes: {message}")
        self.counts[type(message)] += 1
        if type(message) in IN_STREAM and message.transaction is not None:
            self.streamed.add(type(message))
        match message:
            case logical.Relation() | logical.TypeName():
                self.describe(message)
            case logical.Begin() | logical.BeginPrepare() | logical.StreamStart():
                self.begin(message.transaction)
            case logical.StreamStop():
                self.current = None
            case logical.Origin(lsn, name):
                self.origin = (lsn, name.decode())
            case logical.StreamAbort(transaction, subtransaction):
                self.abort(transaction, subtransaction)
            case logical.Message(flags=0):
                self.done.append(Done("said", (self.change(message),)))
            case logical.Message() | logical.Insert() | logical.Update() | logical.Delete() | logical.Truncate():
                self.open[self.current].append((message.transaction, self.change(message)))
            case _:
                self.end(message)

    def describe(self, message):
        """Takes the name of a type, or a table, which has to be one of the script."""
        if isinstance(message, logical.TypeName):
            self.types[message.type_id] = message.name_text
            return
        letter, columns, key = COLUMNS[message.name_text]
        found = [f"{it.name_text} {self.types[it.type_id]}" for it in message.columns]
        of_key = [it.name_text for it in message.columns if it.flags == 1]
        if (message.schema, message.replica_identity, found, of_key) != (b"public", ord(letter), columns, key):
            sys.exit(f"another table: {message}")
        self.tables[message.relation] = message

    def begin(self, transaction):
        self.open.setdefault(transaction, [])
        self.current = transaction

    def abort(self, transaction, subtransaction):
        if transaction == subtransaction:
            del self.open[transaction]
        else:
            self.open[transaction] = [it for it in self.open[transaction] if it[0] != subtransaction]

    def end(self, message):
        """The end of a transaction, or of a prepared one."""
        name, transaction = None, self.current
        match message:
            case logical.Commit():
                how = "committed"
            case logical.StreamCommit():
                how, transaction = "committed", message.transaction
            case logical.Prepare() | logical.StreamPrepare():
                how, name, transaction = "prepared", message.gid_text, message.transaction
            case logical.CommitPrepared():
                how, name = "committed", message.gid_text
            case logical.RollbackPrepared():
                how, name = "undone", message.gid_text
        changes = self.open.pop(transaction, [])
        self.done.append(Done(how, tuple(change for _, change in changes), name, self.origin))
        self.current = self.origin = None

    def change(self, message):
        """A change as the script has it."""
        match message:
            case logical.Insert(relation, new):
                return insert(self.name(relation), *self.row(relation, new))
            case logical.Update(relation, old, new):
                return update(self.name(relation), self.old(relation, old), *self.row(relation, new))
            case logical.Delete(relation, old):
                return delete(self.name(relation), self.old(relation, old))
            case logical.Truncate(options, relations):
                return truncate(options, *map(self.name, relations))
            case logical.Message():
                return say(message.prefix_text, message.content)

    def name(self, relation):
        return self.tables[relation].name_text

    def old(self, relation, old):
        match old:
            case Key(values):
                return "key", *self.row(relation, values)
            case Whole(values):
                return "whole", *self.row(relation, values)

    def row(self, relation, values):
        """The values of a row by the types of its columns."""
        pairs = zip(self.tables[relation].columns, values, strict=True)
        return tuple(self.value(column, value) for column, value in pairs)

    def value(self, column, value):
        is_number = self.types[column.type_id] == "int4"
        match value:
            case Text(text):
                return int(text) if is_number else text.decode()
            case Binary(content):
                return int.from_bytes(content, "big", signed=True) if is_number else content.decode()
        return value


def run(port, slots):
    statements = [statement for some, _ in SCRIPT for statement in some]
    with Session(port) as session:
        session.run(TABLES)
        for slot in slots:
            session.run(f"SELECT pg_create_logical_replication_slot('{slot}', 'pgoutput', false, true)")
        session.run(*statements)
    print(f"{len(statements)} statements")


def streamed_from(port, slot, is_binary):
    """The contents of the XLogData of a slot."""
    with Session(port, replication="database") as session:
        session.send(Query(f"START_REPLICATION SLOT {slot} LOGICAL 0/0 ({OPTIONS}, binary '{is_binary}')"))
        for message in session.messages():
            if isinstance(message, CopyData):
                data = replication.read(message.data)
                if isinstance(data, replication.XLogData):
                    yield data.content
                elif data.wants_reply:
                    session.send(replication.StandbyStatusUpdate(0, 0, 0, data.clock))


def recorded_in(path):
    """The contents of the XLogData of a recording."""
    for side, stream_bytes in replicated.sides(path):
        for data in replicated.data_of(side, stream_bytes):
            message = replication.read(data)
            if isinstance(message, replication.XLogData):
                yield message.content


def compare(contents):
    """Compares messages up to the end of the script with it."""
    follower = Follower()
    for content in contents:
        follower.take(content)
        if follower.done[-1:] == [END]:
            break
    due = [done for _, some in SCRIPT for done in some]
    for number, (found, wanted) in enumerate(itertools.zip_longest(follower.done, due), 1):
        if found != wanted:
            sys.exit(f"transaction {number} is {str(found)[:300]}, and not {str(wanted)[:300]}")
    missing = [kind.__name__ for kind in logical.OF_ALL if not follower.counts[kind]]
    missing += [f"streamed {kind.__name__}" for kind in IN_STREAM if kind not in follower.streamed]
    if missing or follower.open:
        sys.exit(f"no {', '.join(missing)}; {len(follower.open)} transactions are open")
    words = ", ".join(f"{follower.counts[kind]} {kind.__name__}" for kind in logical.OF_ALL)
    print(f"{len(due)} transactions of {follower.counts.total()} messages: {words}")


def main():
    form, *given = asked.words(__doc__, run="PORT SLOT..", follow="PORT SLOT BINARY", recorded="FILE")
    match form:
        case "run":
            run(*given)
        case "follow":
            compare(streamed_from(*given))
        case "recorded":
            compare(recorded_in(*given))


if __name__ == "__main__":
    main()
