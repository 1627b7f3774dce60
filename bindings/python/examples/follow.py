"""Follows a publication by a slot of pgoutput, and appends each change to a file as a line of JSON:

    follow.py HOST PORT USER DATABASE SLOT PUBLICATION FILE

PGPASSWORD has the password, where the server asks for one. After the lines of a transaction comes one with the position of
its end, of which the server is told once that line is on the disk. At the start what follows the last such line is cut off,
and the server goes on from its position: so no change is lost or comes twice, also where the program is killed.
"""

import json
import os
import socket
import sys

from pgmsg import Connection, CopyData, CopyDone, ErrorResponse, Kind, Login, Query, ReadyForQuery, StartupMessage
from pgmsg.logical import Commit, Delete, Insert, Key, LogicalStream, Relation, Text, Truncate, Update, Whole
from pgmsg.replication import PrimaryKeepalive, StandbyStatusUpdate, XLogData, read


def last_position(file):
    """The position of the last transaction that is whole, what follows which is cut off."""
    position = end = at = 0
    for line in file:
        at += len(line)
        if line.startswith(b'{"commit": ') and line.endswith(b"\n"):
            position, end = json.loads(line)["commit"], at
    file.truncate(end)
    return position


class Follower:
    """Writes changes to a file."""

    def __init__(self, file):
        self.file, self.flushed = file, last_position(file)
        self.stream, self.tables = LogicalStream(), {}

    def take(self, message):
        """Takes a message of replication; whether the server is to be told of the position."""
        match message:
            case XLogData(content=content):
                return self.change(self.stream.read(content))
            case PrimaryKeepalive(end=end):
                # What was committed before it is on the disk.
                self.flushed = max(self.flushed, end)
                return True

    def change(self, message):
        match message:
            case Relation(relation):
                self.tables[relation] = message
            case Insert(relation, new):
                self.write("insert", relation, new=new)
            case Update(relation, None, new):
                self.write("update", relation, new=new)
            case Update(relation, Key(old) | Whole(old), new):
                self.write("update", relation, old=old, new=new)
            case Delete(relation, Key(old) | Whole(old)):
                self.write("delete", relation, old=old)
            case Truncate(_, relations):
                for relation in relations:
                    self.write("truncate", relation)
            case Commit(end_lsn=end):
                self.add({"commit": end})
                self.file.flush()
                os.fsync(self.file.fileno())
                self.flushed = end
                return True

    def write(self, change, relation, **rows):
        table = self.tables[relation]
        objects = {name: self.object(table.columns, row) for name, row in rows.items()}
        self.add({"change": change, "table": f"{table.schema_text}.{table.name_text}", **objects})

    def object(self, columns, row):
        """A row by the names of its columns, without what wasn't changed and so isn't sent."""
        return {column.name_text: value and value.value_text for column, value in zip(columns, row)
                if value is None or isinstance(value, Text)}

    def add(self, line):
        self.file.write(json.dumps(line, ensure_ascii=False).encode() + b"\n")

    def status(self):
        return StandbyStatusUpdate(self.flushed, self.flushed, self.flushed, clock=0)


host, port, user, database, slot, publication, path = sys.argv[1:]
login, connection = Login(user, os.environ.get("PGPASSWORD", "")), Connection()
settings = {"user": user, "database": database, "replication": "database", "client_encoding": "UTF8"}
with socket.create_connection((host, int(port))) as server, open(path, "a+b") as file:
    file.seek(0)
    follower = Follower(file)
    start = f"{follower.flushed >> 32:X}/{follower.flushed & 0xFFFFFFFF:X}"
    options = f"proto_version '1', publication_names '{publication}'"
    server.sendall(connection.send(StartupMessage(settings)))
    while data := server.recv(1 << 16):
        for message, whose in connection.receive(data):
            if answer := login.answer(message):
                server.sendall(connection.send(answer))
            match message:
                case ReadyForQuery() if whose.kind is Kind.LOGIN:
                    query = f"START_REPLICATION SLOT {slot} LOGICAL {start} ({options})"
                    server.sendall(connection.send(Query(query)))
                case ReadyForQuery():
                    sys.exit("the server has ended the changes")
                case CopyDone():
                    server.sendall(connection.send(message))
                case CopyData() if follower.take(read(message.data)):
                    server.sendall(connection.send(follower.status()))
                case ErrorResponse():
                    sys.exit(str(message))
sys.exit("the server closed the connection")
