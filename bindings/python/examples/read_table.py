"""Prints the rows of a table: read_table.py HOST PORT USER DATABASE TABLE

A HOST that begins with / is the folder of a Unix socket. PGPASSWORD has the password, where the server asks for one.
TABLE goes into the query as it is, so it can name a schema.
"""

import os
import socket
import sys

from pgmsg import Connection, ErrorResponse, Login, Query, ReadyForQuery, StartupMessage, Terminate


def connect(host, port):
    if not host.startswith("/"):
        return socket.create_connection((host, int(port)))
    server = socket.socket(socket.AF_UNIX)
    server.connect(f"{host}/.s.PGSQL.{port}")
    return server


host, port, user, database, table = sys.argv[1:]
login, connection = Login(user, os.environ.get("PGPASSWORD", "")), Connection()
to_ask = [Query(f"TABLE {table}"), Terminate()]
with connect(host, port) as server:
    server.sendall(connection.send(StartupMessage({"user": user, "database": database, "client_encoding": "UTF8"})))
    while to_ask and (data := server.recv(1 << 16)):
        for message, _ in connection.receive(data):
            if answer := login.answer(message):
                server.sendall(connection.send(answer))
            match message:
                case list():
                    print(*message, sep="\n")
                case ReadyForQuery():
                    server.sendall(connection.send(to_ask.pop(0)))
                case ErrorResponse():
                    sys.exit(str(message))
if to_ask:
    sys.exit("the server closed the connection")
