"""Prints the rows of a table, as read_table.py, by asyncio and TCP: read_table_asyncio.py HOST PORT USER DATABASE TABLE"""

import asyncio
import os
import sys

from pgmsg import Connection, ErrorResponse, Login, Query, ReadyForQuery, StartupMessage, Terminate


class Reader(asyncio.Protocol):
    def __init__(self, user, database, query):
        self.connection, self.login = Connection(), Login(user, os.environ.get("PGPASSWORD", ""))
        self.to_send = [StartupMessage({"user": user, "database": database, "client_encoding": "UTF8"}), Query(query), Terminate()]
        self.error, self.rows = EOFError("the server closed the connection"), []
        self.result = asyncio.get_running_loop().create_future()

    def connection_made(self, transport):
        self.transport = transport
        transport.write(self.connection.send(self.to_send.pop(0)))

    def data_received(self, data):
        for message, _ in self.connection.receive(data):
            if answer := self.login.answer(message):
                self.transport.write(self.connection.send(answer))
            match message:
                case list():
                    self.rows += message
                case ReadyForQuery():
                    self.transport.write(self.connection.send(self.to_send.pop(0)))
                case ErrorResponse():
                    self.error = RuntimeError(message)
            if not self.to_send or isinstance(message, ErrorResponse):
                return self.transport.close()

    def connection_lost(self, error):
        if error or self.to_send:
            return self.result.set_exception(error or self.error)
        self.result.set_result(self.rows)


async def main(host, port, user, database, table):
    reader = Reader(user, database, f"TABLE {table}")
    await asyncio.get_running_loop().create_connection(lambda: reader, host, port)
    sys.stdout.writelines(f"{row}\n" for row in await reader.result)


asyncio.run(main(*sys.argv[1:]))
