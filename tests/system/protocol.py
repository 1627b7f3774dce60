"""Messages that sessions of today's drivers seldom have, read by the package:

    protocol.py objects RECORDING FILE     what functions of large objects wrote and read in a recording has to be the file
    protocol.py version PORT ASKED GIVEN KEY   asks a server for the protocol 3.ASKED and an option that none knows; it has to
                                           speak 3.GIVEN, and to give a key of so many bytes, by which a query is cancelled
"""

import socket
import sys
import time

import asked
import replicated
from pgmsg import BackendKeyData, CancelRequest, ClientStream, ErrorResponse, FunctionCall, FunctionCallResponse
from pgmsg import NegotiateProtocolVersion, Query, ReadyForQuery, ServerStream, StartupMessage

# The functions loread and lowrite, as pg_proc has them.
READ, WRITE = 954, 955

OPTION = b"_pq_.no_such_option"


def objects(recording, path):
    calls, results = [], []
    for side, stream_bytes in replicated.sides(recording):
        stream = ServerStream() if side == "F" else ClientStream()
        stream.feed(bytes(stream_bytes))
        messages = list(stream)
        calls += [message for message in messages if isinstance(message, FunctionCall)]
        results += [message.value for message in messages if isinstance(message, FunctionCallResponse)]
    with open(path, "rb") as file:
        data = file.read()
    written = b"".join(call.arguments[1] for call in calls if call.object_id == WRITE)
    pairs = list(zip(calls, results, strict=True))
    read = b"".join(result for call, result in pairs if call.object_id == READ)
    if not written == read == data:
        sys.exit(f"{len(written)} bytes were written and {len(read)} read, of {len(data)}")
    print(f"{len(pairs)} calls of functions, with the {len(data)} bytes of a file in both ways")


def connect(port, message):
    connection = socket.create_connection(("127.0.0.1", int(port)), timeout=60)
    connection.sendall(message.write())
    return connection


def read_until(connection, stream, kind):
    """The messages up to one of a class."""
    found = []
    while data := connection.recv(1 << 16):
        stream.feed(data)
        found += stream
        if any(isinstance(message, kind) for message in found):
            return found
    sys.exit(f"the server has left, after {found}")


def version(port, minor, given, key_length):
    settings = {b"user": b"postgres", b"database": b"postgres", OPTION: b"on"}
    with connect(port, StartupMessage(settings, minor=int(minor))) as connection:
        stream = ClientStream()
        first, *messages = read_until(connection, stream, ReadyForQuery)
        if first != NegotiateProtocolVersion(int(given), [OPTION]):
            sys.exit(f"no negotiation first: {first}")
        [key] = [message for message in messages if isinstance(message, BackendKeyData)]
        if len(key.secret_key) != int(key_length):
            sys.exit(f"a key of {len(key.secret_key)} bytes")
        connection.sendall(Query("SELECT pg_sleep(5)").write())
        # Before the server runs the query, there is nothing to cancel.
        time.sleep(0.5)
        with connect(port, CancelRequest(key.process_id, key.secret_key)) as other:
            other.recv(1)
        [error] = [it for it in read_until(connection, stream, ReadyForQuery) if isinstance(it, ErrorResponse)]
        print(f"{first.minor}, a key of {len(key.secret_key)} bytes, {error.message}")


def main():
    match asked.words(__doc__, objects="RECORDING FILE", version="PORT ASKED GIVEN KEY"):
        case "objects", *given:
            objects(*given)
        case "version", *given:
            version(*given)


if __name__ == "__main__":
    main()
