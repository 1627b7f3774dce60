"""The types that a user of the package sees, which mypy checks: so no `test_` begins the name of this file."""

from collections.abc import Iterator
from typing import assert_type

from pgmsg import (
    BackendMessage, Bind, ClientStream, CommandComplete, CopyData, DataRow, FrontendMessage, Login, Query, Relay, ServerStream,
    executions, logical, replication)


def read(stream: ClientStream) -> None:
    assert_type(stream.rows(), list[tuple[str | None, ...]])
    assert_type(stream.rows(bytes), list[tuple[bytes | None, ...]])
    assert_type(stream.rows(memoryview), list[tuple[memoryview | None, ...]])
    assert_type(iter(stream), Iterator[BackendMessage])
    for message in stream.runs():
        match message:
            case list():
                assert_type(message, list[tuple[str | None, ...]])
            case DataRow(values):
                assert_type(values, tuple[bytes | None, ...])
            case CommandComplete():
                assert_type(message.command, bytes)
                assert_type(message.command_text, str)
                assert_type(message.rows_affected, int)


def serve(stream: ServerStream) -> None:
    for message in stream:
        assert_type(message, FrontendMessage)
        if isinstance(message, Query):
            assert_type(stream.send(DataRow(["a", None, b"b"])), bytes)


def replicate(message: CopyData) -> None:
    match replication.read(message.data):
        case replication.XLogData(start, content=content):
            assert_type((start, content), tuple[int, bytes])
        case replication.PrimaryKeepalive(wants_reply=wants_reply):
            assert_type(wants_reply, bool)


def change(stream: logical.LogicalStream, content: bytes) -> None:
    match stream.read(content):
        case logical.Relation(columns=columns):
            assert_type([column.name_text for column in columns], list[str])
        case logical.Update(relation, logical.Key(old), new, transaction):
            assert_type((relation, old, new), tuple[int, logical.Row, logical.Row])
            assert_type(transaction, int | None)
            for value in new:
                match value:
                    case logical.Text() as text:
                        assert_type((text.value, text.value_text), tuple[bytes, str])


def write(login: Login, relay: Relay) -> None:
    assert_type(Query("SELECT 1"), Query)
    assert_type(Query(b"SELECT 1").query, bytes)
    assert_type(Query("SELECT 1").query_text, str)
    assert_type(Bind(["1", None, memoryview(b"")], formats=[0]).formats, tuple[int, ...])
    assert_type(executions([["1"]], "s"), bytes)
