"""The classes of messages by their tags."""

from __future__ import annotations

from .authentication import Authentication
from .copying import CopyBothResponse, CopyData, CopyDone, CopyFail, CopyInResponse, CopyOutResponse
from .fault import Code, Fault
from .message import BackendMessage, Frame, FrontendMessage, Kind, by
from .notices import ErrorResponse, NoticeResponse
from .opening import FirstMessage
from .passwords import AuthenticationResponse, PasswordMessage
from .queries import Bind, Close, Describe, Execute, Flush, FunctionCall, Parse, Query, Sync, Terminate
from .results import (
    BindComplete, CloseComplete, CommandComplete, DataRow, EmptyQueryResponse, FunctionCallResponse, NoData,
    ParameterDescription, ParseComplete, PortalSuspended, RowDescription)
from .session import BackendKeyData, NegotiateProtocolVersion, NotificationResponse, ParameterStatus, ReadyForQuery

BACKEND: dict[int | None, type[BackendMessage]] = by(
    "TAG", Authentication, BackendKeyData, BindComplete, CloseComplete, CommandComplete, CopyBothResponse, CopyData,
    CopyDone, CopyInResponse, CopyOutResponse, DataRow, EmptyQueryResponse, ErrorResponse, FunctionCallResponse,
    NegotiateProtocolVersion, NoData, NoticeResponse, NotificationResponse, ParameterDescription, ParameterStatus,
    ParseComplete, PortalSuspended, ReadyForQuery, RowDescription)

FRONTEND: dict[int | None, type[FrontendMessage]] = by(
    "TAG", FirstMessage, Bind, Close, CopyData, CopyDone, CopyFail, Describe, Execute, Flush, FunctionCall,
    Parse, Query, Sync, Terminate)


def read_backend(frame: Frame) -> BackendMessage:
    """The message of a server, by its tag."""
    return known(BACKEND, frame.tag)._read(frame.body)


def read_frontend(frame: Frame, answer: type[AuthenticationResponse] = PasswordMessage) -> FrontendMessage:
    """The message of a client, by its tag. What was asked for says which `answer` to an authentication it is."""
    if frame.tag == answer.TAG:
        return answer._read(frame.body)
    return known(FRONTEND, frame.tag)._read(frame.body)


def known(kinds: dict[int | None, type[Kind]], tag: int | None) -> type[Kind]:
    """The class of a tag."""
    if tag not in kinds:
        raise Fault(Code.UNKNOWN_MESSAGE_TYPE, f"unknown message type: {tag}")
    return kinds[tag]
