"""Messages of the PostgreSQL wire protocol, version 3, as a client and a server send and receive them.

An interface to the library of pg_message.h. It has no sockets. Each message is a class with the name that the message has in
PostgreSQL's documentation. Its objects never change: `write` gives the bytes of one, and `read` makes one of a `Frame`. A
`ClientStream` takes bytes in pieces of any size and gives the messages of a server, a `ServerStream` those of a client; a
`Relay` passes on the messages of either.

    >>> from pgmsg import ClientStream, CommandComplete, Query, ReadyForQuery
    >>> Query("SELECT 1").write()
    b'Q\\x00\\x00\\x00\\rSELECT 1\\x00'
    >>> stream = ClientStream()
    >>> stream.feed(b"D\\0\\0\\0\\x0b\\0\\1\\0\\0\\0\\x011C\\0\\0\\0\\x0dSELECT 1\\0Z\\0\\0\\0\\5I")
    >>> stream.rows()
    [('1',)]
    >>> for message in stream:
    ...     match message:
    ...         case CommandComplete():
    ...             print(message.command_text)
    ...         case ReadyForQuery(status):
    ...             print(status.name)
    SELECT 1
    IDLE

A refusal raises a `Fault`, with a code and words, or a `MemoryError` where memory runs out.
"""

from . import _library as _library  # first, since it loads what all others import
from . import logical as logical
from . import replication as replication
from ._fast import VERSION as __version__
from .authentication import (
    Authentication, AuthenticationCleartextPassword, AuthenticationGSS, AuthenticationGSSContinue,
    AuthenticationKerberosV5, AuthenticationMD5Password, AuthenticationOk, AuthenticationSASL,
    AuthenticationSASLContinue, AuthenticationSASLFinal, AuthenticationSCMCredential, AuthenticationSSPI, Challenge)
from .connection import Connection, Event, Request, ServerConnection
from .copying import CopyBothResponse, CopyData, CopyDone, CopyFail, CopyInResponse, CopyOutResponse, copy_head
from .fault import Code, Fault
from .flow import Flow, Kind, Mode, Whose
from .login import Login
from .message import BackendMessage, Frame, FrontendMessage, Message
from .notices import ErrorResponse, NoticeResponse, Severity, printable
from .opening import (
    MAX_FIRST_LENGTH, CancelRequest, FirstMessage, GSSENCRequest, SSLRequest, StartupMessage)
from .passwords import AuthenticationResponse, GSSResponse, PasswordMessage, SASLInitialResponse, SASLResponse
from .queries import (
    Bind, Close, Describe, Execute, Flush, FunctionCall, Parse, Query, Sync, Target, Terminate, executions)
from .relay import Answer, Part, Place, Relay, WholeFrame, check_frames
from .results import (
    BindComplete, CloseComplete, Column, CommandComplete, DataRow, EmptyQueryResponse, FunctionCallResponse, NoData,
    ParameterDescription, ParseComplete, PortalSuspended, RowDescription)
from .scram import Scram
from .session import (
    BackendKeyData, NegotiateProtocolVersion, NotificationResponse, ParameterStatus, ReadyForQuery, TransactionStatus)
from .stream import MAX_LENGTH, ClientStream, ServerStream, Stream, write
from .tags import read_backend, read_frontend

__all__ = [
    "Answer", "Authentication", "AuthenticationCleartextPassword", "AuthenticationGSS", "AuthenticationGSSContinue",
    "AuthenticationKerberosV5", "AuthenticationMD5Password", "AuthenticationOk", "AuthenticationResponse",
    "AuthenticationSASL", "AuthenticationSASLContinue", "AuthenticationSASLFinal",
    "AuthenticationSCMCredential", "AuthenticationSSPI",
    "BackendKeyData", "BackendMessage", "Bind", "BindComplete", "CancelRequest", "Challenge", "ClientStream", "Close",
    "CloseComplete", "Code", "Column", "CommandComplete", "Connection", "CopyBothResponse", "CopyData", "CopyDone", "CopyFail",
    "CopyInResponse", "CopyOutResponse", "DataRow", "Describe", "EmptyQueryResponse", "ErrorResponse", "Event", "Execute",
    "Fault", "FirstMessage", "Flow", "Flush", "Frame", "FrontendMessage", "FunctionCall", "FunctionCallResponse",
    "GSSENCRequest", "GSSResponse", "Kind", "MAX_FIRST_LENGTH", "MAX_LENGTH", "Login", "Message", "Mode", "NegotiateProtocolVersion", "NoData",
    "NoticeResponse", "NotificationResponse", "ParameterDescription", "ParameterStatus", "Parse", "ParseComplete",
    "Part", "PasswordMessage", "Place", "PortalSuspended", "Query", "ReadyForQuery", "Relay", "Request", "RowDescription",
    "SASLInitialResponse", "SASLResponse", "SSLRequest", "Scram", "ServerConnection", "ServerStream", "Severity", "StartupMessage",
    "Stream", "Sync", "Target", "Terminate", "TransactionStatus", "WholeFrame", "Whose", "check_frames", "copy_head",
    "executions", "printable", "read_backend", "read_frontend", "write",
]
