"""VXI-11 (revision 1.0) over RPC (RFC 5531), for clients: `Client` and `Link` over sockets, and functions that
write and read the bytes.

`xdr`, `rpc`, `calls`, `requests` and `errors` use no sockets: they define the bytes.
"""

from .calls import (
    ABORT,
    CORE,
    ENDED,
    INTERRUPT,
    PORT_MAPPER,
    REQUEST_COUNT,
    TERMINATOR,
    Call,
    Made,
    Piece,
    name_of,
)
from .client import Channel, Client, ServiceRequests, port_of
from .errors import DeviceError
from .link import Carrier, Link, LinkCalls
from .requests import RequestStream, ServiceRequest
from .rpc import (
    AuthenticationRefused,
    BadReply,
    CallMessage,
    GarbageArguments,
    ProcedureUnavailable,
    ProgramMismatch,
    ProgramUnavailable,
    Record,
    Records,
    RpcError,
    RpcMismatch,
    SystemFault,
    encode_call,
    encode_denial,
    encode_refusal,
    encode_reply,
    mark,
    read_call,
    read_reply,
    record,
)
from .xdr import Reader, XdrError, opaque, words

__all__ = [
    "ABORT",
    "AuthenticationRefused",
    "BadReply",
    "CORE",
    "Call",
    "CallMessage",
    "Carrier",
    "Channel",
    "Client",
    "DeviceError",
    "ENDED",
    "GarbageArguments",
    "INTERRUPT",
    "Link",
    "LinkCalls",
    "Made",
    "PORT_MAPPER",
    "Piece",
    "ProcedureUnavailable",
    "ProgramMismatch",
    "ProgramUnavailable",
    "REQUEST_COUNT",
    "Reader",
    "Record",
    "Records",
    "RequestStream",
    "RpcError",
    "RpcMismatch",
    "ServiceRequest",
    "ServiceRequests",
    "SystemFault",
    "TERMINATOR",
    "XdrError",
    "encode_call",
    "encode_denial",
    "encode_refusal",
    "encode_reply",
    "mark",
    "name_of",
    "opaque",
    "port_of",
    "read_call",
    "read_reply",
    "record",
    "words",
]
