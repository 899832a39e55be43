"""Remote procedure calls (RFC 5531): the records of a stream, and the headers of calls and replies. No sockets."""

from __future__ import annotations

from dataclasses import dataclass

from .xdr import Reader, XdrError, words

__tracebackhide__ = True  # pytest shows the line that calls the package, and not these frames
CALL, REPLY = 0, 1  # types of a message
ACCEPTED, DENIED = 0, 1  # states of a reply: whether its call was accepted
SUCCESS = 0  # states of an accepted call: it was executed
LAST = 0x80000000  # in the mark of a fragment: it is the last of its record
AUTH_MOST = 400  # bytes that a credential or a verifier may have
RPC_VERSION = 2
# why the call of an accepted reply wasn't executed
PROG_UNAVAIL, PROG_MISMATCH, PROC_UNAVAIL, GARBAGE_ARGS, SYSTEM_ERR = 1, 2, 3, 4, 5
RPC_MISMATCH, AUTH_ERROR = 0, 1  # why a call was denied


class RpcError(Exception):
    """A call that wasn't executed, or a reply that can't be read."""


class BadReply(RpcError):
    """A reply that belongs to another call, or can't be read."""


class ProgramUnavailable(RpcError):
    """The server doesn't have the program (PROG_UNAVAIL)."""


class ProgramMismatch(RpcError):
    """The server doesn't have this version of the program, only those from low to high (PROG_MISMATCH)."""

    def __init__(self, low: int, high: int) -> None:
        super().__init__(f"versions {low} to {high} of the program are there")
        self.low, self.high = low, high


class ProcedureUnavailable(RpcError):
    """The program has no such procedure (PROC_UNAVAIL)."""


class GarbageArguments(RpcError):
    """The server couldn't read the arguments (GARBAGE_ARGS)."""


class SystemFault(RpcError):
    """The server failed (SYSTEM_ERR)."""


class RpcMismatch(RpcError):
    """The server doesn't have this version of RPC, only those from low to high (RPC_MISMATCH)."""

    def __init__(self, low: int, high: int) -> None:
        super().__init__(f"versions {low} to {high} of RPC are there")
        self.low, self.high = low, high


class AuthenticationRefused(RpcError):
    """The server refused the credential or the verifier (AUTH_ERROR). The message has the reason's number."""

    def __init__(self, number: int) -> None:
        super().__init__(f"authentication error {number}")
        self.number = number


def mark(size: int, last: bool = True) -> bytes:
    """The mark of a fragment of `size` bytes; `last` if it is the last of its record (section 11)."""
    return words((LAST if last else 0) | size)


def record(payload: bytes) -> bytes:
    """A record of one fragment."""
    return mark(len(payload)) + payload


@dataclass(frozen=True)
class Record:
    """A record: where it begins and ends in its stream, in bytes, and its bytes without the marks of fragments."""

    start: int
    end: int
    body: bytes


class Records:
    """The records of a stream whose bytes come in pieces."""

    def __init__(self) -> None:
        self.count = 0  # bytes that came
        self.start = 0  # where the unfinished record begins
        self._mark = b""  # the bytes of a fragment's mark that have come
        self.left: int | None = None  # bytes of the fragment that are still to come; None in a mark
        self._last = False
        self.body = bytearray()  # of the unfinished record, so far

    def push(self, data: bytes) -> list[Record]:
        """Takes a piece. Returns the records that are complete now."""
        found = []
        while data:
            data = self._step(data)
            if self.left == 0:
                self.left = None
                if self._last:
                    found.append(Record(self.start, self.count, bytes(self.body)))
                    self.start, self.body = self.count, bytearray()
        return found

    def _step(self, data: bytes) -> bytes:
        """Takes the bytes that belong to the present mark or fragment. Returns those after them."""
        if self.left is None:
            size = 4 - len(self._mark)
            self._mark += data[:size]
            if len(self._mark) == 4:
                word = int.from_bytes(self._mark, "big")
                self._last, self.left, self._mark = word >= LAST, word % LAST, b""
        else:
            size = self.left
            self.body += data[:size]
            self.left -= len(data[:size])
        self.count += len(data[:size])
        return data[size:]

    def held(self) -> int:
        """How many bytes the unfinished record has, with a mark."""
        return 4 + len(self.body) + len(self._mark)


def encode_call(
    xid: int, program: int, version: int, procedure: int, arguments: bytes = b""
) -> bytes:
    """A call as a record, without credential and verifier (section 9)."""
    return record(
        words(xid, CALL, RPC_VERSION, program, version, procedure, 0, 0, 0, 0) + arguments
    )


def encode_reply(xid: int, result: bytes = b"") -> bytes:
    """The reply to a call that was executed, as a record with an empty verifier."""
    return record(words(xid, REPLY, ACCEPTED, 0, 0, SUCCESS) + result)


def encode_refusal(xid: int, status: int, *details: int) -> bytes:
    """The reply to a call that was accepted and not executed, for a reason such as PROG_UNAVAIL."""
    return record(words(xid, REPLY, ACCEPTED, 0, 0, status, *details))


def encode_denial(xid: int, status: int, *details: int) -> bytes:
    """The reply to a call that was denied, for RPC_MISMATCH or AUTH_ERROR."""
    return record(words(xid, REPLY, DENIED, status, *details))


# Where the result begins in such a reply, counted in the bytes of its record with the mark.
RESULT_AT = len(encode_reply(0))


@dataclass(frozen=True)
class CallMessage:
    """A call that came."""

    xid: int
    program: int
    version: int
    procedure: int
    arguments: bytes


def read_call(body: bytes) -> CallMessage:
    """The call in the body of a record. Raises XdrError if there is none."""
    reader = Reader(body)
    xid = reader.word()
    if (reader.word(), reader.word()) != (CALL, RPC_VERSION):
        raise XdrError("no call of RPC version 2")
    program, version, procedure = reader.word(), reader.word(), reader.word()
    for _ in range(2):  # the credential and the verifier
        reader.word()
        reader.opaque(AUTH_MOST)
    return CallMessage(xid, program, version, procedure, reader.rest())


def read_reply(body: bytes, xid: int) -> bytes:
    """The result in a reply to the call with this xid.

    Raises the RpcError that the reply says, and BadReply if it can't be read.
    """
    reader = Reader(body)
    try:
        if (reader.word(), reader.word()) != (xid, REPLY):
            raise BadReply(f"no reply to call {xid}: {body.hex()}")
        refusal = _refusal(reader)
    except XdrError as fault:
        raise BadReply(f"a reply that can't be read: {fault}") from None
    if refusal is not None:
        raise refusal
    return reader.rest()


def _refusal(reader: Reader) -> RpcError | None:
    """Reads what comes after a reply's type. Returns None if the call was executed and the result follows."""
    status = reader.word()
    if status == DENIED:
        if reader.word() == RPC_MISMATCH:
            return RpcMismatch(reader.word(), reader.word())
        return AuthenticationRefused(reader.word())
    if status != ACCEPTED:
        return BadReply(f"a reply neither accepted nor denied: {status}")
    reader.word()  # the verifier
    reader.opaque(AUTH_MOST)
    return _accepted(reader.word(), reader)


def _accepted(status: int, reader: Reader) -> RpcError | None:
    """Why an accepted call wasn't executed; None if it was."""
    if status == SUCCESS:
        return None
    if status == PROG_MISMATCH:
        return ProgramMismatch(reader.word(), reader.word())
    refusals = {
        PROG_UNAVAIL: ProgramUnavailable("there is no such program"),
        PROC_UNAVAIL: ProcedureUnavailable("there is no such procedure"),
        GARBAGE_ARGS: GarbageArguments("the arguments can't be read"),
        SYSTEM_ERR: SystemFault("the other side failed"),
    }
    return refusals.get(status, BadReply(f"an accepted reply of status {status}"))
