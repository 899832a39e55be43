"""The calls of VXI-11 (revision 1.0, B.6), and GETPORT, SET and UNSET of the port mapper (RFC 1833, section 3).

Each function returns a Call: its program, version, procedure and arguments, and how its result is read.
Timeouts are whole milliseconds (timeouts.py). `wait` is how long a call may take by its own timeouts.
"""

from __future__ import annotations

from collections.abc import Callable
from dataclasses import dataclass
from typing import Generic, TypeVar

from .errors import IO_TIMEOUT, LOCKED, DeviceError
from .rpc import BadReply, ProgramUnavailable, encode_call, read_reply
from .timeouts import milliseconds
from .whole import WORD, whole
from .xdr import Reader, XdrError, opaque, words

__tracebackhide__ = True  # pytest shows the line that calls the package, and not these frames
CORE, ABORT, INTERRUPT, PORT_MAPPER = 0x0607AF, 0x0607B0, 0x0607B1, 100000
CHANNELS = {CORE: "the core channel", ABORT: "the abort channel", PORT_MAPPER: "the port mapper"}
VERSIONS = {CORE: 1, ABORT: 1, INTERRUPT: 1, PORT_MAPPER: 2}

CREATE_LINK = 10
DEVICE_WRITE = 11
DEVICE_READ = 12
DEVICE_READSTB = 13
DEVICE_TRIGGER = 14
DEVICE_CLEAR = 15
DEVICE_REMOTE, DEVICE_LOCAL, DEVICE_LOCK, DEVICE_UNLOCK = 16, 17, 18, 19
DEVICE_ENABLE_SRQ, DEVICE_DOCMD = 20, 22
DESTROY_LINK, CREATE_INTR_CHAN, DESTROY_INTR_CHAN = 23, 25, 26
DEVICE_ABORT, DEVICE_INTR_SRQ = 1, 30
SET, UNSET, GETPORT = 1, 2, 3
NULL = 0

NAMES = {
    CORE: {
        CREATE_LINK: "create_link",
        DEVICE_WRITE: "device_write",
        DEVICE_READ: "device_read",
        DEVICE_READSTB: "device_readstb",
        DEVICE_TRIGGER: "device_trigger",
        DEVICE_CLEAR: "device_clear",
        DEVICE_REMOTE: "device_remote",
        DEVICE_LOCAL: "device_local",
        DEVICE_LOCK: "device_lock",
        DEVICE_UNLOCK: "device_unlock",
        DEVICE_ENABLE_SRQ: "device_enable_srq",
        DEVICE_DOCMD: "device_docmd",
        DESTROY_LINK: "destroy_link",
        CREATE_INTR_CHAN: "create_intr_chan",
        DESTROY_INTR_CHAN: "destroy_intr_chan",
    },
    ABORT: {DEVICE_ABORT: "device_abort"},
    INTERRUPT: {DEVICE_INTR_SRQ: "device_intr_srq"},
    PORT_MAPPER: {SET: "SET", UNSET: "UNSET", GETPORT: "GETPORT"},
}

WAITLOCK, END, TERMCHRSET = 1, 8, 128  # flags of a call
REQUEST_COUNT, TERMINATOR, ENDED = 1, 2, 4  # reasons why a read ended; a result has their sum
TCP, UDP = 6, 17  # protocols of the port mapper
PORT = 111  # the port of the port mapper
LOOPBACK = 0x7F000001  # 127.0.0.1
BY_TCP, BY_UDP = 0, 1  # address families of an interrupt channel
SRQ_MOST = 40  # bytes that a handle may have

Value = TypeVar("Value", covariant=True)


@dataclass(frozen=True)
class Call(Generic[Value]):
    """An RPC call, and how its result is read."""

    program: int
    procedure: int
    arguments: bytes
    read: Callable[[bytes], Value]
    wait: int = 0

    @property
    def version(self) -> int:
        """The version of the program."""
        return VERSIONS[self.program]

    @property
    def name(self) -> str:
        """The name of the procedure in the standard."""
        return name_of(self.program, self.procedure)

    def encode(self, xid: int) -> bytes:
        """The call as a record."""
        return encode_call(xid, self.program, self.version, self.procedure, self.arguments)

    def __str__(self) -> str:
        return self.name

    def timeout(self, number: int) -> int | None:
        """The timeout after which the call ends with this error. None if it isn't an error of a timeout."""
        return self.wait if number in (LOCKED, IO_TIMEOUT) else None

    def answer(self, body: bytes, xid: int) -> Value:
        """The result in a reply, given the record's bytes. Raises DeviceError for an error, and the RpcError of
        a call that was refused.
        """
        try:
            result = read_reply(body, xid)
        except ProgramUnavailable as fault:
            whose = CHANNELS.get(self.program, "another program")
            raise ProgramUnavailable(
                f"{self.name}: {fault} at this port. Is it that of {whose}?"
            ) from None
        try:
            return self.read(result)
        except XdrError as fault:
            raise BadReply(f"the result of {self.name} can't be read: {fault}") from None
        except DeviceError as fault:
            fault.call, fault.timeout = str(self), self.timeout(fault.number)
            raise


@dataclass(frozen=True)
class LinkCall(Call[Value]):
    """A call of a link, with its timeouts."""

    link: int = 0
    io_timeout: int = 0
    lock_timeout: int = 0

    def __str__(self) -> str:
        return f"{self.name} on link {self.link}"

    def timeout(self, number: int) -> int | None:
        """The timeout after which the call ends with this error. None if it isn't an error of a timeout."""
        return {LOCKED: self.lock_timeout, IO_TIMEOUT: self.io_timeout}.get(number)


@dataclass(frozen=True)
class Made:
    """A link that was made: its number, the port of the abort channel, and the most bytes of a device_write."""

    link: int
    abort_port: int
    most: int


@dataclass(frozen=True)
class Piece:
    """The bytes that a device_read returned, and why it ended: the sum of REQUEST_COUNT 1, TERMINATOR 2, ENDED
    4.
    """

    data: bytes
    reason: int

    @property
    def ended(self) -> bool:
        """Whether the response ended with this piece (END)."""
        return self.reason & ENDED != 0


def name_of(program: int, procedure: int) -> str:
    """The name of a procedure in the standard."""
    if procedure == NULL:
        return "the null procedure"
    return NAMES.get(program, {}).get(procedure, f"procedure {procedure} of program {program:#x}")


def _nothing(_result: bytes) -> None:
    """The result of the null procedure."""


def _checked(result: bytes) -> Reader:
    """A reader of what follows the error, if the error is 0. Raises DeviceError if it isn't."""
    reader = Reader(result)
    number = reader.signed()
    if number != 0:
        raise DeviceError(number)
    return reader


def _error(result: bytes) -> None:
    """Checks a result that is only an error."""
    _checked(result)


def _made(result: bytes) -> Made:
    reader = _checked(result)
    return Made(reader.signed(), reader.word(), reader.word())


def _size(result: bytes) -> int:
    return _checked(result).word()


def _status(result: bytes) -> int:
    return _checked(result).word() & 255


def _piece(result: bytes) -> Piece:
    reader = _checked(result)
    reason = reader.signed()
    return Piece(reader.opaque(), reason)


def _data(result: bytes) -> bytes:
    return _checked(result).opaque()


def _port(result: bytes) -> int:
    return Reader(result).word()


def _said(result: bytes) -> bool:
    return Reader(result).boolean()


def _flags(lock_timeout: int) -> int:
    """The flag waitlock if the lock timeout is above 0: then the call waits for the lock."""
    return WAITLOCK if lock_timeout > 0 else 0


def _checked_timeouts(io_timeout: int, lock_timeout: int) -> tuple[int, int]:
    """The timeouts of a call, if they may be such."""
    return milliseconds(io_timeout, "io_timeout"), milliseconds(lock_timeout, "lock_timeout")


def null(program: int = CORE) -> Call[None]:
    """Does nothing, and is answered."""
    return Call(program, NULL, b"", _nothing)


def create_link(
    device: str = "inst0", lock: bool = False, lock_timeout: int = 0, client: int = 0
) -> Call[Made]:
    """Makes a link. With `lock` the link has the lock, for which the call waits up to lock_timeout."""
    lock_timeout = milliseconds(lock_timeout, "lock_timeout")
    if not isinstance(device, str):
        raise TypeError(f"the name of a device is text, such as 'inst0', and not {device!r}")
    arguments = words(client, lock, lock_timeout) + opaque(device.encode("latin-1"))
    return Call(CORE, CREATE_LINK, arguments, _made, lock_timeout if lock else 0)


def device_write(
    link: int, data: bytes, io_timeout: int, lock_timeout: int = 0, end: bool = True
) -> Call[int]:
    """Writes bytes, with or without END. The result is how many were taken."""
    io_timeout, lock_timeout = _checked_timeouts(io_timeout, lock_timeout)
    flags = _flags(lock_timeout) | (END if end else 0)
    arguments = words(link, io_timeout, lock_timeout, flags) + opaque(data)
    return LinkCall(
        CORE,
        DEVICE_WRITE,
        arguments,
        _size,
        io_timeout + lock_timeout,
        link,
        io_timeout,
        lock_timeout,
    )


def device_read(
    link: int, size: int, io_timeout: int, lock_timeout: int = 0, termination: int | None = None
) -> Call[Piece]:
    """Reads at most `size` bytes, up to END, or up to a termination character (0 to 255) if one is given."""
    io_timeout, lock_timeout = _checked_timeouts(io_timeout, lock_timeout)
    size = whole(size, 0, WORD, "a read wants a number of bytes")
    if termination is not None:
        termination = whole(termination, 0, 255, "a read wants a termination character")
    flags = _flags(lock_timeout) | (0 if termination is None else TERMCHRSET)
    arguments = words(link, size, io_timeout, lock_timeout, flags, termination or 0)
    return LinkCall(
        CORE,
        DEVICE_READ,
        arguments,
        _piece,
        io_timeout + lock_timeout,
        link,
        io_timeout,
        lock_timeout,
    )


def _generic(
    procedure: int, read: Callable[[bytes], Value], link: int, io_timeout: int, lock_timeout: int
) -> Call[Value]:
    io_timeout, lock_timeout = _checked_timeouts(io_timeout, lock_timeout)
    arguments = words(link, _flags(lock_timeout), lock_timeout, io_timeout)
    return LinkCall(
        CORE, procedure, arguments, read, io_timeout + lock_timeout, link, io_timeout, lock_timeout
    )


def device_readstb(link: int, io_timeout: int, lock_timeout: int = 0) -> Call[int]:
    """Reads the status byte, 0 to 255. That clears its bit 6."""
    return _generic(DEVICE_READSTB, _status, link, io_timeout, lock_timeout)


def device_trigger(link: int, io_timeout: int, lock_timeout: int = 0) -> Call[None]:
    """Triggers the instrument."""
    return _generic(DEVICE_TRIGGER, _error, link, io_timeout, lock_timeout)


def device_clear(link: int, io_timeout: int, lock_timeout: int = 0) -> Call[None]:
    """Clears the device: drops the text that came and the response."""
    return _generic(DEVICE_CLEAR, _error, link, io_timeout, lock_timeout)


def device_remote(link: int, io_timeout: int, lock_timeout: int = 0) -> Call[None]:
    """Selects remote control with local lockout."""
    return _generic(DEVICE_REMOTE, _error, link, io_timeout, lock_timeout)


def device_local(link: int, io_timeout: int, lock_timeout: int = 0) -> Call[None]:
    """Selects local operation."""
    return _generic(DEVICE_LOCAL, _error, link, io_timeout, lock_timeout)


def device_lock(link: int, lock_timeout: int = 0) -> Call[None]:
    """Takes the lock, for which it waits up to lock_timeout."""
    lock_timeout = milliseconds(lock_timeout, "lock_timeout")
    arguments = words(link, _flags(lock_timeout), lock_timeout)
    return LinkCall(CORE, DEVICE_LOCK, arguments, _error, lock_timeout, link, 0, lock_timeout)


def device_unlock(link: int) -> Call[None]:
    """Frees the lock."""
    return LinkCall(CORE, DEVICE_UNLOCK, words(link), _error, 0, link)


def device_enable_srq(link: int, handle: bytes | None) -> Call[None]:
    """Turns on service requests, with this handle of at most 40 bytes; None turns them off."""
    if not isinstance(handle, (bytes, bytearray, type(None))):
        raise TypeError(f"a handle is bytes, such as b'meter 1', and not {handle!r}")
    if handle is not None and len(handle) > SRQ_MOST:
        raise ValueError(f"a handle of {len(handle)} bytes, at most {SRQ_MOST} may be")
    arguments = words(link, handle is not None) + opaque(handle or b"")
    return LinkCall(CORE, DEVICE_ENABLE_SRQ, arguments, _error, 0, link)


def device_docmd(
    link: int,
    command: int,
    data: bytes,
    io_timeout: int,
    lock_timeout: int = 0,
    item_size: int = 1,
    network_order: bool = True,
) -> Call[bytes]:
    """Executes a command that the standard leaves to the device. The result is the data that it returns."""
    io_timeout, lock_timeout = _checked_timeouts(io_timeout, lock_timeout)
    arguments = words(
        link, _flags(lock_timeout), io_timeout, lock_timeout, command, network_order, item_size
    )
    return LinkCall(
        CORE,
        DEVICE_DOCMD,
        arguments + opaque(data),
        _data,
        io_timeout + lock_timeout,
        link,
        io_timeout,
        lock_timeout,
    )


def destroy_link(link: int) -> Call[None]:
    """Ends a link."""
    return LinkCall(CORE, DESTROY_LINK, words(link), _error, 0, link)


def create_intr_chan(
    address: int,
    port: int,
    program: int = INTERRUPT,
    version: int = 1,
    family: int = BY_TCP,
    wait: int = 0,
) -> Call[None]:
    """Has the instrument connect to this address and port. `wait` is how long that may take, in milliseconds."""
    wait = milliseconds(wait, "wait")
    return Call(
        CORE, CREATE_INTR_CHAN, words(address, port, program, version, family), _error, wait
    )


def destroy_intr_chan() -> Call[None]:
    """Closes the interrupt channel."""
    return Call(CORE, DESTROY_INTR_CHAN, b"", _error)


def device_abort(link: int) -> Call[None]:
    """Aborts the call that waits on this link, which then ends with error 23. This goes over the abort channel."""
    return LinkCall(ABORT, DEVICE_ABORT, words(link), _error, 0, link)


def getport(program: int, version: int, protocol: int = TCP) -> Call[int]:
    """Asks the port mapper for the port of a program; 0 if none is registered."""
    return Call(PORT_MAPPER, GETPORT, words(program, version, protocol, 0), _port)


def set_port(program: int, version: int, port: int, protocol: int = TCP) -> Call[bool]:
    """Registers the port of a program. The result is false if the program is already registered."""
    return Call(PORT_MAPPER, SET, words(program, version, protocol, port), _said)


def unset_port(program: int, version: int) -> Call[bool]:
    """Unregisters all ports of a program. The result is whether there were any."""
    return Call(PORT_MAPPER, UNSET, words(program, version, 0, 0), _said)


def device_intr_srq(handle: bytes) -> Call[None]:
    """A service request, which the instrument sends over an interrupt channel. It has no reply."""
    return Call(INTERRUPT, DEVICE_INTR_SRQ, opaque(handle), _nothing)


def read_service_request(arguments: bytes) -> bytes:
    """The handle in the arguments of device_intr_srq."""
    return Reader(arguments).opaque()
