"""A link: its calls, over whatever carries them."""

from __future__ import annotations

from dataclasses import dataclass
from typing import Protocol, TypeVar

from . import calls
from .calls import Call, Made, Piece
from .errors import INVALID_LINK, DeviceError
from .rpc import BadReply
from .timeouts import Milliseconds
from .whole import WORD, whole

__tracebackhide__ = True  # pytest shows the line that calls the package, and not these frames
Value = TypeVar("Value")
Itself = TypeVar("Itself", bound="Link")
IO_TIMEOUT = 10000  # milliseconds
READ_SIZE = 65536  # bytes that one device_read asks for


class Carrier(Protocol):
    """What carries calls: a socket, or a connection in virtual time. `is_open` is false once it has ended."""

    is_open: bool

    def do(self, call: Call[Value]) -> Value:
        """Makes a call of the core channel, and waits for its result."""

    def abort(self, link: Link) -> None:
        """Aborts the call that waits on a link, over the abort channel of the same instrument."""


@dataclass(frozen=True)
class LinkCalls:
    """The calls of a link with its timeouts, in milliseconds. They are made but not sent. `scanvolt.vxi11.calls`
    documents each.
    """

    link: int
    io_timeout: int
    lock_timeout: int

    def write(self, data: bytes, end: bool = True) -> Call[int]:
        """A device_write."""
        return calls.device_write(self.link, data, self.io_timeout, self.lock_timeout, end)

    def read(self, size: int = READ_SIZE, termination: int | None = None) -> Call[Piece]:
        """A device_read."""
        return calls.device_read(self.link, size, self.io_timeout, self.lock_timeout, termination)

    def readstb(self) -> Call[int]:
        """A device_readstb."""
        return calls.device_readstb(self.link, self.io_timeout, self.lock_timeout)

    def trigger(self) -> Call[None]:
        """A device_trigger."""
        return calls.device_trigger(self.link, self.io_timeout, self.lock_timeout)

    def clear(self) -> Call[None]:
        """A device_clear."""
        return calls.device_clear(self.link, self.io_timeout, self.lock_timeout)

    def remote(self) -> Call[None]:
        """A device_remote."""
        return calls.device_remote(self.link, self.io_timeout, self.lock_timeout)

    def local(self) -> Call[None]:
        """A device_local."""
        return calls.device_local(self.link, self.io_timeout, self.lock_timeout)

    def lock(self, timeout: int | None = None) -> Call[None]:
        """A device_lock."""
        return calls.device_lock(self.link, self.lock_timeout if timeout is None else timeout)

    def unlock(self) -> Call[None]:
        """A device_unlock."""
        return calls.device_unlock(self.link)

    def enable_srq(self, handle: bytes | None) -> Call[None]:
        """A device_enable_srq."""
        return calls.device_enable_srq(self.link, handle)

    def docmd(self, command: int, data: bytes = b"") -> Call[bytes]:
        """A device_docmd."""
        return calls.device_docmd(self.link, command, data, self.io_timeout, self.lock_timeout)

    def destroy(self) -> Call[None]:
        """A destroy_link."""
        return calls.destroy_link(self.link)


def message_bytes(message: bytes | str) -> bytes:
    """The bytes of a message. Raises TypeError if it is neither text nor bytes."""
    if not isinstance(message, (str, bytes, bytearray, memoryview)):
        raise TypeError(f"a message is text or bytes, and not {message!r}")
    return message.encode("latin-1") if isinstance(message, str) else bytes(message)


class Link:
    """A link to an instrument. `destroy` ends it, and so does the end of a `with` block. What was raised in the
    block comes out of it as it was raised.

    io_timeout and lock_timeout are whole milliseconds, and may be set at any time. If another link has the lock, a
    call waits for it if lock_timeout is above 0 (flag waitlock); else it returns error 11 at once. All methods
    raise DeviceError for an error that the instrument returns, RpcError for a call that it refuses, and
    ConnectionError if the connection ends.
    """

    io_timeout = Milliseconds()
    lock_timeout = Milliseconds()

    def __init__(
        self, carrier: Carrier, made: Made, io_timeout: int = IO_TIMEOUT, lock_timeout: int = 0
    ) -> None:
        self.carrier = carrier
        self.number = made.link
        self.abort_port = made.abort_port  # the port of the abort channel
        self.most = made.most  # bytes that one device_write may have
        self.io_timeout = io_timeout
        self.lock_timeout = lock_timeout
        self._is_destroyed = False

    def __repr__(self) -> str:
        ended = self._is_destroyed or not self.carrier.is_open
        closed = ", closed" if ended else ""
        return f"<Link {self.number} of {self.carrier}{closed}>"

    def __enter__(self: Itself) -> Itself:
        return self

    def __exit__(self, kind: type[BaseException] | None, *_: object) -> None:
        try:
            if self.carrier.is_open:  # else the link ended with the connection
                self.destroy()
        except Exception as fault:  # it doesn't hide what was raised in the block
            ended = isinstance(fault, DeviceError) and fault.number == INVALID_LINK
            if kind is None and self.carrier.is_open and not ended:
                raise

    @property
    def calls(self) -> LinkCalls:
        """This link's calls with its present timeouts, for a caller that sends them itself."""
        return LinkCalls(self.number, self.io_timeout, self.lock_timeout)

    def write(self, message: bytes | str, end: bool = True) -> int:
        """Writes a message, in as many calls as needed. If `end` is true, END comes with the last byte. Returns
        the message's length in bytes.
        """
        data = message_bytes(message)
        place = 0
        while True:
            piece = data[place : place + self.most]
            taken = self.carrier.do(
                self.calls.write(piece, end and place + len(piece) == len(data))
            )
            place += taken
            if place >= len(data):
                return place
            if taken == 0:
                raise BadReply(f"device_write took no byte of {len(piece)}")

    def read_piece(self, size: int = READ_SIZE, termination: int | None = None) -> Piece:
        """Makes one device_read: at most `size` bytes, up to END or a termination character (0 to 255)."""
        return self.carrier.do(self.calls.read(size, termination))

    def read(self, size: int | None = None, termination: int | None = None) -> bytes:
        """Makes reads up to END, up to the termination character, or up to `size` bytes, whichever comes first."""
        if size is not None:
            size = whole(size, 0, WORD, "a read wants a number of bytes")
        data = b""
        while True:
            asked = READ_SIZE if size is None else size - len(data)
            piece = self.read_piece(min(asked, READ_SIZE), termination)
            data += piece.data
            if piece.reason & (calls.ENDED | calls.TERMINATOR) or len(data) == size:
                return data

    def query(self, message: bytes | str) -> str:
        """Writes a message and reads its response, without the new line at its end."""
        self.write(message)
        text = self.read().decode("latin-1")
        return text[:-1] if text.endswith("\n") else text

    def readstb(self) -> int:
        """Reads the status byte. Bit 6 (64) is the request for service, which this clears."""
        return self.carrier.do(self.calls.readstb())

    def trigger(self) -> None:
        """Triggers the instrument."""
        self.carrier.do(self.calls.trigger())

    def clear(self) -> None:
        """Clears the device: drops the text that came, held commands and the response."""
        self.carrier.do(self.calls.clear())

    def remote(self) -> None:
        """Selects remote control with local lockout."""
        self.carrier.do(self.calls.remote())

    def local(self) -> None:
        """Selects local operation."""
        self.carrier.do(self.calls.local())

    def lock(self, timeout: int | None = None) -> None:
        """Takes the lock. Waits for it up to `timeout` milliseconds, or lock_timeout if that isn't given."""
        self.carrier.do(self.calls.lock(timeout))

    def unlock(self) -> None:
        """Frees the lock."""
        self.carrier.do(self.calls.unlock())

    def enable_srq(self, handle: bytes = b"") -> None:
        """Turns on service requests of this link, with this handle of at most 40 bytes."""
        self.carrier.do(self.calls.enable_srq(handle))

    def disable_srq(self) -> None:
        """Turns off service requests of this link."""
        self.carrier.do(self.calls.enable_srq(None))

    def docmd(self, command: int, data: bytes = b"") -> bytes:
        """Executes a command that the standard leaves to the device."""
        return self.carrier.do(self.calls.docmd(command, data))

    def abort(self) -> None:
        """Aborts the call that waits on this link, in another thread say: it ends with error 23."""
        self.carrier.abort(self)

    def destroy(self) -> None:
        """Ends the link, and with it its lock and its service requests."""
        self.carrier.do(self.calls.destroy())
        self._is_destroyed = True
