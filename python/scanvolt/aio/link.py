"""A link under asyncio, and what a connection to the core channel does."""

from __future__ import annotations

import asyncio
from typing import TypeVar

from ..vxi11 import Call, DeviceError, LinkCalls, Made, Piece, ServiceRequest, calls
from ..vxi11.errors import INVALID_LINK
from ..vxi11.link import IO_TIMEOUT, READ_SIZE, message_bytes
from ..vxi11.requests import Callback, checked_callback
from ..vxi11.rpc import BadReply
from ..vxi11.timeouts import Milliseconds
from ..vxi11.timeouts import milliseconds as checked
from ..vxi11.whole import WORD, whole

__tracebackhide__ = True  # pytest shows the line that calls the package, and not these frames
Value = TypeVar("Value")
Itself = TypeVar("Itself", bound="Link")


class Requests:
    """The service requests of an interrupt channel. They go to a callback, or else into a queue."""

    def __init__(self, callback: Callback | None = None) -> None:
        self.callback = checked_callback(callback)
        self.queue: asyncio.Queue[ServiceRequest] = asyncio.Queue()

    async def wait(self, milliseconds: int) -> ServiceRequest:
        """The next service request of the queue. Raises TimeoutError if none comes within this many milliseconds."""
        most = checked(milliseconds, "wait")
        try:
            return await asyncio.wait_for(self.queue.get(), most / 1000)
        except asyncio.TimeoutError:
            raise TimeoutError(f"no service request within {most} ms") from None

    def _came(self, request: ServiceRequest) -> None:
        """Hands on a service request."""
        if self.callback is None:
            self.queue.put_nowait(request)
        else:
            self.callback(request)


class Core:
    """The links and the interrupt channel of a connection. A subclass says how a call is made."""

    is_open: bool

    async def do(self, call: Call[Value]) -> Value:
        """Makes a call, and waits for its result."""
        raise NotImplementedError

    async def abort(self, link: Link) -> None:
        """Aborts the call that waits on a link, over an abort channel of its own."""
        raise NotImplementedError

    async def create_link(
        self,
        device: str = "inst0",
        lock: bool = False,
        lock_timeout: int = 0,
        io_timeout: int = IO_TIMEOUT,
    ) -> Link:
        """Makes a link; with `lock` the link has the lock. The link keeps these timeouts, in milliseconds."""
        io_timeout = checked(io_timeout, "io_timeout")
        return Link(
            self,
            await self.do(calls.create_link(device, lock, lock_timeout)),
            io_timeout,
            lock_timeout,
        )

    async def create_intr_chan(
        self,
        address: int,
        port: int,
        program: int = calls.INTERRUPT,
        version: int = 1,
        family: int = calls.BY_TCP,
    ) -> None:
        """Has the instrument connect to a port of an address, which is given as a number."""
        await self.do(calls.create_intr_chan(address, port, program, version, family))

    async def destroy_intr_chan(self) -> None:
        """Closes the interrupt channel."""
        await self.do(calls.destroy_intr_chan())


class Link:
    """A link to an instrument, as vxi11.Link is one: the same methods, which are awaited, and the same errors.

    `destroy` ends it, and so does the end of an `async with` block.
    """

    io_timeout = Milliseconds()
    lock_timeout = Milliseconds()

    def __init__(
        self, carrier: Core, made: Made, io_timeout: int = IO_TIMEOUT, lock_timeout: int = 0
    ) -> None:
        self.carrier = carrier
        self.number, self.abort_port, self.most = made.link, made.abort_port, made.most
        self.io_timeout, self.lock_timeout = io_timeout, lock_timeout

    def __repr__(self) -> str:
        return f"<Link {self.number} of {self.carrier}>"

    async def __aenter__(self: Itself) -> Itself:
        return self

    async def __aexit__(self, kind: type[BaseException] | None, *_: object) -> None:
        try:
            if self.carrier.is_open:
                await self.destroy()
        except Exception as fault:  # it doesn't hide what was raised in the block
            ended = isinstance(fault, DeviceError) and fault.number == INVALID_LINK
            if kind is None and self.carrier.is_open and not ended:
                raise

    @property
    def calls(self) -> LinkCalls:
        """This link's calls with its present timeouts."""
        return LinkCalls(self.number, self.io_timeout, self.lock_timeout)

    async def write(self, message: bytes | str, end: bool = True) -> int:
        """Writes a message, in as many calls as needed. If `end` is true, END comes with the last byte. Returns the
        message's length in bytes.
        """
        data = message_bytes(message)
        place = 0
        while True:
            piece = data[place : place + self.most]
            taken = await self.carrier.do(
                self.calls.write(piece, end and place + len(piece) == len(data))
            )
            place += taken
            if place >= len(data):
                return place
            if taken == 0:
                raise BadReply(f"device_write took no byte of {len(piece)}")

    async def read_piece(self, size: int = READ_SIZE, termination: int | None = None) -> Piece:
        """Makes one device_read: at most `size` bytes, up to END or a termination character (0 to 255)."""
        return await self.carrier.do(self.calls.read(size, termination))

    async def read(self, size: int | None = None, termination: int | None = None) -> bytes:
        """Makes reads up to END, up to the termination character, or up to `size` bytes, whichever comes first."""
        if size is not None:
            size = whole(size, 0, WORD, "a read wants a number of bytes")
        data = b""
        while True:
            asked = READ_SIZE if size is None else size - len(data)
            piece = await self.read_piece(min(asked, READ_SIZE), termination)
            data += piece.data
            if piece.reason & (calls.ENDED | calls.TERMINATOR) or len(data) == size:
                return data

    async def query(self, message: bytes | str) -> str:
        """Writes a message and reads its response, without the new line at its end."""
        await self.write(message)
        text = (await self.read()).decode("latin-1")
        return text[:-1] if text.endswith("\n") else text

    async def readstb(self) -> int:
        """Reads the status byte. Bit 6 (64) is the request for service, which this clears."""
        return await self.carrier.do(self.calls.readstb())

    async def trigger(self) -> None:
        """Triggers the instrument."""
        await self.carrier.do(self.calls.trigger())

    async def clear(self) -> None:
        """Clears the device: drops the text that came, held commands and the response."""
        await self.carrier.do(self.calls.clear())

    async def remote(self) -> None:
        """Selects remote control with local lockout."""
        await self.carrier.do(self.calls.remote())

    async def local(self) -> None:
        """Selects local operation."""
        await self.carrier.do(self.calls.local())

    async def lock(self, timeout: int | None = None) -> None:
        """Takes the lock. Waits for it up to `timeout` milliseconds, or lock_timeout if that isn't given."""
        await self.carrier.do(self.calls.lock(timeout))

    async def unlock(self) -> None:
        """Frees the lock."""
        await self.carrier.do(self.calls.unlock())

    async def enable_srq(self, handle: bytes = b"") -> None:
        """Turns on service requests of this link, with this handle of at most 40 bytes."""
        await self.carrier.do(self.calls.enable_srq(handle))

    async def disable_srq(self) -> None:
        """Turns off service requests of this link."""
        await self.carrier.do(self.calls.enable_srq(None))

    async def docmd(self, command: int, data: bytes = b"") -> bytes:
        """Executes a command that the standard leaves to the device."""
        return await self.carrier.do(self.calls.docmd(command, data))

    async def abort(self) -> None:
        """Aborts the call that waits on this link, in another task say: it ends with error 23."""
        await self.carrier.abort(self)

    async def destroy(self) -> None:
        """Ends the link, and with it its lock and its service requests."""
        await self.carrier.do(self.calls.destroy())
