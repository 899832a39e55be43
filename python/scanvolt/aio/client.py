"""A client over sockets, under asyncio."""

from __future__ import annotations

import asyncio
import contextlib
import socket
from typing import TypeVar

from ..vxi11 import Call, Reader, calls
from ..vxi11.client import ELSEWHERE, PATIENCE
from ..vxi11.requests import Callback, RequestStream
from ..vxi11.rpc import Records
from ..vxi11.whole import whole
from .link import Core, Link, Requests

__tracebackhide__ = True  # pytest shows the line that calls the package, and not these frames
Value = TypeVar("Value")
Itself = TypeVar("Itself", bound="Client")
Streams = tuple[asyncio.StreamReader, asyncio.StreamWriter]


class Client(Core):
    """A connection to the core channel of an instrument, as vxi11.Client is one. `async with` opens and closes it.

    Without a port it asks the port mapper. `patience` is how many seconds a reply may take beyond the timeouts of its
    call. After that the connection is closed, and ConnectionError raised. It is also closed if a call is cancelled: its
    late reply would be taken for the reply to the next call. Tasks may share a client: calls go one after the other.
    """

    def __init__(
        self,
        host: str = "127.0.0.1",
        port: int | None = None,
        patience: float = PATIENCE,
        port_mapper: int = 111,
    ) -> None:
        self.host, self.port, self.patience, self.port_mapper = host, port, patience, port_mapper
        self.is_open = False
        self._xid = 0
        self._records = Records()
        self._streams: Streams | None = None
        self._turn: asyncio.Lock  # of the loop in which it is opened
        self._listeners: list[asyncio.AbstractServer] = []
        self._carriers: set[asyncio.Task[None]] = set()  # tasks that read the interrupt channels

    def __repr__(self) -> str:
        closed = "" if self.is_open else ", closed"
        return f"<Client of {self}{closed}>"

    def __str__(self) -> str:
        return f"{self.host}:{self.port}"

    async def __aenter__(self: Itself) -> Itself:
        await self.open()
        return self

    async def __aexit__(self, *_: object) -> None:
        await self.close()

    async def open(self) -> None:
        """Connects. Raises ConnectionError or TimeoutError."""
        if self.port is None:
            self.port = await self._found()
        port = whole(self.port, 1, 65535, "a connection wants a port")
        try:
            self._streams = await asyncio.wait_for(
                asyncio.open_connection(self.host, port), self.patience
            )
        except asyncio.TimeoutError:
            raise TimeoutError(f"no connection within {self.patience:g} s: {self}") from None
        except OSError as fault:
            raise type(fault)(fault.errno, f"{fault.strerror}: {self}") from None
        self.is_open, self._turn, self._records = True, asyncio.Lock(), Records()

    async def _found(self) -> int:
        """The core channel's port, as the port mapper says."""
        try:
            async with Client(self.host, self.port_mapper, self.patience) as mapper:
                found = await mapper.do(calls.getport(calls.CORE, 1))
        except ConnectionRefusedError as fault:
            raise ConnectionRefusedError(fault.errno, f"{fault.strerror}; {ELSEWHERE}") from None
        if found == 0:
            raise ConnectionError(
                f"the port mapper knows no port of program {calls.CORE:#x}: {self.host}:{self.port_mapper}"
            )
        return found

    def _check_open(self) -> Streams:
        """The streams. Raises ConnectionError if the connection is closed."""
        if self._streams is None:
            raise ConnectionError(f"the connection is closed: {self}")
        return self._streams

    async def close(self) -> None:
        """Closes the connection; the instrument destroys its links. After that, each call raises ConnectionError."""
        self.is_open = False
        for listener in self._listeners:
            listener.close()
        self._listeners.clear()
        carriers = list(self._carriers)
        for carrier in carriers:
            carrier.cancel()
        await asyncio.gather(*carriers, return_exceptions=True)
        streams, self._streams = self._streams, None
        if streams is not None:
            streams[1].close()
            with contextlib.suppress(OSError):
                await streams[1].wait_closed()

    async def do(self, call: Call[Value]) -> Value:
        """Makes a call, and waits for its result."""
        self._check_open()
        async with self._turn:
            streams = self._check_open()
            self._xid = (self._xid + 1) % 2**32
            patience = self.patience + call.wait / 1000
            try:
                body = await asyncio.wait_for(self._reply(call, *streams), patience)
            except asyncio.TimeoutError:
                await self.close()
                raise ConnectionError(
                    f"no reply to {call.name} within {patience:g} s: {self}"
                ) from None
            except BaseException:
                await self.close()
                raise
            return call.answer(body, self._xid)

    async def _reply(
        self, call: Call[Value], reader: asyncio.StreamReader, writer: asyncio.StreamWriter
    ) -> bytes:
        """Sends a call. Returns the record of its reply."""
        writer.write(call.encode(self._xid))
        await writer.drain()
        while True:
            data = await reader.read(65536)
            if not data:
                raise ConnectionError(f"the connection ended within {call.name}: {self}")
            found = self._records.push(data)
            if found:
                return found[0].body

    async def abort(self, link: Link) -> None:
        """Aborts the call that waits on a link, over a connection of its own."""
        async with Client(self.host, link.abort_port, self.patience) as channel:
            await channel.do(calls.device_abort(link.number))

    async def listen(self, callback: Callback | None = None) -> Requests:
        """Makes the interrupt channel. Service requests go to the callback, in the loop, or else into a queue."""
        streams = self._check_open()
        requests = Requests(callback)

        async def carried(reader: asyncio.StreamReader, writer: asyncio.StreamWriter) -> None:
            stream = RequestStream()
            with contextlib.closing(writer), contextlib.suppress(OSError):
                while data := await reader.read(65536):
                    for request in stream.push(data):
                        requests._came(request)

        def accepted(reader: asyncio.StreamReader, writer: asyncio.StreamWriter) -> None:
            """Begins to read a channel, in a task of this client: one that asyncio makes is reported when it is cancelled."""
            carrier = asyncio.create_task(carried(reader, writer))
            self._carriers.add(carrier)
            carrier.add_done_callback(self._carriers.discard)

        address = streams[1].get_extra_info("sockname")[0]
        listener = await asyncio.start_server(accepted, address, 0)
        self._listeners.append(listener)
        number = Reader(socket.inet_aton(address)).word()
        await self.do(calls.create_intr_chan(number, listener.sockets[0].getsockname()[1]))
        return requests
