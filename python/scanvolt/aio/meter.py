"""An instrument in virtual time whose time is that of an asyncio loop."""

from __future__ import annotations

import asyncio
import contextlib
from typing import TypeVar

from .. import virtual
from ..connection import Pending
from ..program import Name
from ..stimulus import Volts
from ..vxi11 import Call, calls
from ..vxi11.requests import Callback
from ..vxi11.timeouts import milliseconds as checked
from .link import Core, Link, Requests

__tracebackhide__ = True  # pytest shows the line that calls the package, and not these frames
Value = TypeVar("Value")
Itself = TypeVar("Itself", bound="Meter")
OneConnection = TypeVar("OneConnection", bound="Connection")


class Connection(Core):
    """A connection to a meter. `close` ends it, and so does the end of an `async with` block."""

    def __init__(self, meter: Meter, connection: virtual.Connection) -> None:
        self.meter, self._connection = meter, connection

    def __str__(self) -> str:
        return str(self._connection)

    @property
    def is_open(self) -> bool:  # type: ignore[override]
        """Whether it is open."""
        return self._connection.is_open

    async def __aenter__(self: OneConnection) -> OneConnection:
        return self

    async def __aexit__(self, *_: object) -> None:
        self.close()

    def close(self) -> None:
        """Closes the connection; the instrument destroys its links."""
        self._connection.close()

    async def do(self, call: Call[Value]) -> Value:
        """Makes a call, and waits for its result. Meanwhile other tasks run; time passes when none can. A call that is
        cancelled goes on in the instrument.
        """
        pending = self._connection.start(call)
        if pending.done:
            await asyncio.sleep(0)
        else:
            await self._answered(pending)
        if self.meter.virtual.call_time:
            await self.meter.advance(self.meter.virtual.call_time)
        return pending.result()

    async def _answered(self, pending: Pending[Value]) -> None:
        """Waits until a call is answered. Raises NoAnswer if that can't be."""
        answered = asyncio.get_running_loop().create_future()

        def awake(fault: Exception | None) -> None:
            if not answered.done() and fault is None:
                answered.set_result(None)
            elif not answered.done() and fault is not None:
                answered.set_exception(fault)

        with self.meter.virtual._awaiting(pending, awake):
            await answered

    async def abort(self, link: Link) -> None:
        """Aborts the call that waits on a link, over an abort channel of its own."""
        async with self.meter.connect("abort") as channel:
            await channel.do(calls.device_abort(link.number))

    async def listen(self, callback: Callback | None = None) -> Requests:
        """Makes the interrupt channel. Service requests go to the callback as time passes, or else into a queue."""
        requests = Requests(callback)
        self._connection.on_service_request(requests._came)
        await self.do(calls.create_intr_chan(calls.LOOPBACK, 1))
        return requests


class Meter:
    """An instrument that has just been turned on, whose time is that of the loop: within its `async with` block,
    asyncio.sleep, timeouts and the clocks go by the meter, and time passes only while no task can run.

    It takes what virtual.Meter takes; `virtual` is that meter.
    """

    def __init__(
        self,
        program: Name | None = None,
        scenario: Name | None = None,
        patience: int = virtual.PATIENCE,
        call_time: int = 0,
    ) -> None:
        self.virtual = virtual.Meter(program, scenario, patience, call_time)
        self._keeping = contextlib.ExitStack()

    def __repr__(self) -> str:
        return repr(self.virtual)

    async def __aenter__(self: Itself) -> Itself:
        self._keeping.enter_context(self.virtual.keeping_time())
        return self

    async def __aexit__(self, kind: type[BaseException] | None, *_: object) -> None:
        self._keeping.close()
        self.close()

    @property
    def clock(self) -> int:
        """Milliseconds since the instrument was turned on."""
        return self.virtual.clock

    def close(self) -> None:
        """Turns the instrument off: its connections and its program end."""
        self.virtual.close()

    def connect(self, role: str = "core") -> Connection:
        """Opens a connection, as virtual.Meter.connect does."""
        return Connection(self, self.virtual.connect(role))

    def set_input(self, channel: int, volts: Volts) -> None:
        """Sets the voltage at the input of a channel, as virtual.Meter.set_input does."""
        self.virtual.set_input(channel, volts)

    def external(self) -> None:
        """Gives the external trigger."""
        self.virtual.external()

    async def advance(self, milliseconds: int) -> None:
        """Lets this much time pass, in which other tasks run."""
        await asyncio.sleep(checked(milliseconds, "advance") / 1000)
