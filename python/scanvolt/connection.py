"""Connections to a meter in virtual time, the calls that were sent on them, and their service requests."""

from __future__ import annotations

import collections
import contextlib
import functools
import queue
from typing import TYPE_CHECKING, Generic, TypeVar, cast

from .program import ProgramError
from .replay import Moment
from .vxi11 import DeviceError, Link, RequestStream, ServiceRequest, calls
from .vxi11.calls import Call
from .vxi11.core import Core
from .vxi11.requests import Callback, checked_callback
from .vxi11.rpc import Records
from .vxi11.timeouts import milliseconds as checked

if TYPE_CHECKING:
    from .virtual import Meter

__tracebackhide__ = True  # pytest shows the line that calls the package, and not these frames
Value = TypeVar("Value")
Itself = TypeVar("Itself", bound="Connection")


class NoAnswer(Exception):
    """A call has waited for longer than the meter's patience; or nothing is due that could answer it, and then this is raised at
    once, and says which call is in the way, why, and what would end that.
    """


class Pending(Generic[Value]):
    """A call that was sent. `clock` is the millisecond of its reply, or None before that."""

    def __init__(self, connection: Connection, call: Call[Value], xid: int) -> None:
        self.connection = connection
        self.call = call
        self.xid = xid
        self._turned: int | None = None  # the millisecond at which the instrument took the call
        self.clock: int | None = None
        self._body = b""
        self._fault: Exception | None = None
        # the reply that a fault on order makes, in place of the instrument
        self._made: bytes | None = None
        self._note: str | None = None  # what that fault was

    def __repr__(self) -> str:
        told = "not answered" if self.clock is None else f"answered at {self.clock} ms"
        if self._fault is not None:
            told = f"ended at {self.clock or 0} ms: {self._fault}"
        return f"<Pending {self.call}, {told}>"

    @property
    def done(self) -> bool:
        """Whether the call was answered, or its connection ended."""
        return self.clock is not None

    def wait(self) -> None:
        """Advances time until the call is answered, or its connection ended. Raises NoAnswer if that can't be."""
        if self.done:
            return
        meter, own = self.connection.meter, cast("Pending[object]", self)
        if meter._steps is not None:
            meter._steps.expects(own)
        else:
            with meter._guard:
                why = meter._hopeless(own)
            if why is not None:
                raise NoAnswer(why)
        if not meter.until(lambda: self.done, meter.patience):
            raise NoAnswer(
                f"{self.call.name} waits for more than {meter.patience} ms of virtual time; see patience of Meter"
            )

    def result(self) -> Value:
        """Advances time until the call is answered. Returns its result, or raises the exception of its error."""
        self.wait()
        if self._fault is not None:
            raise self._fault
        try:
            return self.call.answer(self._body, self.xid)
        except DeviceError as fault:
            assert self.clock is not None and self._turned is not None
            fault.waited, fault.clock = self.clock - self._turned, self.clock
            fault.tell = functools.partial(_notes, self, self.connection.meter._replay.moment())
            if self._note is not None:
                fault.tell = [self._note].copy
            raise

    def _end(self, clock: int, body: bytes = b"", fault: Exception | None = None) -> None:
        """Ends the call: it was answered, or can't be any more."""
        self.clock, self._body, self._fault = clock, body, fault
        self.connection.meter._answered(cast("Pending[object]", self))


def _notes(pending: Pending[Value], moment: Moment) -> list[str]:
    """The notes of the error with which a call ended at a moment of the session."""
    from .explaining import meters

    return meters.notes(pending.connection.meter, pending.connection.number, pending.xid, moment)


class Requests:
    """The service requests of a connection's interrupt channel. They go to a callback, or else into a queue."""

    def __init__(self, connection: Connection) -> None:
        self._connection = connection
        self.callback: Callback | None = None
        self.queue: queue.Queue[ServiceRequest] = queue.Queue()
        self._stream = RequestStream()

    def wait(self, milliseconds: int) -> ServiceRequest:
        """The next service request of the queue. Advances time until there is one; after this long raises TimeoutError."""
        most = checked(milliseconds, "wait")
        if not self._connection.meter.until(lambda: not self.queue.empty(), most):
            raise TimeoutError(f"no service request within {most} ms of virtual time")
        return self.queue.get_nowait()

    def close(self) -> None:
        """Closes the interrupt channel, if there is one. Requests that came stay in the queue."""
        if self._connection.has_channel:
            with contextlib.suppress(ProgramError):  # a program that ended has no channel
                self._connection.destroy_intr_chan()


class Connection(Core):
    """A connection to a meter. `close` ends it, and so does the end of a `with` block."""

    def __init__(self, meter: Meter, number: int, role: str) -> None:
        self.meter = meter
        self.number = number  # by which the script knows it, 0 to 15
        self.role = role  # core, abort or portmap
        self.is_open = True
        self.has_channel = False  # whether it has an interrupt channel
        self._xid = 0
        self._records = Records()
        self._pending: collections.deque[Pending[object]] = collections.deque()
        self.requests = Requests(self)  # what `listen` returns

    def __repr__(self) -> str:
        closed = "" if self.is_open else ", closed"
        return f"<Connection {self.number}, {self.role}{closed}>"

    def __str__(self) -> str:
        return f"connection {self.number}"

    def __enter__(self: Itself) -> Itself:
        return self

    def __exit__(self, kind: type[BaseException] | None, *_: object) -> None:
        self.close()

    def close(self) -> None:
        """Closes the connection; the instrument destroys its links."""
        if self.is_open:
            self.meter.drop(self)

    def check_open(self) -> None:
        """Raises ConnectionError if the connection is closed."""
        if not self.is_open:
            raise ConnectionError("the connection is closed")

    def start(self, call: Call[Value]) -> Pending[Value]:
        """Sends a call. The instrument takes it after those sent before it are answered."""
        if not isinstance(call, Call):
            raise TypeError(f"start wants a call, such as link.calls.readstb(), and not {call!r}")
        with self.meter._guard:
            self._xid = (self._xid + 1) % 2**32
            pending = Pending(self, call, self._xid)
            self.meter._send(self, cast("Pending[object]", pending))
            return pending

    def do(self, call: Call[Value]) -> Value:
        """Makes a call: advances time until it is answered, and then by the meter's call_time."""
        pending = self.start(call)
        pending.wait()
        if pending._fault is None and self.meter.call_time:
            self.meter.advance(self.meter.call_time)
        return pending.result()

    def abort(self, link: Link) -> None:
        """Aborts the call that waits on a link, over an abort channel of its own."""
        self.check_open()
        with self.meter.connect("abort") as channel:
            channel.do(calls.device_abort(link.number))

    def listen(self, callback: Callback | None = None) -> Requests:
        """Makes the interrupt channel. Service requests go to the callback as time passes, or else into a queue."""
        if callback is not None:
            self.on_service_request(callback)
        self.create_intr_chan(calls.LOOPBACK, 1)
        return self.requests

    def on_service_request(self, callback: Callback | None) -> None:
        """From now on service requests go to this callback, or into the queue if it is None."""
        self.requests.callback = checked_callback(callback)
