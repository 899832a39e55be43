"""A session to an instrument: a connection of its own with one link, as other VISAs make it for TCPIP."""

from __future__ import annotations

import collections
import contextlib
from collections.abc import Callable
from typing import Any

from pyvisa import constants
from pyvisa.constants import EventMechanism, EventType
from pyvisa.constants import ResourceAttribute as Name
from pyvisa.constants import StatusCode
from scanvolt.program import ProgramError
from scanvolt.virtual import Meter, NoAnswer
from scanvolt.vxi11 import ENDED, TERMINATOR, DeviceError, ServiceRequest

from . import attributes
from .sharing import Sharing
from .statuses import Refusal

__tracebackhide__ = True  # pytest shows the line that calls the package, and not these frames
Handler = Callable[[int, EventType, int, Any], object]
QUEUE = EventMechanism.queue
HANDLER = EventMechanism.handler
SUSPENDED = EventMechanism.suspend_handler
LOCAL = (
    constants.RENLineOperation.deassert,
    constants.RENLineOperation.deassert_gtl,
    constants.RENLineOperation.address_gtl,
)
LONGEST = 0xFFFFFFFF  # VI_TMO_INFINITE, no timeout


class Session:
    """The operations on a resource. Each method raises Refusal, DeviceError or ConnectionError.

    Time passes only in calls that wait. Service requests come as it passes: handlers are called during such
    calls.
    """

    def __init__(
        self,
        meter: Meter,
        sharing: Sharing,
        states: dict[Name, attributes.Kept],
        device: str,
        lock_timeout: int | None,
    ) -> None:
        self.meter, self.sharing, self._states = meter, sharing, states
        self._connection = meter.connect()
        try:
            self.link = self._connection.create_link(
                device, lock_timeout is not None, lock_timeout or 0
            )
        except Exception:
            self._connection.close()
            raise
        self.link.lock_timeout = 0  # a call that needs the lock of another link fails at once
        self.locks = 0 if lock_timeout is None else 1  # how often the lock was taken
        self.number = 0  # by which PyVISA knows it
        self._mechanisms = 0  # the mechanisms for which events are enabled
        self.handlers: list[tuple[Handler, Any]] = []
        self._queued: collections.deque[ServiceRequest] = collections.deque()
        self._suspended: collections.deque[ServiceRequest] = collections.deque()
        # makes the number of an event's context
        self.new_context: Callable[[], int] = lambda: 0

    def close(self) -> None:
        """Ends the connection, and with it the link, its lock and its service requests."""
        if self._connection.is_open:
            # the locks of a program that ended have ended
            with contextlib.suppress(ProgramError, DeviceError):
                self.sharing.leave(self)
        self._connection.close()

    def get(self, name: Name) -> Any:
        """The state of an attribute."""
        return attributes.get(self._states, name)

    def put(self, name: Name, state: Any) -> None:
        """Sets an attribute."""
        attributes.put(self._states, name, state)

    def _timed(self) -> None:
        """Sets the link's timeout to the session's, and gives the link the lock that sessions share."""
        self.sharing.enter(self)
        self.link.io_timeout = int(self.get(Name.timeout_value))

    def write(self, data: bytes) -> int:
        """Writes bytes, with END if that is enabled."""
        self._timed()
        return self.link.write(data, bool(self.get(Name.send_end_enabled)))

    def read(self, count: int) -> tuple[bytes, StatusCode]:
        """Reads up to END, up to the termination character if it is enabled, or up to `count` bytes. If several of
        these are true, the first decides the status.
        """
        self._timed()
        termination = self.get(Name.termchar) if self.get(Name.termchar_enabled) else None
        data = b""
        while len(data) < count:
            piece = self.link.read_piece(count - len(data), termination)
            data += piece.data
            if piece.reason & ENDED:
                return data, StatusCode.success
            if piece.reason & TERMINATOR:
                return data, StatusCode.success_termination_character_read
        return data, StatusCode.success_max_count_read

    def read_stb(self) -> int:
        """Reads the status byte."""
        self._timed()
        return self.link.readstb()

    def clear(self) -> None:
        """Clears the device."""
        self._timed()
        self.link.clear()

    def trigger(self, protocol: int) -> None:
        """Triggers the instrument."""
        if protocol != constants.TriggerProtocol.default:
            raise Refusal(StatusCode.error_invalid_protocol)
        self._timed()
        self.link.trigger()

    def control_ren(self, mode: int) -> None:
        """Selects remote or local operation."""
        self._timed()
        if mode in LOCAL:
            self.link.local()
        else:
            self.link.remote()

    def lock(self, kind: int, timeout: int, key: str | None) -> tuple[str, StatusCode]:
        """Takes the exclusive lock, or a shared one. Waits for it up to `timeout` milliseconds. Returns the access key."""
        if kind == constants.Lock.shared:
            return self.sharing.lock_shared(self, timeout, key)
        if kind != constants.Lock.exclusive:
            raise Refusal(StatusCode.error_invalid_lock_type)
        return "", self.sharing.lock_exclusive(self, timeout)

    def unlock(self) -> StatusCode:
        """Undoes one `lock`. The last one frees the lock."""
        return self.sharing.unlock(self)

    def enable(self, kind: int, mechanism: int) -> StatusCode:
        """Turns on service requests, by a queue or by handlers. The first time, this makes the interrupt
        channel.
        """
        if kind not in (EventType.service_request, EventType.all_enabled):
            raise Refusal(StatusCode.error_invalid_event)
        if (
            not mechanism
            or mechanism & ~(QUEUE | HANDLER | SUSPENDED)
            or (mechanism & HANDLER and mechanism & SUSPENDED)
        ):
            raise Refusal(StatusCode.error_invalid_mechanism)
        if mechanism & (HANDLER | SUSPENDED) and not self.handlers:
            raise Refusal(StatusCode.error_handler_not_installed)
        already = mechanism & ~self._mechanisms == 0
        if not self._connection.has_channel:
            self._connection.listen(self._came)
        if not self._mechanisms:
            self.link.enable_srq(b"")
        others = ~(HANDLER | SUSPENDED) if mechanism & (HANDLER | SUSPENDED) else ~0
        self._mechanisms = self._mechanisms & others | mechanism
        self._resume()
        return StatusCode.success_event_already_enabled if already else StatusCode.success

    def disable(self, kind: int, mechanism: int) -> StatusCode:
        """Turns off service requests by these mechanisms."""
        if kind not in (EventType.service_request, EventType.all_enabled):
            raise Refusal(StatusCode.error_invalid_event)
        already = self._mechanisms & mechanism == 0
        left = self._mechanisms & ~mechanism
        if self._mechanisms and not left and self._connection.is_open:
            with contextlib.suppress(ProgramError):  # a program that ended requests nothing
                self.link.disable_srq()
        self._mechanisms = left
        return StatusCode.success_event_already_disabled if already else StatusCode.success

    def discard(self, kind: int, mechanism: int) -> StatusCode:
        """Discards service requests that came and weren't taken."""
        if kind not in (EventType.service_request, EventType.all_enabled):
            raise Refusal(StatusCode.error_invalid_event)
        count = 0
        for which, queue in ((QUEUE, self._queued), (SUSPENDED, self._suspended)):
            if mechanism & which:
                count += len(queue)
                queue.clear()
        return StatusCode.success if count else StatusCode.success_queue_already_empty

    def _came(self, request: ServiceRequest) -> None:
        """Handles a service request: puts it into the queue, hands it to the handlers, or keeps it for them."""
        most = self.get(Name.max_queue_length)
        if self._mechanisms & QUEUE and len(self._queued) < most:
            self._queued.append(request)
        if self._mechanisms & (HANDLER | SUSPENDED) and len(self._suspended) < most:
            self._suspended.append(request)
        self._resume()

    def _resume(self) -> None:
        """Hands on what is kept for the handlers, if they are enabled. The handler added last is called first."""
        while self._mechanisms & HANDLER and self._suspended:
            self._suspended.popleft()
            for handler, user_handle in reversed(self.handlers):
                handler(self.number, EventType.service_request, self.new_context(), user_handle)

    def wait(self, kind: int, timeout: int | None) -> StatusCode:
        """Waits for a service request in the queue. At most `timeout` milliseconds pass."""
        if kind not in (EventType.service_request, EventType.all_enabled):
            raise Refusal(StatusCode.error_invalid_event)
        if not self._mechanisms & QUEUE:
            raise Refusal(StatusCode.error_not_enabled)
        most = self.meter.patience if timeout is None or timeout == LONGEST else timeout
        if not self.meter.until(lambda: bool(self._queued), int(most)):
            if timeout is None or timeout == LONGEST:
                raise NoAnswer(f"no service request within {most} ms of virtual time")
            raise Refusal(StatusCode.error_timeout)
        self._queued.popleft()
        return StatusCode.success_queue_not_empty if self._queued else StatusCode.success
