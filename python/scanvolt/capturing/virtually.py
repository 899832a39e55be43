"""Makes the calls of a captured session again by `scanvolt.virtual`, at the same milliseconds, and compares: the
replies have to be the same bytes, and the service requests the same ones in the same order.
"""

from __future__ import annotations

from collections import deque
from dataclasses import dataclass

from ..program import Name
from ..virtual import Connection, Meter, Pending
from ..vxi11 import Call, CallMessage, RequestStream, calls, record
from ..vxi11.errors import NOT_ESTABLISHED
from .flows import Connection as Captured
from .flows import call_of, name
from .packets import Fault
from .session import Session, error_of
from .told import counted

Requested = tuple[int, str]  # its xid and its handle


@dataclass(frozen=True)
class _Sent(Call[None]):
    """A call that is sent as the bytes that were captured."""

    data: bytes = b""

    def encode(self, xid: int) -> bytes:
        return self.data


class Again:
    """A captured session, made again in virtual time."""

    def __init__(
        self, session: Session, ticks: list[int], program: Name | None, scenario: Name | None
    ) -> None:
        self._session = session
        self._ticks = ticks
        self._open: dict[int, Connection] = {}
        self._left: dict[int, deque[tuple[CallMessage, bytes, bool]]] = {}
        self._done: list[list[Pending[None]]] = []  # the calls of each connection, open or ended
        self._place: dict[int, int] = {}  # for each open connection, its place in `done`
        self._requests: list[Requested] = []
        self._captured = iter(session.connections)
        with Meter(program, scenario) as meter:
            self._meter = meter
            for point, clock in zip(session.points, ticks):
                meter.advance(max(0, clock - meter.clock))
                for line in point.lines:
                    self._play(*line.split(" ", 2))

    def _play(self, kind: str, where: str, what: str = "") -> None:
        """Plays an event of the session."""
        if kind == "open":
            self._begin(int(where), what)
        elif kind == "turn":
            self._turn(int(where))
        elif kind == "close" and where[0] == "c":
            self._meter.drop(self._open.pop(int(where[1:])))
        elif kind == "close":
            self._meter.drop_channel(self._open[int(where[1:])])

    def _begin(self, number: int, role: str) -> None:
        """Opens a connection, and notes all its calls, which `turn` then sends."""
        connection = self._meter.connect(role)
        if connection.number != number:
            raise Fault(f"in virtual time connection {number} is {connection.number}")
        connection.on_service_request(
            lambda one: self._requests.append((one.xid, one.handle.decode("latin-1")))
        )
        captured = next(self._captured)
        self._open[number], self._left[number] = connection, deque(sent(captured))
        self._place[number] = len(self._done)
        self._done.append([])

    def _turn(self, number: int) -> None:
        """Sends the next call of a connection."""
        call, data, dials = self._left[number].popleft()
        self._meter.dials = dials
        again = _Sent(call.program, call.procedure, call.arguments, lambda _: None, 0, data)
        self._done[self._place[number]].append(self._open[number].start(again))

    def differences(self) -> list[str]:
        """The lines that say what differs from the capture."""
        told = []
        for captured, done in zip(self._session.connections, self._done):
            flow = captured.flow
            for place, reply in enumerate(flow.replies):
                wanted = bytes(flow.wanted[reply.start : reply.end])
                if place < len(done) and done[place]._body:
                    found = record(done[place]._body)
                else:
                    found = b""
                late = place < len(done) and (done[place].clock or 0) > self._ticks[reply.due]
                if found != wanted or late:
                    said = f"{found.hex() or 'none'} in virtual time" + " later" * late
                    told.append(
                        f"reply {place + 1} ({reply.name}) of {flow.name}: {wanted.hex()} in the capture, {said}"
                    )
        if self._requests != requested(self._session):
            told.append(
                f"service requests {requested(self._session)} in the capture, {self._requests} in virtual time"
            )
        return told

    def summary(self) -> str:
        """The line that says how much was the same."""
        count = sum(len(one.flow.replies) for one in self._session.connections)
        requests = counted(len(self._requests), "service request")
        return f"{counted(count, 'reply', 'replies')} and {requests} are the same in virtual time"


def sent(captured: Captured) -> list[tuple[CallMessage, bytes, bool]]:
    """The calls of a connection. Each comes with its bytes, and with whether the interrupt channel that it asks
    for was established.
    """
    found = []
    for place, one in enumerate(captured.records):
        call, dials = call_of(one.body), True
        if (
            place < len(captured.flow.replies)
            and name(call) == calls.NAMES[calls.CORE][calls.CREATE_INTR_CHAN]
        ):
            reply = captured.flow.replies[place]
            body = bytes(captured.flow.wanted[reply.start : reply.end])[len(record(b"")) :]
            dials = error_of(body, call.xid) != NOT_ESTABLISHED
        found.append((call, record(one.body), dials))
    return found


def requested(session: Session) -> list[Requested]:
    """The service requests of a session, in the order in which they came."""
    found: list[tuple[int, Requested]] = []
    for flow in session.channels.values():
        stream = RequestStream()
        for reply in flow.replies:
            for one in stream.push(bytes(flow.wanted[reply.start : reply.end])):
                found.append((reply.due, (one.xid, one.handle.decode("latin-1"))))
    return [one for _, one in sorted(found, key=lambda pair: pair[0])]
