"""Faults on order in virtual time: `Meter.faults`."""

from __future__ import annotations

from dataclasses import dataclass
from typing import TYPE_CHECKING

from ..program import ProgramError
from ..vxi11 import ServiceRequest, words
from ..vxi11.calls import ABORT, CORE, NAMES
from ..vxi11.errors import NAMES as ERRORS
from ..vxi11.rpc import encode_reply, mark
from ..vxi11.timeouts import milliseconds as checked
from ..vxi11.whole import WORD, whole
from .told import Told

if TYPE_CHECKING:
    from ..connection import Connection, Pending
    from ..virtual import Meter

__tracebackhide__ = True  # pytest shows the line that calls the package, and not these frames
CALLS = sorted({name for program in (CORE, ABORT) for name in NAMES[program].values()})
MARK = len(mark(0))  # bytes of a reply that come before its record
HOW = "on order of meter.faults"


@dataclass
class Order:
    """A fault that was ordered and hasn't come: its kind, for which call and connection, if only for some, and how much."""

    kind: str
    call: str | None = None
    connection: Connection | None = None
    much: int = 0

    def fits(self, connection: Connection, call: str) -> bool:
        """Whether it is for this call of this connection."""
        return self.call in (None, call) and self.connection in (None, connection)

    def __str__(self) -> str:
        given = [repr(self.call)] if self.call else []
        given += [str(self.much)] if self.much else []
        return f"{self.kind}({', '.join(given)})"


class Faults:
    """The faults of a meter: those that are ordered, and those that came.

    Each order is for the one next call that it fits: `call` is a name of VXI-11, such as device_read, and
    `connection` a Connection of the meter; without them any call fits. Orders of one kind are taken in their order.
    """

    def __init__(self, meter: Meter) -> None:
        self._meter = meter
        self.ordered: list[Order] = []  # faults that haven't come
        self.told: list[Told] = []  # faults that came
        # replies that come at a time
        self._late: list[tuple[int, Connection, Pending[object], bytes]] = []
        self._cut: list[tuple[Connection, ConnectionError]] = []  # connections to be closed

    def __repr__(self) -> str:
        return f"<Faults: {len(self.ordered)} ordered, {len(self.told)} came>"

    def next(self, call: str, error: int = 17, connection: Connection | None = None) -> None:
        """The next such call is answered with this VXI-11 error, 1 to 4,294,967,295. The instrument isn't asked."""
        self._order(
            "next", call, connection, whole(error, 1, WORD, "a fault wants the number of an error")
        )

    def drop_after(
        self, bytes: int, call: str | None = None, connection: Connection | None = None
    ) -> None:
        """The connection ends after this many bytes of the next reply. The instrument has executed the call.

        A reply begins with the 4 bytes that mark its record. If it has no more than `bytes` bytes, it comes whole, and
        then the connection ends.
        """
        self._order(
            "drop_after",
            call,
            connection,
            whole(bytes, 0, WORD, "drop_after wants a number of bytes"),
        )

    def delay(
        self, milliseconds: int, call: str | None = None, connection: Connection | None = None
    ) -> None:
        """The next reply comes this many milliseconds late, and replies behind it no earlier."""
        self._order("delay", call, connection, checked(milliseconds, "delay"))

    def lose_request(self, connection: Connection | None = None) -> None:
        """The next service request is lost on its way to the client."""
        self._order("lose_request", None, connection, 0)

    def close(self, call: str | None = None, connection: Connection | None = None) -> None:
        """The connection of the next call ends before the call comes to the instrument."""
        self._order("close", call, connection, 0)

    def withdraw(self) -> None:
        """Withdraws all orders of faults that haven't come."""
        with self._meter._guard:
            self.ordered.clear()

    def _order(self, kind: str, call: str | None, connection: Connection | None, much: int) -> None:
        if call is not None and call not in CALLS:
            raise ValueError(f"no call of VXI-11: {call!r}; there are {', '.join(CALLS)}")
        with self._meter._guard:
            self.ordered.append(Order(kind, call, connection, much))

    def _taken(self, connection: Connection, call: str, *kinds: str) -> Order | None:
        """Takes the first order of these kinds that fits."""
        found = next(
            (one for one in self.ordered if one.kind in kinds and one.fits(connection, call)), None
        )
        if found is not None:
            self.ordered.remove(found)
        return found

    def _tell(self, who: str, said: str) -> str:
        """Notes a fault for the traces."""
        replay = self._meter._replay
        try:
            line = len(replay.script())
        except ProgramError:  # the session became too long to be told
            line = 0
        self.told.append(Told(line, self._meter.clock, who, said))
        return said

    def _before(self, pending: Pending[object]) -> ConnectionError | None:
        """Does what is ordered before a call comes to the instrument: makes its reply, or says why its connection ends."""
        connection, call = pending.connection, pending.call
        order = self._taken(connection, call.name, "next", "close") if self.ordered else None
        if order is None:
            return None
        if order.kind == "close":
            told = self._tell(
                who(pending), f"the connection ended before {call.name} came to the instrument"
            )
            return ConnectionError(f"{told}: {HOW}")
        named = f"{order.much}, {ERRORS.get(order.much, 'reserved error')}"
        pending._made = encode_reply(pending.xid, words(order.much))[MARK:]
        told = self._tell(
            who(pending),
            f"{call.name} was answered with error {named}; the instrument wasn't asked",
        )
        pending._note = f"{told}: {HOW}"
        return None

    def _reply(self, pending: Pending[object], body: bytes) -> bool:
        """Does what is ordered for a reply of the instrument. Returns whether the reply comes at another time, or not."""
        clock, connection, name = self._meter.clock, pending.connection, pending.call.name
        order = self._taken(connection, name, "delay", "drop_after") if self.ordered else None
        if order is not None and order.kind == "drop_after":
            size = min(order.much, MARK + len(body))
            told = self._tell(
                who(pending),
                f"the connection ended after {size} of {MARK + len(body)} bytes of the reply to {name}",
            )
            fault = ConnectionError(f"{told}: {HOW}")
            self._cut.append((connection, fault))
            if size < MARK + len(body):
                pending._end(clock, fault=fault)
                return True
        elif order is not None:
            self._tell(who(pending), f"the reply to {name} comes {order.much} ms late")
            return self._comes_later(pending, body, clock + order.much)
        return self._comes_later(pending, body)

    def _comes_later(self, pending: Pending[object], body: bytes, clock: int = 0) -> bool:
        """Whether a reply comes later than now: at this millisecond, or behind a late one of its connection. Then keeps it."""
        clock = max([clock] + [one[0] for one in self._late if one[1] is pending.connection])
        if clock <= self._meter.clock:
            return False
        self._late.append((clock, pending.connection, pending, body))
        return True

    def _loses(self, connection: Connection, request: ServiceRequest) -> bool:
        """Whether a service request of the instrument is lost."""
        order = self._taken(connection, "", "lose_request") if self.ordered else None
        if order is not None:
            self._tell(
                f"c{connection.number}",
                f"the service request {request.xid}, handle {request.handle!r}, was lost",
            )
        return order is not None

    def _at_most(self, most: int) -> int:
        """How many of these milliseconds may pass up to the next reply that is late."""
        return min([one[0] - self._meter.clock for one in self._late] + [most])

    def _come(self) -> None:
        """Ends the calls whose late replies come now."""
        due = [one for one in self._late if one[0] <= self._meter.clock]
        self._late = [one for one in self._late if one[0] > self._meter.clock]
        for _, _, pending, body in due:
            pending._end(self._meter.clock, body)

    def _gone(self, connection: Connection, reason: Exception) -> None:
        """Ends the calls whose late replies won't come, since their connection ended."""
        for _, other, pending, _ in self._late:
            if other is connection:
                pending._end(self._meter.clock, fault=reason)
        self._late = [one for one in self._late if one[1] is not connection]


def who(pending: Pending[object]) -> str:
    """The connection and the link of a call, as the timeline names them."""
    link = getattr(pending.call, "link", 0)
    return f"c{pending.connection.number}" + (f" link {link}" if link else "")
