"""The same instrument twice: `Meter.fork` plays its history to a second program."""

from __future__ import annotations

import copy
from typing import TYPE_CHECKING, Any, TypeVar, Union, cast

from .connection import Connection, Pending
from .vxi11 import Link, Made

if TYPE_CHECKING:
    from .virtual import Meter

__tracebackhide__ = True  # pytest shows the line that calls the package, and not these frames
One = TypeVar("One", bound=Union[Connection, Link, Pending[Any]])


class Twins:
    """Which connections and calls of a meter stand for which of the meter from which it was forked."""

    def __init__(self) -> None:
        self._connections: dict[int, Connection] = {}
        self._pending: dict[int, Pending[object]] = {}
        # the first ones: while they are kept, no other object has their id
        self._kept: list[object] = []

    def _add(self, first: object, twin: Connection | Pending[object]) -> None:
        self._kept.append(first)
        if isinstance(twin, Connection):
            self._connections[id(first)] = twin
        else:
            self._pending[id(first)] = twin

    def of(self, one: One) -> One:
        """The twin of a connection, a link or a call that was open at the fork. Raises ValueError for any other."""
        found: object = None
        if isinstance(one, Link):
            carrier = self._connections.get(id(one.carrier))
            if carrier is not None:
                found = Link(
                    carrier,
                    Made(one.number, one.abort_port, one.most),
                    one.io_timeout,
                    one.lock_timeout,
                )
        else:
            found = self._connections.get(id(one)) or self._pending.get(id(one))
        if found is None:
            raise ValueError(f"it wasn't open, or didn't wait, at the fork of this meter: {one!r}")
        return cast(One, found)


def fork(meter: Meter) -> Meter:
    """A second instrument that is as this one is now: see Meter.fork."""
    with meter._guard:
        twin = type(meter)(meter._replay.path, patience=meter.patience, call_time=meter.call_time)
        try:
            twin._replay.repeat(meter._replay)
        except BaseException:
            twin.close()
            raise
        twin._ahead, twin.clock, twin.dials = meter._ahead.copy(), meter.clock, meter.dials
        twin._sent, twin._handed = meter._sent, meter._handed
        for number, connection in meter.connections.items():
            twin.connections[number] = _connection(connection, twin)
        twin.faults.told = list(meter.faults.told)
        twin.faults.ordered = [copy.copy(one) for one in meter.faults.ordered]
        for order in twin.faults.ordered:
            if order.connection is not None:
                order.connection = twin._twins._connections.get(
                    id(order.connection), order.connection
                )
        for clock, connection, pending, body in meter.faults._late:
            other = twin._twins.of(connection)
            twin.faults._late.append((clock, other, _pending(pending, other), body))
        return twin


def _connection(first: Connection, twin: Meter) -> Connection:
    """The connection of a twin: as the first, but its service requests go into its queue."""
    made = Connection(twin, first.number, first.role)
    made.has_channel, made._xid = first.has_channel, first._xid
    for request in list(first.requests.queue.queue):
        made.requests.queue.put(request)
    twin._twins._add(first, made)
    made._pending.extend(_pending(one, made) for one in first._pending)
    return made


def _pending(first: Pending[object], connection: Connection) -> Pending[object]:
    """A call of a twin that isn't answered."""
    made = Pending(connection, first.call, first.xid)
    made._turned, made._made, made._note = first._turned, first._made, first._note
    connection.meter._twins._add(first, made)
    return made
