"""A session as scanvolt met it: which events, in which order, and at which tick.

A sweep of `scanvolt serve` accepts connections, reads them, takes one call of each, dials, lets the whole
milliseconds pass that are over, and writes. So a call is taken when its last byte came, or after the reply
to the call before it. Milliseconds that were over when something came have passed before it: if the server
slept meanwhile, they were passed in a sweep of their own.
"""

from __future__ import annotations

from ..vxi11 import CallMessage, Reader, Record, RpcError, XdrError, calls, read_reply, words
from ..vxi11.errors import NOT_ESTABLISHED
from ..vxi11.rpc import RESULT_AT
from .flows import Connection, Flow, Point, Reply, name
from .packets import address
from .streams import Happening, Stream

MILLISECOND = 10**6
WRITING = 100_000  # from the beginning of a sweep to its write
READING = 50_000  # from a write to the next sweep's reads
TOGETHER = 500_000  # what comes within this many nanoseconds may be handled in one sweep
CONNECTIONS = 16
TOLD = {"core": 4096, "abort": 4097}  # the ports that the replaying server puts into replies
# Where a port begins in a result of create_link, and in one of GETPORT.
LINK_PORT, ASKED_PORT = len(words(0, 0)), 0


class Session:
    """What happened, point by point."""

    def __init__(
        self,
        streams: list[Stream],
        ports: dict[str, set[int]],
        end: int,
        start: int | None = None,
        as_told: bool = False,
    ) -> None:
        self._ports = ports
        self._as_told = as_told  # whether replies keep the ports that they tell
        self.points: list[Point] = []
        self._numbers: dict[int, Connection] = {}  # the connections that are open, by number
        self.connections: list[Connection] = []  # all that there were, in their order
        self.dropped = 0  # connections that the server dropped: it has room for sixteen
        self._by_stream: dict[int, Connection] = {}
        self.channels: dict[int, Flow] = {}  # the flows of interrupt channels, by their streams
        self.unseen = 0  # interrupt channels that the capture doesn't have
        roles = {port: role for role, found in ports.items() for port in found}
        self._roles = {id(one): roles.get(one.callee[1]) for one in streams}
        self._others = [one for one in streams if one.callee[1] not in roles]
        happenings = [what for one in streams for what in one.happenings]
        happenings.sort(key=lambda what: what.number)
        of_server = [what.time for what in happenings if self._roles[id(what.stream)]]
        self.told = start is not None  # whether --start was given
        # the time of the server's start
        self.start = start if start is not None else min(of_server, default=0)
        self.end = end  # the time of the last packet
        self._swept = self.start
        self._play(happenings)

    def _point(self, time: int) -> Point:
        """A new point, when a sweep began."""
        self._swept = max(self._swept, time)
        point = Point(time - self.start, (self._swept - self.start) // MILLISECOND)
        for number, connection in self._numbers.items():
            point.owners[f"c{number}"] = connection.flow
            if connection.channel:
                point.owners[f"i{number}"] = connection.channel
        self.points.append(point)
        return point

    def _here(self) -> int:
        return len(self.points) - 1

    def _play(self, happenings: list[Happening]) -> None:
        """Plays what happened. Calls that came together are taken in the order of their replies."""
        burst: list[Happening] = []
        for place, what in enumerate(happenings):
            server = self._roles[id(what.stream)]
            if server and what.kind in ("opened", "sent"):
                if burst and what.time - burst[-1].time > TOGETHER:
                    self._bring(burst, [])
                    burst = []
                burst.append(what)
            elif server or id(what.stream) in self.channels:
                self._bring(burst, answers(happenings[place : place + 2 * CONNECTIONS]))
                burst = []
                self._one(what, server)
        self._bring(burst, [])

    def _one(self, what: Happening, server: str | None) -> None:
        """Plays what the server did, or what happened on an interrupt channel."""
        if not server:
            self._on_channel(what)
        elif id(what.stream) in self._by_stream:
            connection = self._by_stream[id(what.stream)]
            if what.kind == "answered":
                self._answer(connection, what)
            else:
                self._close(connection, what)

    def _bring(self, burst: list[Happening], order: list[Stream]) -> None:
        """Plays a burst: connections open, bytes come, and calls are taken."""
        if not burst:
            return
        point = self._point(burst[0].time)
        for what in burst:
            if what.kind == "opened":
                self._open(what.stream, point)
            elif id(what.stream) in self._by_stream:
                self._by_stream[id(what.stream)].feed(what.data, point.lines)
        ready = [one for one in self._in_order(burst) if one.is_ready()]
        for connection in as_answered(ready, order):
            connection.turn(self._here(), point.lines)
        self._swept = max(self._swept, burst[-1].time)

    def _in_order(self, burst: list[Happening]) -> list[Connection]:
        """The connections on which bytes came, ordered by when their last bytes came."""
        found: list[Connection] = []
        for what in burst:
            connection = self._by_stream.get(id(what.stream))
            if connection is None:
                continue
            if connection in found:
                found.remove(connection)
            found.append(connection)
        return found

    def _open(self, stream: Stream, point: Point) -> None:
        """A connection opens under the lowest free number. If no number is free, it is dropped."""
        free = [number for number in range(CONNECTIONS) if number not in self._numbers]
        if not free:
            self.dropped += 1
            return
        role = self._roles[id(stream)]
        assert role is not None
        connection = Connection(stream, free[0], role)
        self._numbers[free[0]] = connection
        self._by_stream[id(stream)] = connection
        self.connections.append(connection)
        point.lines.append(f"open {free[0]} {connection.role}")
        point.owners[f"c{free[0]}"] = connection.flow

    def _close(self, connection: Connection, what: Happening) -> None:
        """A connection closes, and with it its interrupt channel."""
        point = self._point(what.time - WRITING)
        point.lines.append(f"close c{connection.number}")
        del self._numbers[connection.number]
        del self._by_stream[id(what.stream)]

    def _answer(self, connection: Connection, what: Happening) -> None:
        """The server sent bytes. A call that waited for the reply is taken."""
        point = self._point(what.time - WRITING)
        for record in connection.flow.push(what.data, point):
            self._reply(connection, record, point)
        lines: list[str] = []
        connection.feed(b"", lines)
        # A sweep that reads the end of the stream closes the connection, and takes no call.
        left = connection.stream.left
        ends = not lines and left is not None and left <= what.time + READING
        if lines or connection.is_ready() and not ends:
            point = self._point(self._swept)
            point.lines += lines
            if connection.is_ready():
                connection.turn(self._here(), point.lines)

    def _reply(self, connection: Connection, record: Record, point: Point) -> None:
        """A reply is complete. Handles what it says about ports and interrupt channels."""
        place, flow = len(connection.flow.replies), connection.flow
        turn = connection.turns[place] if place < len(connection.turns) else self._here()
        if place >= len(connection.calls):
            flow.replies.append(Reply(record.start, record.end, "no call", turn, self._here()))
            return
        call = connection.calls[place]
        flow.replies.append(Reply(record.start, record.end, name(call), turn, self._here(), call))
        kind = (call.program, call.procedure)
        if kind == (calls.CORE, calls.CREATE_LINK):
            self._tell_port(flow, record.start + RESULT_AT + LINK_PORT)
        elif kind == (calls.PORT_MAPPER, calls.GETPORT):
            self._tell_port(flow, record.start + RESULT_AT + ASKED_PORT)
        elif kind in ((calls.CORE, calls.CREATE_INTR_CHAN), (calls.CORE, calls.DESTROY_INTR_CHAN)):
            self._on_dial(connection, call, error_of(record.body, call.xid), point)

    def _tell_port(self, flow: Flow, place: int) -> None:
        """Puts the port of the replaying server in place of a port of this session."""
        if self._as_told:
            return
        for role, port in TOLD.items():
            for told in map(words, self._ports[role]):
                if flow.wanted[place : place + len(told)] == told:
                    flow.wanted[place : place + len(told)] = words(port)
                    return

    def _on_dial(
        self, connection: Connection, call: CallMessage, error: int | None, point: Point
    ) -> None:
        """What became of an interrupt channel, as the reply to a call about it says."""
        number = connection.number
        turn = self.points[connection.turns[len(connection.flow.replies) - 1]]
        creates = call.procedure == calls.CREATE_INTR_CHAN
        opens = creates and error == 0
        if connection.channel and (opens or not creates and error == NOT_ESTABLISHED):
            # The server noticed a failed write before this call.
            turn.lines.insert(turn.lines.index(f"turn {number}"), f"close i{number}")
        if opens:
            point.lines.append(f"dialed {number} ok")
            connection.channel = self._channel(call, turn)
            connection.channels.append(connection.channel)
            point.owners[f"i{number}"] = connection.channel
        elif creates and error == NOT_ESTABLISHED:
            point.lines.append(f"dialed {number} failed")
        elif not creates:
            connection.channel = None

    def _channel(self, call: CallMessage, turn: Point) -> Flow:
        """The flow of the interrupt channel that a call opened."""
        reader = Reader(call.arguments)
        end = (".".join(map(str, reader.take(4))), reader.word())
        for one in self._others:
            if one.callee == end and one.begun - self.start >= turn.time:
                self._others.remove(one)
                self.channels[id(one)] = Flow(one.name())
                return self.channels[id(one)]
        self.unseen += 1
        return Flow(f"interrupt channel to {address(end)}", loose=True)

    def _on_channel(self, what: Happening) -> None:
        """The server sent bytes on an interrupt channel, or its peer closed it."""
        flow = self.channels[id(what.stream)]
        if what.kind == "sent":
            point = self._point(what.time - WRITING)
            for record in flow.push(what.data, point):
                flow.replies.append(
                    Reply(record.start, record.end, "device_intr_srq", self._here(), self._here())
                )
        elif what.kind == "closed":
            flow.loose = True

    def flows(self) -> list[Flow]:
        """The flows of all connections and of the interrupt channels that the capture has."""
        return [one.flow for one in self.connections] + list(self.channels.values())


def error_of(body: bytes, xid: int) -> int | None:
    """The error at the start of a reply's result, if the reply has a result."""
    try:
        return Reader(read_reply(body, xid)).signed()
    except (RpcError, XdrError):
        return None


def answers(happenings: list[Happening]) -> list[Stream]:
    """The streams on which the server answers next, before anything else happens."""
    found = []
    for what in happenings:
        if what.kind != "answered":
            break
        found.append(what.stream)
    return found


def as_answered(ready: list[Connection], order: list[Stream]) -> list[Connection]:
    """The connections in the order in which they were answered. Those not in `order` keep their places."""
    places = {id(stream): place for place, stream in reversed(list(enumerate(order)))}
    answered = [one for one in ready if id(one.stream) in places]
    answered.sort(key=lambda one: places[id(one.stream)])
    rest = iter(answered)
    return [next(rest) if id(one.stream) in places else one for one in ready]
