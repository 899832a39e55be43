"""What a session is made of: points in time, connections, and what the server sends on each."""

from __future__ import annotations

from dataclasses import dataclass, field

from ..vxi11 import CallMessage, Record, Records, XdrError, name_of, read_call
from .streams import Stream

ROOM = 16384  # bytes of a connection that the server has room for
LONGEST = 8192  # bytes of a record


@dataclass
class Point:
    """A moment of the session: how many ticks passed before it, the lines of what happens then, and for each
    name in what the replay prints, a connection (c0) or an interrupt channel (i0), the flow that it means.
    """

    time: int
    ticks: int
    lines: list[str] = field(default_factory=list)
    owners: dict[str, Flow] = field(default_factory=dict)
    # What the replay has to have sent by now: a flow, and how many of its bytes.
    due: list[tuple[Flow, int]] = field(default_factory=list)


@dataclass
class Reply:
    """A reply, or a call on an interrupt channel: where it lies in its flow, the name of the call, the points
    of its turn and of its reply, and the call itself if there is one.
    """

    start: int
    end: int
    name: str
    turn: int
    due: int
    call: CallMessage | None = None


class Flow:
    """The bytes that the server sends on one stream, as the capture has them."""

    def __init__(self, name: str, loose: bool = False) -> None:
        self.name = name
        self.wanted = bytearray()  # all bytes that were sent
        self._records = Records()
        self.replies: list[Reply] = []
        # Bytes after these aren't compared: the capture doesn't have the stream, or the peer closed it.
        self.loose = loose

    def push(self, data: bytes, point: Point) -> list[Record]:
        """Takes bytes that were sent at this point. Returns the records that are complete now."""
        self.wanted += data
        point.due.append((self, len(self.wanted)))
        return self._records.push(data)


class Connection:
    """A connection to the server: what came on it, and which of its calls were taken."""

    def __init__(self, stream: Stream, number: int, role: str) -> None:
        self.stream = stream
        self.number = number
        self.role = role
        self.flow = Flow(stream.name())  # what the server sends on it
        self._asks = Records()
        self._backlog = b""  # bytes that the server has no room for yet
        self.records: list[Record] = []  # those that came
        self.calls: list[CallMessage] = []
        self.turns: list[int] = []  # the point of each turn
        self.channel: Flow | None = None  # the flow of its interrupt channel
        self.channels: list[Flow] = []  # of all that it had, in their order

    def _room(self) -> int:
        """How many more bytes of the connection the server takes (docs/RULES.md says how: sv_rpc RecordBuf)."""
        left = self._asks.left
        if left is not None and len(self._asks.body) + left > LONGEST:
            return 0
        unanswered = self.records[len(self.flow.replies) :]
        kept = sum(4 + len(record.body) for record in unanswered)
        return max(0, ROOM - kept - self._asks.held())

    def feed(self, data: bytes, lines: list[str]) -> None:
        """Gives the server as many bytes as it has room for; the others follow later."""
        self._backlog += data
        while self._backlog and self._room():
            piece, self._backlog = self._backlog[: self._room()], self._backlog[self._room() :]
            lines.append(f"bytes {self.number} {piece.hex()}")
            found = self._asks.push(piece)
            self.records += found
            self.calls += [call_of(record.body) for record in found]

    def is_ready(self) -> bool:
        """Whether its next call can be taken: the calls before it have their replies."""
        return len(self.turns) == len(self.flow.replies) < len(self.calls)

    def turn(self, place: int, lines: list[str]) -> None:
        """Takes the connection's next call, at the point of this place."""
        self.turns.append(place)
        lines.append(f"turn {self.number}")


def call_of(body: bytes) -> CallMessage:
    """The call in a record; a call of program 0 if there is none."""
    try:
        return read_call(body)
    except XdrError:
        return CallMessage(0, 0, 0, 0, b"")


def name(call: CallMessage) -> str:
    """The name of a call's procedure."""
    return name_of(call.program, call.procedure) if call.program else "a call that can't be read"


def reply_at(flow: Flow, place: int) -> Reply | None:
    """The reply that has this byte of a flow, if there is one."""
    return next((reply for reply in flow.replies if reply.end > place), None)
