"""A second program that is where the session ended, and to which something more happens: the calls that wait are watched."""

from __future__ import annotations

from ..program import ProgramError
from ..replay import PROBE, SEEN, Program, pieces, ticks
from ..vxi11 import CallMessage, Records, calls, read_call
from ..vxi11.calls import Call as Sent
from ..vxi11.whole import WORD
from .calls import answer
from .lines import Value
from .story import Story

INPUT_REFUSED = 8  # what the probe prints (replay.py); lines of the script may print it too
BATCH = 64  # single milliseconds that are asked for at once
PLACES = 16  # connections that the instrument has room for
MESSAGE = ("input", "response")  # what calls wait for while a message is under way
Seen = tuple[int, str, str]  # when a call was answered, its reply, and what was being done


class Trial:
    """A trial. `ended` has the calls that were answered, by number; `doing` is what is being tried."""

    def __init__(self, story: Story, path: str) -> None:
        self.story, self.clock, self.doing = story, story.clock, ""
        self.ended: dict[int, Seen] = {}
        self._told: list[tuple[CallMessage, bytes]] = []  # replies to calls of this trial
        self._queues: dict[int, list[tuple[int | None, CallMessage]]] = {}
        self._records: dict[int, Records] = {}
        self._xid = WORD - PLACES * PLACES
        for call in story.calls:
            if call.is_open:
                self._queues.setdefault(call.conn, []).append((call.number, call.message))
        self.log: list[str] = []  # the lines that were added to the session
        self._late: list[int] = []  # connections whose next call is to be taken
        self.program = Program(path)

    def begin(self) -> None:
        """Brings the program to where the session ended."""
        refused: dict[int, int] = {}
        for moment in self.story.moments:
            if moment.refused == INPUT_REFUSED:
                refused[moment.line] = refused.get(moment.line, 0) + 1
        start, lines = 1, "".join(line + "\n" for line in self.story.script).encode("latin-1")
        for piece in pieces(lines):
            count = piece.count(b"\n")
            self.program.ask(
                piece + PROBE, 1 + sum(refused.get(one, 0) for one in range(start, start + count))
            )
            start += count

    def do(self, lines: str) -> None:
        """Lets events happen, and then what calls do next that come behind answered ones."""
        self.log += lines.splitlines()
        self._take(self.program.ask(lines.encode() + PROBE)[: -len(SEEN)])

    def pass_time(self, milliseconds: int) -> None:
        """Lets time pass, millisecond by millisecond."""
        while milliseconds > 0:
            count = min(BATCH, milliseconds)
            self.log += ["tick"] * count
            parts = self.program.ask((b"tick\n" + PROBE) * count, count).split(SEEN)
            for place, part in enumerate(parts[:count]):
                self.clock += 1
                if part:
                    self._take(part, place < count - 1)
            milliseconds -= count
            while self._late:
                self.do(f"turn {self._late.pop(0)}\n")

    def skip(self, milliseconds: int) -> None:
        """Lets time pass in which nothing is due, at once."""
        if milliseconds > 0:
            self.log += ticks(milliseconds).decode().splitlines()
            self.program.ask(ticks(milliseconds) + PROBE)
            self.clock += milliseconds

    def send(self, conn: int, call: Sent[object], watched: int | None = None) -> None:
        """Sends a call on a connection, and has it taken if none is before it. `watched` is a number for `ended`."""
        self._xid += 1
        data = call.encode(self._xid)
        message = read_call(Records().push(data)[0].body)
        queue = self._queues.setdefault(conn, [])
        queue.append((watched, message))
        self.do(f"bytes {conn} {data.hex()}\n" + (f"turn {conn}\n" if len(queue) == 1 else ""))

    def close(self, conn: int) -> None:
        """Closes a connection: its calls get no reply."""
        for number, _ in self._queues.pop(conn, []):
            if number is not None:
                self.ended[number] = (self.clock, "no reply, its connection is closed", self.doing)
        self.do(f"close c{conn}\n")

    def fresh(self, role: str = "core") -> int:
        """Opens a connection that nobody has. Raises ValueError if all are taken."""
        number = next(
            (
                one
                for one in range(PLACES)
                if one not in self._queues and self.value(f"c{one}.role") == "closed"
            ),
            None,
        )
        if number is None:
            raise ValueError("all connections are taken")
        self._queues[number] = []
        self.do(f"open {number} {role}\n")
        return number

    def link(self, conn: int) -> int:
        """Makes a link on a connection of this trial. Raises ValueError if there is none left."""
        before = len(self._told)
        self.send(conn, calls.create_link())
        number = answer(*self._told[-1]).value if len(self._told) > before else None
        if number is None:
            raise ValueError("all links are taken")
        return number

    def is_over(self) -> bool:
        """Whether no call that waited for a message waits any more."""
        return not any(
            self.story.calls[number].waits and self.story.calls[number].waits[-1].what in MESSAGE
            if number >= 0
            else True
            for queue in self._queues.values()
            for number, _ in queue[:1]
            if number is not None
        )

    def value(self, name: str) -> Value:
        """A value at the end of the session."""
        return self.story.value(name)

    def _take(self, printed: bytes, is_late: bool = False) -> None:
        """Takes what was printed. If milliseconds have passed since, calls behind answered ones are taken after these."""
        for line in printed.splitlines():
            port, _, said = line.partition(b" ")
            if port[:1] != b"c":
                continue
            conn = int(port[1:])
            for record in self._records.setdefault(conn, Records()).push(
                bytes.fromhex(said.decode())
            ):
                self._answered(conn, record.body, is_late)

    def _answered(self, conn: int, body: bytes, is_late: bool) -> None:
        queue = self._queues.get(conn)
        if not queue:
            raise ProgramError("a second program prints otherwise")
        number, message = queue.pop(0)
        if number is None:
            self._told.append((message, body))
        else:
            self.ended[number] = (self.clock, answer(message, body).words, self.doing)
        if queue and is_late:
            self._late.append(conn)
        elif queue:
            self.do(f"turn {conn}\n")
