"""The story of a session: calls and their replies, waits, held units, and which call brought each unit. It is put together from
the script and from what `scanvolt explain` prints about it.
"""

from __future__ import annotations

from collections.abc import Sequence
from dataclasses import dataclass, field

from ..capturing.flows import call_of, name
from ..faults.told import Told
from ..vxi11 import CallMessage, Reader, Records, RequestStream
from ..vxi11 import words as words_of
from .calls import Answer, Arguments, answer, arguments
from .lines import Change, Lines, Moment, Step, Value, start_of
from .messages import Text


@dataclass
class Wait:
    """A wait: for what (`lock`, `input`, `response`, `dial`), on which link, until when at most, from which step to which."""

    what: str
    link: int | None
    deadline: int | None
    begin: Step
    end: Step | None = None

    def is_on(self, number: int) -> bool:
        """Whether the call waits after the step of this number."""
        return self.begin.number <= number and (self.end is None or self.end.number > number)


@dataclass(eq=False)
class Call:
    """A call: when it came, was taken, and was answered. If its connection closed before, `gone` says when."""

    number: int
    conn: int
    message: CallMessage
    arrived: Moment
    name: str
    arguments: Arguments
    link: int | None = None
    turned: Moment | None = None
    ended: Moment | None = None
    gone: Moment | None = None
    answer: Answer | None = None
    waits: list[Wait] = field(default_factory=list)

    @property
    def words(self) -> str:
        """Its name and arguments."""
        return (f"{self.name} {self.arguments.more}").rstrip()

    @property
    def who(self) -> str:
        """Its connection and link: `c0 link 1`."""
        return f"c{self.conn}" + (f" link {self.link}" if self.link else "")

    @property
    def is_open(self) -> bool:
        """Whether it isn't answered, and still can be."""
        return self.ended is None and self.gone is None

    @property
    def reply(self) -> Answer:
        """Its reply, or that there is none."""
        return self.answer or Answer("no reply")


@dataclass
class Held:
    """A unit that waits until the scan is idle, and the step that ended that."""

    unit: Step
    until: Step | None = None


class _Port:
    """What is known of a connection while the story is read: its calls that aren't answered, and its bytes."""

    def __init__(self) -> None:
        self.queue: list[Call] = []
        self.asks, self.replies = Records(), Records()
        self.channel = RequestStream()


class Story:
    """The story of a session."""

    def __init__(self, lines: Lines) -> None:
        # what the program printed, and the script
        self.lines, self.moments, self.script = lines, lines.moments, lines.script
        self.clock = lines.clock or 0  # the millisecond of the end
        self.calls: list[Call] = []  # all of them, in the order in which they came
        self.held: list[Held] = []  # all held units
        self.owners: dict[int, int] = {}  # the connection of each link that ever was
        self.of_moment: dict[int, Call] = {}  # the call that a moment's event takes or ends
        self._of_step: dict[int, Call | None] = {}
        self.replied: dict[int, list[Call]] = {}  # the calls that were answered in a moment
        self.came: dict[int, list[Call]] = {}  # the calls whose last byte came in a moment
        # service requests: connection, handle
        self.requests: dict[int, list[tuple[int, bytes]]] = {}
        self.faults: Sequence[Told] = ()  # on order, in their order
        self._strays: list[Step] = []  # units whose bytes aren't in what was written
        # whose text is executed when a wait begins, by the step of that
        self.executed: dict[int, Call] = {}
        self._ports: dict[int, _Port] = {}
        self._of_conn: dict[int, list[Call]] = {}
        for moment in self.moments:
            self._events(moment)
        self._text = Text()
        self._running: Call | None = None  # the call that wrote the newest unit
        for moment in self.moments:
            for step in moment.steps:
                self._look(moment, step)

    # calls and replies
    def _events(self, moment: Moment) -> None:
        """What an event does to calls."""
        words = moment.words
        if moment.refused is None:
            if words[0] == "open":
                self._ports[int(words[1])] = _Port()
            elif words[0] == "bytes":
                self._bytes(moment, int(words[1]), bytes.fromhex("".join(words[2:])))
            elif moment.taken is not None or words[0] == "refuse":
                call = next(
                    (one for one in self._ports[int(words[1])].queue if one.turned is None), None
                )
                if call is not None:
                    self.of_moment[moment.number], call.turned = call, moment
            elif words[0] == "dialed":
                self.of_moment.update(
                    (moment.number, call) for call in self._ports[int(words[1])].queue[:1]
                )
        for port, data in moment.output.items():
            self._printed(moment, port[0], int(port[1:]), data)
        for change in moment.changes():
            self._connection(moment, change)

    def _bytes(self, moment: Moment, conn: int, data: bytes) -> None:
        port = self._ports[conn]
        for record in port.asks.push(data):
            message = _message(record.body)
            call = Call(len(self.calls), conn, message, moment, name(message), arguments(message))
            call.link = call.arguments.link
            self.calls.append(call)
            self._of_conn.setdefault(conn, []).append(call)
            port.queue.append(call)
            self.came.setdefault(moment.number, []).append(call)

    def _printed(self, moment: Moment, kind: str, conn: int, data: bytes) -> None:
        port = self._ports[conn]
        if kind == "i":
            self.requests.setdefault(moment.number, []).extend(
                (conn, one.handle) for one in port.channel.push(data)
            )
            return
        for record in port.replies.push(data):
            call = port.queue.pop(0)
            call.ended, call.answer = moment, answer(call.message, record.body)
            if call.name == "create_link" and call.answer.value:
                call.link = call.answer.value
            self.replied.setdefault(moment.number, []).append(call)

    def _connection(self, moment: Moment, change: Change) -> None:
        """What a change says about connections and links."""
        head, _, tail = change.name.partition(".")
        if head == "link" and change.new != "none":
            self.owners[int(tail)] = int(str(change.new)[1:])
        elif tail == "open" and change.new == 1:
            self._ports[int(head[1:])].channel = RequestStream()
        elif tail == "role" and change.new == "closed" or tail == "faulted" and change.new == 1:
            port = self._ports[int(head[1:])]
            taken = [one for one in port.queue if one.turned is not None]
            for call in port.queue if tail == "role" else taken:
                call.gone = moment
            port.queue = [call for call in port.queue if call.gone is None]

    # steps
    def _look(self, moment: Moment, step: Step) -> None:
        """Finds out whose a step is, and what it says about waits, text and held units."""
        call = self._running
        if step.kind == "event":
            call = self.of_moment.get(moment.number)
        elif step.conn is not None:
            call = self._current(step.conn, moment)
        if step.kind in ("event", "resume") and call is not None and moment.kind != "dialed":
            self._executed(moment, step, call)
        if step.is_unit:
            call = self._running = self._text.writer(step.place, step.text)
            if call is None:
                self._strays.append(step)
        elif step.kind == "finish":
            self._text.end()
        self._of_step[step.number] = call
        for change in step.changes:
            if change.name.endswith(".wait"):
                self._wait(change, int(change.name[1:-5]), moment)
            elif change.name == "held" and change.new != "none":
                self.held.append(Held(step))
            elif change.name == "held" and self.held:
                self.held[-1].until = step

    def _executed(self, moment: Moment, step: Step, call: Call) -> None:
        """What a call that is executed does to the text that came."""
        wait = step.of(f"c{call.conn}.wait")
        done = call.ended is moment and (wait is None or wait.new == "none")
        if not done or call.answer is None or call.answer.error is None:
            return
        if call.name == "device_write" and call.answer.error == 0:
            self._text.add(call)
        elif call.name == "device_clear" and call.answer.error == 0:
            self._text.drop()
        else:
            text = step.of("text")
            if text is not None and text.new == 0:
                self._text.drop()

    def _current(self, conn: int, moment: Moment) -> Call | None:
        """The call of a connection that waits before or in this moment."""
        return next(
            (
                one
                for one in reversed(self._of_conn.get(conn, ()))
                if one.turned
                and one.turned.number <= moment.number
                and (one.ended is None or one.ended.number >= moment.number)
            ),
            None,
        )

    def _wait(self, change: Change, conn: int, moment: Moment) -> None:
        call = self._current(conn, moment)
        if call is None:
            return
        if call.waits and call.waits[-1].end is None:
            call.waits[-1].end = change.step
        if change.new != "none":
            what, link, deadline = str(change.new).split()
            call.waits.append(
                Wait(
                    what,
                    None if link == "none" else int(link),
                    None if deadline == "never" else int(deadline),
                    change.step,
                )
            )
            if self._text.pieces:
                self.executed[change.step.number] = self._text.pieces[-1][1]

    # questions
    @property
    def end(self) -> int:
        """The number of the last step."""
        return len(self.lines.steps) - 1

    def value(self, name: str) -> Value:
        """A value at the end."""
        return self.lines.now.get(name, start_of(name))

    def call_of(self, step: Step) -> Call | None:
        """The call to which a step belongs: the one that is taken or resumes, or that wrote the unit."""
        return self._of_step.get(step.number)

    def held_at(self, step: Step) -> Step | None:
        """The unit that is held after a step, or that this step releases."""
        return next(
            (
                one.unit
                for one in reversed(self.held)
                if one.unit.number <= step.number
                and (one.until is None or one.until.number >= step.number)
            ),
            None,
        )

    def waiting(self) -> list[Call]:
        """The calls that still wait, in the order in which they were taken."""
        found = [
            one for one in self.calls if one.is_open and one.waits and one.waits[-1].end is None
        ]
        return sorted(found, key=lambda one: one.waits[0].begin.number)

    def unfinished(self) -> list[tuple[int, int]]:
        """The open connections on which a call came that isn't whole, and how many bytes of it."""
        found = [
            (conn, port.asks.count - port.asks.start) for conn, port in sorted(self._ports.items())
        ]
        return [
            (conn, count)
            for conn, count in found
            if count and self.value(f"c{conn}.role") != "closed"
        ]

    def behind(self, call: Call) -> list[Call]:
        """The calls that came after it on its connection and aren't answered."""
        return [
            one
            for one in self._of_conn.get(call.conn, ())
            if one.number > call.number and one.is_open
        ]


def _message(body: bytes) -> CallMessage:
    """The call in a record. One of another version of RPC has only its number."""
    found = call_of(body)
    if found.program or len(body) < len(words_of(0)):
        return found
    return CallMessage(Reader(body).word(), 0, 0, 0, b"")


def call_words(call: Call | None) -> str:
    """A call with its link, in words."""
    return "a call" if call is None else f"{call.words} ({call.who})"


def call_list(calls: Sequence[Call], most: int = 3) -> str:
    """Calls in a row; of many, the first."""
    more = len(calls) - most
    return ", ".join(map(call_words, calls[:most])) + (f" and {more} more" if more > 0 else "")
