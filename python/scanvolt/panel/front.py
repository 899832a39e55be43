"""What the panel shows of an instrument: the newest value of each thing, made of the lines of `scanvolt explain` (docs/STEPS.md).

Its size doesn't grow with the session.
"""

from __future__ import annotations

import collections
from dataclasses import dataclass, field

from ..explaining.lines import REGISTERS, Value, as_number, start_of, value_of

LOG = 60  # things that happened which are kept
# where a call has its procedure, and that of device_write, in hexadecimal digits
WRITE = slice(40, 48), "0000000b"
LAMPS = ("poll", "esr", *(f"{name}.{part}" for name in REGISTERS for part in ("cond", "event")))


@dataclass
class Port:
    """What is known of a connection: its role, the call that is taken and not answered, since when, and what it waits for."""

    role: str
    call: str = ""
    since: int = 0
    wait: str = "none"
    waited: int = 0


@dataclass
class Channel:
    """An input: its voltage in microvolts, its newest reading, the number of that, and its millisecond."""

    microvolts: int = 0
    reading: str = ""
    number: int = 0
    clock: int = 0
    set_at: int | None = None


@dataclass
class Happened:
    """A call with its reply, in hexadecimal digits, or an event of the script. `since` is when the call was taken."""

    clock: int
    what: str
    conn: int | None = None
    reply: str = ""
    since: int = 0


@dataclass
class Front:
    """The newest values. `take` has to get each line that the program prints, in order."""

    clock: int = 0
    values: dict[str, Value] = field(default_factory=dict)
    channels: dict[int, Channel] = field(default_factory=dict)
    ports: dict[int, Port] = field(default_factory=dict)
    log: collections.deque[Happened] = field(default_factory=lambda: collections.deque(maxlen=LOG))
    rises: dict[tuple[str, int], int] = field(default_factory=dict)  # how often each lamp was lit
    happened: int = 0  # calls that were answered, and inputs that were set
    unit: str = ""  # the newest program unit, in hexadecimal digits
    held: str = ""  # the unit that waits until the scan is idle
    writer: int | None = None  # the connection that wrote the message under way
    held_by: int | None = None
    held_at: int = 0
    lock_at: int = 0
    _words: list[str] = field(default_factory=list)
    _poll: int = 0
    _writes: int | None = None  # the connection whose write was taken last

    def value(self, name: str) -> Value:
        """A value now."""
        found = self.values.get(name)
        return start_of(name) if found is None else found

    def number(self, name: str) -> int:
        """A value now that is a number."""
        return as_number(self.value(name))

    def take(self, line: str, words: list[str]) -> None:
        """Takes a line that the program printed. Of a line `@`, `words` has the event."""
        kind, _, said = line.partition(" ")
        if kind == "=":
            name, _, rest = said.partition(" ")
            self._change(name, value_of(name, rest))
            return
        self._settle()
        if kind == "@":
            self._event(int(said.split(" ")[1]), words)
        elif kind == "-":
            self._step(*said.split(" "))
        elif kind == "refused":
            self._words = []
        elif kind[0] == "c":
            self._replied(int(kind[1:]), said)

    def _event(self, clock: int, words: list[str]) -> None:
        self._done()
        self.clock, self._words = clock, words

    def _done(self) -> None:
        """The event that was begun wasn't refused."""
        words, self._words = self._words, []
        if words[:1] == ["input"]:
            one = self.channels.setdefault(int(words[1]), Channel())
            one.microvolts, one.set_at = int(words[2]), self.clock
            self._note(Happened(self.clock, " ".join(words)))
        elif words[:1] == ["external"]:
            self._note(Happened(self.clock, "external"))

    def settle(self, clock: int) -> None:
        """All lines of the events until this time have been taken."""
        self._settle()
        self._done()
        self.clock = clock

    def _step(self, kind: str, *rest: str) -> None:
        if kind == "call":
            port = self._port(int(rest[0][1:]))
            port.call, port.since = rest[1], self.clock
            self._executes(int(rest[0][1:]))
        elif kind in ("unit", "interrupt"):
            self.unit = rest[1] if len(rest) > 1 else ""
            self.writer = self._writes if rest[0] == "0" else self.writer
        elif kind == "resume":
            self._executes(int(rest[0][1:]))

    def _executes(self, conn: int) -> None:
        where, write = WRITE
        if self._port(conn).call[where] == write:
            self._writes = conn

    def _port(self, conn: int) -> Port:
        return self.ports.setdefault(conn, Port("closed"))

    def _replied(self, conn: int, reply: str) -> None:
        port = self._port(conn)
        if port.call:
            self._note(Happened(self.clock, port.call, conn, reply, port.since))
        port.call = ""

    def _note(self, what: Happened) -> None:
        self.log.append(what)
        self.happened += 1

    def _change(self, name: str, new: Value) -> None:
        old = self.value(name)
        self.values[name] = new
        head, _, tail = name.partition(".")
        if name in LAMPS:
            self._rose(name, as_number(old), as_number(new))
        elif name == "reading":
            self._read(str(new))
        elif name == "held":
            self.held = "" if new == "none" else self.unit
            self.held_by = self.writer
            self.held_at = self.clock
        elif name == "lock":
            self.lock_at = self.clock
        elif head in ("link", "srq") and new in ("none", "off"):
            del self.values[name]
        elif head[0] == "c" and head[1:].isdigit():
            self._of_port(int(head[1:]), tail, str(new))

    def _of_port(self, conn: int, tail: str, new: str) -> None:
        if tail == "role" and new == "closed":
            self.ports.pop(conn, None)
        elif tail == "role":
            self.ports[conn] = Port(new)
        elif tail == "wait":
            port = self._port(conn)
            port.wait, port.waited = new, self.clock

    def _read(self, said: str) -> None:
        """A reading: its number, its channel, and what was read."""
        words = said.split()
        if len(words) == 3:
            one = self.channels.setdefault(int(words[1]), Channel())
            one.number, one.reading, one.clock = int(words[0]), words[2], self.clock

    def _settle(self) -> None:
        """A step has ended: the status byte as a poll would return it, with RQS in bit 6, is what it is now."""
        new = self.number("stb") & ~64 | self.number("rqs") << 6
        if new != self._poll:
            self._rose("poll", self._poll, new)
            self._poll = self.values["poll"] = new

    def _rose(self, name: str, old: int, new: int) -> None:
        for bit in range(16):
            if new & ~old & 1 << bit:
                self.rises[name, bit] = self.rises.get((name, bit), 0) + 1

    def is_due(self) -> bool:
        """Whether something comes as time passes: a reading, or a timeout."""
        return self.value("state") == "scanning" or any(
            not port.wait.endswith(("none", "never")) for port in self.ports.values()
        )
