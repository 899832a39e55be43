"""The causes of a bit that flipped, back through the status model.

Which bit sums up which registers, and which class of errors sets which event, are the tables of tables.py. What is left are
the rules of docs/INSTRUMENT.md, Status: RQS, MAV, the error queue, events with their filters, and the conditions of a reading.
"""

from __future__ import annotations

import functools
from dataclasses import dataclass, field

from .doers import Doers
from .lines import Change, Step, Value, as_number
from .tables import CLASSES, SUMS
from .telling import numbers
from .words import LABELS, SOURCES, a, bit_name, counted, error, reading, stands, unit, volts

DEPTH = 8  # causes of causes that are told
RQS, MAV, QUEUE, OPC = 6, 4, 2, 0  # bits of the status byte, and of the standard events
MASTER = 1 << RQS
SET_BY_COMMANDS = ("sre", "ese", ".enable", ".ptr", ".ntr")


@dataclass
class Node:
    """A cause: words, the step at which it came about, and its own causes."""

    text: str
    step: Step | None = None
    children: list[Node] = field(default_factory=list)


class Model:
    """Finds the causes of bits."""

    def __init__(self, doers: Doers) -> None:
        self._doers = doers
        self._telling = doers.telling
        self._story = doers.story
        self._lines = doers.lines

    def title(self, name: str, bit: int) -> str:
        """A bit's name for people: `STB.RQS`."""
        return f"{LABELS[name].replace(' ', '.')}.{bit_name(name, bit)}"

    def flip(self, name: str, bit: int, number: int, new: int | None = None) -> Change | None:
        """The newest change of a bit, at most at the step of this number; to this value if one is given."""
        return self._lines.last(
            name,
            number,
            lambda one: (as_number(one.old) ^ as_number(one.new)) >> bit & 1 == 1
            and (new is None or as_number(one.new) >> bit & 1 == new),
        )

    def bit(self, name: str, bit: int, number: int, depth: int = 0) -> Node:
        """Why a bit is what it is after a step."""
        value, change = self._lines.bits(name, number) >> bit & 1, self.flip(name, bit, number)
        word = "set" if value else "clear"
        if change is None:
            return Node(f"{self.title(name, bit)} is {word}, and was so at power on")
        node = Node(
            f"{self.title(name, bit)} has been {word} since {self._doers.by(change.step)}",
            change.step,
        )
        if depth < DEPTH:
            node.children = self.causes(name, bit, value, change, depth + 1)
        return node

    def causes(self, name: str, bit: int, value: int, change: Change, depth: int) -> list[Node]:
        """What made a bit flip: there is always a cause, except for registers that only commands set."""
        step = change.step
        if name.endswith(SET_BY_COMMANDS):
            return []
        found = self._found(name, bit, value, step, depth)
        return found or [
            Node(f"that was so for a moment within this step, {self._doers.what(step)}", step)
        ]

    def _found(self, name: str, bit: int, value: int, step: Step, depth: int) -> list[Node]:
        if (name, bit) in SUMS:
            return self._sum(SUMS[name, bit], value, step, depth)
        if name == "poll":
            return {RQS: self._request, MAV: self._response, QUEUE: self._queue}[bit](
                value, step, depth
            )
        if name == "esr":
            return self._standard(bit, value, step)
        if name.endswith(".event"):
            return self._event(name[: -len(".event")], bit, value, step, depth)
        if name == "oper.cond":
            return self._scan(step)
        return self._measured(name, bit, value, step)

    def _both(self, one: str, other: str, step: Step) -> tuple[int, int]:
        """Which bits rose in both of two registers together in a step, and which fell."""
        before = self._lines.bits(one, step.number - 1) & self._lines.bits(other, step.number - 1)
        after = self._lines.bits(one, step.number) & self._lines.bits(other, step.number)
        return after & ~before, before & ~after

    def _newer(self, name: str, bit: int, step: Step, depth: int) -> Node:
        """A bit on which a rise rests: with its causes if it rose in the same step, else when it was set."""
        change = self.flip(name, bit, step.number)
        if change is not None and change.step is step:
            node = Node(f"{self.title(name, bit)} rose in the same step", step)
            node.children = self.causes(name, bit, 1, change, depth + 1) if depth < DEPTH else []
            return node
        node = self.bit(name, bit, step.number, depth + 1)
        node.text = node.text.replace(" has been set since ", " was set at ")
        return node

    def _sum(self, registers: tuple[str, str], value: int, step: Step, depth: int) -> list[Node]:
        """A summary bit: which bits of the events and of their enable came together, or parted."""
        event, enable = registers
        rose, fell = self._both(event, enable, step)
        found: list[Node] = []
        for bit in range(16):
            if value and rose >> bit & 1:
                found += [
                    self._newer(event, bit, step, depth),
                    self._newer(enable, bit, step, depth),
                ]
            elif not value and fell >> bit & 1:
                gone = event if not self._lines.bits(event, step.number) >> bit & 1 else enable
                found.append(self.bit(gone, bit, step.number, depth))
        return found

    def _request(self, value: int, step: Step, depth: int) -> list[Node]:
        """RQS: bits of the status byte that are newly set or newly enabled; or a poll; or no enabled bit that is left."""
        rose, fell = self._both("stb", "sre", step)
        call = self._story.call_of(step)
        found: list[Node] = []
        if value:
            for bit in range(8):
                if (rose & ~MASTER) >> bit & 1:
                    found += [
                        self._newer("poll", bit, step, depth),
                        self._newer("sre", bit, step, depth),
                    ]
            return found
        if call is not None and call.name == "device_readstb" and not fell & ~MASTER:
            return [Node("a poll clears RQS; the other bits stay")]
        if (
            not self._lines.bits("stb", step.number)
            & self._lines.bits("sre", step.number)
            & ~MASTER
        ):
            found.append(Node("no bit is left that *SRE enables"))
        return found + [
            self.bit(
                "poll" if not self._lines.bits("poll", step.number) >> bit & 1 else "sre",
                bit,
                step.number,
                depth,
            )
            for bit in range(8)
            if (fell & ~MASTER) >> bit & 1
        ]

    def _response(self, value: int, step: Step, _depth: int) -> list[Node]:
        """MAV: the response, and the queries that it answers."""
        if not value:
            call = self._story.call_of(step)
            last = call.name if call is not None and step.kind in ("event", "resume") else ""
            return [
                Node(
                    {
                        "device_read": "the response was read to its end",
                        "device_clear": "device_clear dropped the response",
                    }.get(last, "a message came before the response was read to its end"),
                    step,
                )
            ]
        size = counted(self._lines.bits("response", step.number), "byte")
        found = [Node(f"response of {size}", step)]
        return found + [
            Node(f"to the query at {self._doers.by(one)}", one) for one in self._queries(step)
        ]

    def _queries(self, step: Step) -> list[Step]:
        """The units whose answers became a response, the first first."""
        found: list[Step] = []
        for one in reversed(self._lines.steps[: step.number]):
            answers = one.of("answers")
            if (
                one.kind == "finish"
                and one.of("text") is not None
                or one.of("response") is not None
            ):
                break
            if answers is not None and as_number(answers.new) > as_number(answers.old):
                found.insert(0, self._story.held_at(one) or one if one.kind == "release" else one)
        return found

    def _queue(self, value: int, step: Step, _depth: int) -> list[Node]:
        """The error queue."""
        queue = numbers(self._lines.at("errors", step.number))
        if value and queue:
            return [Node(f"error {error(queue[0])}", step)]
        return [Node("the error queue is empty", step)]

    def _standard(self, bit: int, value: int, step: Step) -> list[Node]:
        """A standard event."""
        if not value:
            return [Node(f"`{unit(step.text)}` clears the standard events", step)]
        if bit == OPC:
            pending = self._lines.last("opc", step.number - 1, lambda one: one.new == 1)
            if pending is None:
                found = []
            else:
                found = [Node(f"*OPC pending since {self._doers.by(pending.step)}", pending.step)]
            return found + [Node("the scan is idle", step)]
        change = step.of("errors")
        low = -100 * CLASSES[bit] - 99
        added = [one for one in numbers(change.new if change else ()) if low <= one < low + 100][
            -1:
        ]
        if added and change is not None and change.new != numbers(change.old)[1:]:
            return [Node(f"error {error(added[0])}", step)]
        return [
            Node(f"an error of class -{CLASSES[bit]}xx, which is lost: the queue is full", step)
        ]

    def _event(self, register: str, bit: int, value: int, step: Step, depth: int) -> list[Node]:
        """An event of a register: its condition rose with PTR, or fell with NTR."""
        if not value:
            does = "reads and clears" if b"?" in step.text else "clears"
            return [Node(f"`{unit(step.text)}` {does} the events", step)]
        name = register + ".cond"
        change = step.of(name)
        if change is None or not (as_number(change.old) ^ as_number(change.new)) >> bit & 1:
            return [
                Node(
                    f"{self.title(name, bit)} was there for a moment within this step, {self._doers.what(step)}",
                    step,
                )
            ]
        rises = as_number(change.new) >> bit & 1
        moved = "rose, with PTR" if rises else "fell, with NTR"
        child = Node(f"{self.title(name, bit)} {moved}", step)
        child.children = self.causes(name, bit, rises, change, depth + 1) if depth < DEPTH else []
        return [child]

    def _scan(self, step: Step) -> list[Node]:
        """A condition of the operation register: the state of the scan."""
        state = str(self._lines.at("state", step.number))
        source = str(self._lines.at("source", step.number))
        if state == "waiting":
            said = f"the scan has waited for {a(SOURCES[source])} trigger"
        else:
            said = f"the scan has been {state}"
        return [Node(f"{said} since {self._doers.by(step)}", step)]

    def _at(self, step: Step, name: str) -> Value:
        return self._lines.at(name, step.number)

    def _measured(self, name: str, bit: int, value: int, step: Step) -> list[Node]:
        """A condition that a reading, an input or a limit changed."""
        at = functools.partial(self._at, step)
        newest = at("reading")
        if name == "lim.cond" and not at("limits"):
            return [Node("limits are off", step)]
        limits = f"{volts(as_number(at('lower')))} to {volts(as_number(at('upper')))}"
        if name == "lim.cond" and bit == 2:
            inside = "is outside the limits" if value else "is inside the limits"
            return [
                Node(
                    f"the monitored input, channel {at('monitor')}, {inside}, {limits}: {self._doers.what(step)}",
                    step,
                )
            ]
        said = reading(newest) + (f"; limits {limits}" if name == "lim.cond" else "")
        if newest == "none":
            return [Node(f"there is no reading: {self._doers.what(step)}", step)]
        if value:
            return [Node(f"{stands(name, bit)}: {said}", step)]
        return [Node(f"not so any more: {said}", step)]
