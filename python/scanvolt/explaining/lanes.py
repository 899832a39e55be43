"""The lanes of the page: calls of each link, program units, lock, scan, errors, and the bits of registers."""

from __future__ import annotations

import functools
from collections.abc import Callable
from typing import Any

from .lines import Change, Step, Value, as_number, start_of
from .reasons import Reasons
from .slots import Slots
from .story import Call, Wait
from .telling import numbers
from .why import Why
from .words import NAMES, SOURCES, bits, stands, unit

CHAINS = 250  # chains of causes of one lane
ALWAYS = (6, 4, 2)  # bits of the status byte that are always shown: RQS, MAV, EAV
REGISTERS = (
    ("poll", "status byte", (6, 5, 4, 2, 3, 7)),
    ("esr", "standard events", (7, 5, 4, 3, 2, 0)),
    ("oper.event", "oper event", (4, 5, 8)),
    ("ques.event", "ques event", (0, 9)),
    ("lim.event", "lim event", (0, 1, 2)),
    ("oper.cond", "oper condition", (4, 5, 8)),
    ("ques.cond", "ques condition", (0, 9)),
    ("lim.cond", "lim condition", (0, 1, 2)),
)
Row = list[Any]


class Lanes:
    """Makes the data of the lanes."""

    def __init__(self, reasons: Reasons, slots: Slots) -> None:
        self._reasons = reasons
        self._slots = slots
        self._story = reasons.story
        self._lines = reasons.lines
        self._why = Why(reasons)

    def places(self) -> list[tuple[int, int]]:
        """The lanes of calls: connection and link."""
        found: set[tuple[int, int]] = {self._place(call) for call in self.calls()}
        return sorted(found)

    def calls(self) -> list[Call]:
        """The calls that are on the page."""
        return [
            one
            for one in self._story.calls
            if one.arrived.number >= self._slots.first and (one.turned or one.gone is None)
        ]

    def _place(self, call: Call) -> tuple[int, int]:
        """The lane of a call. Calls of no link are on the first of their connection."""
        return call.conn, call.link or self._of_connection(call.conn)

    def call(self, call: Call) -> dict[str, Any]:
        """A call: its lane, its name and words, where it was taken and ended, its reply and its waits."""
        slots, (conn, link) = self._slots, self._place(call)
        found: dict[str, Any] = {
            "c": conn,
            "l": link,
            "n": call.name.replace("device_", ""),
            "w": call.words,
            "t": _short(call),
        }
        if call.turned:
            found["s"] = slots.at(call.turned.steps[0])
        if call.turned is None or call.turned.number > call.arrived.number + 1:
            found["a"] = slots.at(call.arrived.steps[0])
        if call.ended and call.answer:
            found.update(e=slots.at(self._end(call)), r=call.answer.words)
            if call.answer.is_fault:
                found["x"] = call.answer.error or 0
        elif call.gone:
            found.update(e=slots.at(call.gone.steps[0]), r="no reply", x=0)
        waits = [one for one in map(self._wait, call.waits) if one]
        if waits:
            found["q"] = waits
        return found

    def _end(self, call: Call) -> Step:
        """The last step of a call: its units too, but not what follows when another call resumes."""
        assert call.ended is not None
        steps = call.ended.steps
        own = next((place for place, step in enumerate(steps) if step.conn == call.conn), 0)
        other = next(
            (
                place
                for place in range(own + 1, len(steps))
                if steps[place].conn not in (None, call.conn)
            ),
            len(steps),
        )
        return steps[other - 1]

    def _wait(self, wait: Wait) -> Row | None:
        """A wait: from where to where, for what, why, until when at most, and how it ended."""
        begin, end = self._slots.at(wait.begin), self._slots.at(wait.end) if wait.end else None
        if begin == end:
            return None
        held = self._story.held_at(wait.begin)
        what = f"`{unit(held.text, 24)}`" if held else "a message"
        others = {"lock": "lock: " + self._reasons.telling.holder(wait.begin), "dial": "connecting"}
        short = others.get(wait.what, f"{wait.what}: {what}")
        if wait.end:
            how = {"timeout": "timed out", "resume": "resumed"}.get(wait.end.kind, "ended")
        else:
            how = ""
        return [begin, end, short, self._reasons.why(wait, wait.begin.number), wait.deadline, how]

    def units(self) -> list[Row]:
        """Program units: place, text, connection, whether it put an error into the queue, and where it is done if it was held."""
        held = {one.unit.number: one.until for one in self._story.held}
        found = []
        for step in self._slots.found:
            if step.is_unit:
                change, call = step.of("errors"), self._story.call_of(step)
                bad = change is not None and len(numbers(change.new)) > len(numbers(change.old))
                until = held.get(step.number)
                done = None if step.number not in held else self._slots.at(until) if until else -1
                found.append(
                    [
                        self._slots.at(step),
                        unit(step.text, 60),
                        call.conn if call else -1,
                        int(bad),
                        done,
                    ]
                )
        return found

    def signals(self) -> list[dict[str, Any]]:
        """The lanes below: each has an id, a group, a kind, a name, its history and its chains of causes."""
        found = [
            self._plain("lock", "owner", self._owner),
            self._plain("state", "state", lambda one: one.new),
            self._plain("errors", "count", self._count),
        ]
        found[1].update(n="scan", r=self._history("readings", as_number))
        for change, row in zip(self._slots.kept("state"), found[1]["H"]):
            row.append(SOURCES[str(self._lines.at("source", change.step.number))])
        for register, group, wanted in REGISTERS:
            found += [
                self._bit(register, bit, group)
                for bit in wanted
                if self._flips(register, bit) or register == "poll" and bit in ALWAYS
            ]
        for name in ("sre", "ese"):
            if self._slots.kept(name):
                history = self._history(name, functools.partial(_word, name))
                found.append(
                    {"id": name, "g": "enables", "k": "word", "n": name.upper(), "H": history}
                )
        return found

    def _plain(self, name: str, kind: str, value: Callable[[Change], object]) -> dict[str, Any]:
        """The lane of a value that isn't a register."""
        changes = self._slots.kept(name)
        chains = [
            [
                self._slots.at(one.step),
                self._slots.tree(
                    self._why.errors(one.step.number)
                    if name == "errors"
                    else self._why.plain(name, one.step.number)
                ),
            ]
            for one in changes[-CHAINS:]
        ]
        history = [[self._slots.at(one.step), value(one)] for one in changes]
        return {
            "id": name,
            "g": "instrument",
            "k": kind,
            "n": name,
            "H": history,
            "y": chains,
            "f": self._before(name),
        }

    def _before(self, name: str) -> object:
        """What a value was before the first step of the page, if that isn't power on."""
        first = next((step.number for step in self._lines.steps if self._slots.is_kept(step)), 0)
        value = self._lines.at(name, first - 1)
        if name == "lock":
            if value == "none":
                return None
            return [int(str(value)), self._story.owners.get(int(str(value)))]
        return len(numbers(value)) if name == "errors" else value

    def _owner(self, change: Change) -> object:
        if change.new == "none":
            return None
        return [int(str(change.new)), self._story.owners.get(int(str(change.new)))]

    def _count(self, change: Change) -> object:
        old, new = numbers(change.old), numbers(change.new)
        return [len(new), new[-1] if len(new) > len(old) else 0]

    def _history(self, name: str, shown: Callable[[Value], object]) -> list[Row]:
        """A value at each place where it changes."""
        found: list[Row] = []
        for change in self._slots.kept(name):
            place, value = self._slots.at(change.step), shown(change.new)
            if found and found[-1][0] == place:
                found[-1][1] = value
            elif not found or found[-1][1] != value:
                found.append([place, value])
        return found

    def _flips(self, register: str, bit: int) -> list[Change]:
        return [
            one
            for one in self._slots.kept(register)
            if (as_number(one.old) ^ as_number(one.new)) >> bit & 1
        ]

    def _bit(self, register: str, bit: int, group: str) -> dict[str, Any]:
        """The lane of a bit."""
        flips = self._flips(register, bit)
        if flips:
            first = as_number(flips[0].old) >> bit & 1
        else:
            first = as_number(start_of(register)) >> bit & 1
        chains = [
            [
                self._slots.at(one.step),
                self._slots.tree(self._why.bit(register, bit, one.step.number, False)),
            ]
            for one in flips[-CHAINS:]
        ]
        return {
            "id": f"{register}.{bit}",
            "g": group,
            "k": "bit",
            "n": NAMES[register][bit],
            "f": first,
            "d": stands(register, bit),
            "H": [[self._slots.at(one.step), as_number(one.new) >> bit & 1] for one in flips],
            "y": chains,
        }

    def requests(self) -> list[Row]:
        """Service requests: place, connection, handle, and the link whose lane shows it."""
        found: list[Row] = []
        for number, sent in self._story.requests.items():
            moment = self._story.moments[number]
            if moment.number >= self._slots.first:
                found += [
                    [
                        self._slots.last(moment),
                        conn,
                        handle.decode("latin-1"),
                        self._of_connection(conn),
                    ]
                    for conn, handle in sent
                ]
        return found

    def _of_connection(self, conn: int) -> int:
        return min((one for one, owner in self._story.owners.items() if owner == conn), default=0)


def _short(call: Call) -> str:
    """What a bar says if it has room: the text of a write, the data of a read, the byte of a poll."""
    if call.name == "device_write":
        return call.arguments.data.decode("latin-1").strip()
    if call.answer is not None and call.answer.data is not None:
        return call.answer.data.decode("latin-1").strip()
    is_poll = (
        call.name == "device_readstb" and call.answer is not None and call.answer.value is not None
    )
    return str(call.reply.value) if is_poll else ""


def _word(name: str, value: Value) -> str:
    """A mask, with the names of its bits."""
    return f"{as_number(value)} {' '.join(bits(name, as_number(value)))}"
