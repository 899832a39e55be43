"""The lines of `scanvolt explain` (docs/STEPS.md): events, steps, and the values that changed."""

from __future__ import annotations

import bisect
from collections.abc import Callable, Iterator, Sequence
from dataclasses import dataclass, field
from typing import Union

from .tables import START

Value = Union[int, str, tuple[int, ...]]
REGISTERS = ("oper", "ques", "lim")
# What words are at the start. All other values that START doesn't have are 0.
WORDS: dict[str, Value] = {
    "errors": (),
    "lock": "none",
    "held": "none",
    "state": "idle",
    "scan": "none",
    "place": "none",
    "reading": "none",
    "list": (1,),
}
TAILS: dict[str, Value] = {"role": "closed", "wait": "none"}
LISTS = ("errors", "list")  # values that are numbers in a row


class Unreadable(ValueError):
    """What the program printed isn't as docs/STEPS.md has it."""


@dataclass
class Change:
    """A value that changed in a step."""

    name: str
    old: Value
    new: Value
    step: Step


@dataclass
class Step:
    """What the event itself did (kind `event`), or a step that followed from it. `place` and `text` are those of a unit, and
    `conn` is the connection of a call that resumes or times out.
    """

    number: int
    moment: Moment
    kind: str
    place: int = 0
    text: bytes = b""
    conn: int | None = None
    changes: list[Change] = field(default_factory=list)

    @property
    def is_unit(self) -> bool:
        """Whether a program unit starts in it."""
        return self.kind in ("unit", "interrupt")

    def of(self, name: str) -> Change | None:
        """The change of this value."""
        return next((one for one in self.changes if one.name == name), None)


@dataclass
class Moment:
    """An event: a line of the script, or one millisecond of a line of ticks. `taken` is the record of the call that it takes."""

    number: int
    line: int
    clock: int
    words: list[str]
    steps: list[Step] = field(default_factory=list)
    output: dict[str, bytes] = field(default_factory=dict)
    refused: int | None = None
    taken: bytes | None = None

    @property
    def kind(self) -> str:
        """The first word of the event's line: `tick`, `turn`."""
        return self.words[0]

    def changes(self) -> Iterator[Change]:
        """The changes of all its steps."""
        return (one for step in self.steps for one in step.changes)


def start_of(name: str) -> Value:
    """What a value is at power on."""
    if name in WORDS:
        return WORDS[name]
    found = START.get(name)
    if isinstance(found, (int, str)):
        return found
    head, _, tail = name.partition(".")
    return {"link": "none", "srq": "off"}.get(head, TAILS.get(tail, 0))


def value_of(name: str, said: str) -> Value:
    """A value as a line has it."""
    if name in LISTS:
        return () if said == "none" else tuple(int(one) for one in said.split())
    return int(said) if said.lstrip("-").isdigit() else said


class Lines:
    """What the program printed about a script: moments, steps, and the history of each value."""

    def __init__(self, script: Sequence[str]) -> None:
        self.script = script
        self.moments: list[Moment] = []
        self.steps: list[Step] = []
        self.now: dict[str, Value] = {}  # the newest value of each name
        self.history: dict[str, list[Change]] = {}
        self._places: dict[str, list[int]] = {}  # the steps of those changes
        self.clock: int | None = None  # the time of `@ end`; None before that

    def read(self, told: str) -> Lines:
        """Takes all that the program printed. Raises Unreadable if it isn't whole."""
        for line in told.splitlines():
            try:
                self._take(*line.partition(" ")[::2])
            except (ValueError, IndexError):
                raise Unreadable(f"a line of `scanvolt explain` isn't known: {line[:80]}") from None
        if self.clock is None:
            raise Unreadable("what `scanvolt explain` printed is cut off")
        return self

    def _take(self, kind: str, said: str) -> None:
        """Takes a line."""
        if kind == "@":
            self._event(*said.split())
        elif kind == "-":
            self._step(*said.split(" "))
        elif kind == "=":
            name, _, rest = said.partition(" ")
            self._change(name, value_of(name, rest))
            if name in ("stb", "rqs"):
                self._poll()
        elif kind == "refused":
            self.moments[-1].refused = int(said)
        elif kind[:1] in ("c", "i") and kind[1:].isdigit():
            self.moments[-1].output[kind] = bytes.fromhex(said)
            self.now[kind + ".output"] = 0  # these bytes count as sent, which no line tells
        else:
            raise ValueError(kind)

    def _event(self, line: str, clock: str) -> None:
        if line == "end":
            self.clock = int(clock)
            return
        words = self.script[int(line) - 1].split(" ")
        self.moments.append(Moment(len(self.moments), int(line), int(clock), words))
        self._begin("event")

    def _step(self, kind: str, *rest: str) -> None:
        if kind == "call":
            self.moments[-1].taken = bytes.fromhex(rest[1])
        elif kind in ("unit", "interrupt"):
            self._begin(
                kind, place=int(rest[0]), text=bytes.fromhex(rest[1] if len(rest) > 1 else "")
            )
        elif kind in ("resume", "timeout"):
            self._begin(kind, conn=int(rest[0][1:]))
        elif kind in ("fire", "release", "overrun", "finish"):
            self._begin(kind)
        else:
            raise ValueError(kind)

    def _begin(self, kind: str, place: int = 0, text: bytes = b"", conn: int | None = None) -> None:
        step = Step(len(self.steps), self.moments[-1], kind, place, text, conn)
        self.steps.append(step)
        self.moments[-1].steps.append(step)

    def _change(self, name: str, new: Value) -> None:
        step = self.steps[-1]
        old = self.now.get(name, start_of(name))
        if old == new:
            return
        here = step.of(name)
        if here is not None:  # of `poll`, which is made of two lines
            here.new = new
        else:
            here = Change(name, old, new, step)
            step.changes.append(here)
            self.history.setdefault(name, []).append(here)
            self._places.setdefault(name, []).append(step.number)
        self.now[name] = new

    def _poll(self) -> None:
        """The status byte as a poll would return it: bit 6 is RQS, not MSS. It may change twice in a step and be as before."""
        self._change("poll", self._number("stb") & ~64 | self._number("rqs") << 6)
        change = self.steps[-1].of("poll")
        if change is not None and change.old == change.new:
            self.steps[-1].changes.remove(change)
            self.history["poll"].pop()
            self._places["poll"].pop()

    def _number(self, name: str) -> int:
        """A value now that is a number."""
        return as_number(self.now.get(name, start_of(name)))

    def at(self, name: str, number: int) -> Value:
        """A value after the step of this number."""
        place = bisect.bisect_right(self._places.get(name, ()), number)
        return self.history[name][place - 1].new if place else start_of(name)

    def bits(self, name: str, number: int) -> int:
        """A number after the step of this number."""
        return as_number(self.at(name, number))

    def last(
        self, name: str, number: int, wanted: Callable[[Change], bool] = lambda change: True
    ) -> Change | None:
        """The newest change of a value in a step of at most this number."""
        place = bisect.bisect_right(self._places.get(name, ()), number)
        return next(
            (
                self.history[name][one]
                for one in range(place - 1, -1, -1)
                if wanted(self.history[name][one])
            ),
            None,
        )


def as_number(value: Value) -> int:
    """A value that is a number; 0 of any other."""
    return value if isinstance(value, int) else 0
