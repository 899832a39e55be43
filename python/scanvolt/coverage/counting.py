"""Counts what a session has met."""

from __future__ import annotations

from collections import Counter
from collections.abc import Iterator

from ..explaining.lines import Step, as_number
from ..explaining.story import Call, Story
from ..explaining.tables import BITS, ERRORS
from ..explaining.telling import numbers
from ..explaining.words import LABELS, bit_name
from ..vxi11.errors import NAMES
from .headers import Headers
from .tables import CALLS, HEADERS, READS, STATES, WAITS

COMMANDS = "commands and queries"
QUEUE = "errors"
BITS_OF = "status bits"
CALLS_OF = "VXI-11 calls"
FAULTS_OF = "errors of calls"
SITUATIONS = "situations"
AWAITED = {
    "lock": "the lock",
    "input": "input",
    "response": "a response",
    "dial": "the interrupt channel",
}
REGISTER = "poll", "esr"
Item = tuple[str, str]  # a list, and an entry of it
RQS = 64


def _bit(name: str, bit: int, how: str) -> Item:
    return BITS_OF, f"{LABELS[name]}.{bit_name(name, bit)} {how}"


def _fault(call: str, number: int) -> Item:
    return FAULTS_OF, f"{call}: {number}, {NAMES.get(number, 'reserved')}"


def _error(number: int) -> Item:
    return QUEUE, f'{number} "{ERRORS.get(number, "unknown")}"'


def _wait(what: str, how: str) -> Item:
    return SITUATIONS, f"a wait for {AWAITED.get(what, what)} {how}"


def _state(start: str, by: str, to: str) -> Item:
    return SITUATIONS, f"the scan goes from {start} to {to} by {by}"


def _read(reason: str) -> Item:
    return SITUATIONS, f"a read ends by {reason}"


INTERRUPT, OVERRUN = (SITUATIONS, "a query is interrupted"), (SITUATIONS, "a message is too long")
SENT = (SITUATIONS, "a service request is sent")
UNHEARD = (SITUATIONS, "a service request with none listening")
LOST = SITUATIONS, "an error is lost: the queue is full"


def registers() -> Iterator[tuple[str, int]]:
    """The registers that have bits, and these."""
    for register, found in BITS.items():
        names = (register,) if register in REGISTER else (register + ".cond", register + ".event")
        yield from ((name, bit) for name in names for bit in found)


def everything() -> list[Item]:
    """All that can be met, in the order of the tables."""
    found: list[Item] = [(COMMANDS, header) for header in HEADERS] + [
        _error(number) for number in ERRORS
    ]
    for name, bit in registers():
        found += [
            _bit(name, bit, how)
            for how in ("set", "cleared") + (("polled",) if name == "poll" else ())
        ]
    found += [(CALLS_OF, call) for call in CALLS]
    found += [_fault(call, number) for call, errors in CALLS.items() for number in errors]
    for what, (late, aborted) in WAITS.items():
        found.append(_wait(what, "is granted"))
        found += [
            _wait(what, how)
            for number, how in ((late, "times out"), (aborted, "is aborted"))
            if number
        ]
    found += [_read(reason) for reason in READS] + [_state(*one) for one in STATES]
    return found + [INTERRUPT, OVERRUN, SENT, UNHEARD, LOST]


def count(story: Story) -> Counter[Item]:
    """How often a session has met each."""
    return _Counting(story).found


class _Counting:
    """Counts what a story has."""

    def __init__(self, story: Story) -> None:
        self._story, self._lines = story, story.lines
        self.found: Counter[Item] = Counter()
        self._headers, self._place = Headers(), -1
        if story.moments:
            for name, bit in registers():
                if self._lines.bits(name, -1) >> bit & 1:
                    self.found[_bit(name, bit, "set")] += 1
        for step in self._lines.steps:
            self._step(step)
        for call in story.calls:
            self._call(call)
        for moment in story.moments:
            if story.requests.get(moment.number):
                self.found[SENT] += 1
            elif any(
                one.name == "poll" and as_number(one.new) & ~as_number(one.old) & RQS
                for one in moment.changes()
            ):
                self.found[UNHEARD] += 1

    def _step(self, step: Step) -> None:
        """What a step has met."""
        self._unit(step)
        if step.kind == "overrun":
            self.found[OVERRUN] += 1
        for change in step.changes:
            old, new = as_number(change.old), as_number(change.new)
            if change.name == "errors":
                before, after = numbers(change.old), numbers(change.new)
                if after != before[1:] or not before:
                    for number in after[len(before) :] or after[-1:]:
                        self.found[_error(number)] += 1
            elif change.name == "lost" and new > old:
                self.found[LOST] += new - old
            elif change.name == "state":
                self._goes(step, str(change.old), str(change.new))
            elif change.name in NAMED:
                for bit in NAMED[change.name]:
                    if (old ^ new) >> bit & 1:
                        self.found[
                            _bit(change.name, bit, "set" if new >> bit & 1 else "cleared")
                        ] += 1

    def _unit(self, step: Step) -> None:
        """The header of a unit, if the instrument knows it."""
        if step.kind == "finish" or step.is_unit and step.place <= self._place:
            self._headers.begin()
            self._place = -1
        if not step.is_unit:
            return
        self._place = step.place
        if step.kind == "interrupt":
            self.found[INTERRUPT] += 1
        header = self._headers.of(step.text)
        if header is not None:
            self.found[COMMANDS, header] += 1

    def _goes(self, step: Step, start: str, to: str) -> None:
        """The scan goes from a state to another one."""
        is_tick = step.kind == "event" and step.moment.kind == "tick"
        for one, by, other in STATES:
            if other == to and (
                one == start and is_tick == (by == "tick") or one == "any" and not is_tick
            ):
                self.found[_state(one, by, other)] += 1

    def _call(self, call: Call) -> None:
        """What a call has met."""
        answer = call.answer
        if answer is None or answer.error is None:
            return
        self.found[CALLS_OF, call.name] += 1
        if answer.error:
            self.found[_fault(call.name, answer.error)] += 1
        if call.name == "device_readstb" and not answer.error:
            for bit in BITS["poll"]:
                if (answer.value or 0) >> bit & 1:
                    self.found[_bit("poll", bit, "polled")] += 1
        if call.name == "device_read" and not answer.error:
            for reason, weight in READS.items():
                if (answer.value or 0) & weight or answer.value == weight:
                    self.found[_read(reason)] += 1
        for wait in call.waits:
            if wait is not call.waits[-1] or not answer.error:
                self.found[_wait(wait.what, "is granted")] += 1
            else:
                is_late = wait.end is not None and wait.end.kind == "timeout"
                late, aborted = WAITS.get(wait.what, (0, 0))
                if is_late and answer.error == late:
                    self.found[_wait(wait.what, "times out")] += 1
                elif answer.error == aborted:
                    self.found[_wait(wait.what, "is aborted")] += 1


NAMED: dict[str, list[int]] = {}
for _name, _number in registers():
    NAMED.setdefault(_name, []).append(_number)
