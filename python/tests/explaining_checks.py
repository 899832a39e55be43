"""What must hold of each explained session. The rules are those of docs/INSTRUMENT.md, written down apart from the package."""

from __future__ import annotations

import collections
from collections import Counter
from collections.abc import Iterator

from scanvolt.explaining.explanation import Explanation
from scanvolt.explaining.lines import Step, as_number
from scanvolt.explaining.running import lines_of
from scanvolt.explaining.story import Call, Story
from scanvolt.explaining.why import Why

FLAGS = (
    "poll",
    "esr",
    "oper.event",
    "ques.event",
    "lim.event",
    "oper.cond",
    "ques.cond",
    "lim.cond",
)
WEAK = "that was so for a moment"


def status_byte(story: Story, number: int) -> int:
    """The status byte, as *STB? returns it, from the registers after a step."""

    def at(name: str) -> int:
        return story.lines.bits(name, number)

    byte = (
        128 * bool(at("oper.event") & at("oper.enable"))
        + 32 * bool(at("esr") & at("ese"))
        + 16 * bool(at("response"))
    )
    byte += 8 * bool(at("ques.event") & at("ques.enable")) + 4 * bool(
        story.lines.at("errors", number)
    )
    return byte + 64 * bool(byte & at("sre"))


class Checks:
    """The faults of an explanation, and how much was looked at."""

    def __init__(self, found: Explanation) -> None:
        self.found, self.story, self.lines = found, found.story, found.story.lines
        self.counts: Counter[str] = collections.Counter()
        self.faults: list[str] = [*self.steps(), *self.calls(), *self.flips()]

    def steps(self) -> Iterator[str]:
        """The status byte at each step, and the writer of each unit."""
        for step in self.lines.steps:
            self.counts["steps"] += 1
            byte, told = status_byte(self.story, step.number), self.lines.bits("stb", step.number)
            if byte != told:
                yield f"status byte {told} and not {byte} at {where(step)}"
            if self.lines.bits("ques.cond", step.number) >> 9 & 1 != bool(
                self.lines.bits("lim.event", step.number)
                & self.lines.bits("lim.enable", step.number)
            ):
                yield f"summary of the limits at {where(step)}"
            if step.is_unit:
                self.counts["units"] += 1
                call = self.story.call_of(step)
                if call is None or step.text[:1] not in call.arguments.data:
                    yield f"no writer of {step.text!r} at {where(step)}"

    def calls(self) -> Iterator[str]:
        """The reply of each call that was taken, what polls return, and why calls wait."""
        for call in self.story.calls:
            self.counts["calls"] += 1
            if call.turned and call.is_open and not call.waits:
                yield f"no reply to {call.words}"
            if call.name == "device_readstb" and call.answer and call.answer.error == 0:
                self.counts["polls"] += 1
                taken = call.turned and call.turned.steps[0]
                before = call.waits[-1].end if call.waits else taken
                if (
                    before is None
                    or self.lines.bits("poll", before.number - 1) != call.answer.value
                ):
                    yield f"a poll returned {call.answer.words} at {before and where(before)}"
            for wait in call.waits:
                self.counts["waits"] += 1
                if not self.found.reasons.why(wait, wait.begin.number):
                    yield f"no reason of {call.words} for the wait for {wait.what}"

    def flips(self) -> Iterator[str]:
        """The causes of each bit that flipped."""
        model = Why(self.found.reasons).model
        for name in FLAGS:
            for change in self.lines.history.get(name, ()):
                for bit in range(16):
                    new = as_number(change.new) >> bit & 1
                    if new == as_number(change.old) >> bit & 1:
                        continue
                    self.counts["flips"] += 1
                    causes = model.causes(name, bit, new, change, 1)
                    self.counts["weak flips"] += any(one.text.startswith(WEAK) for one in causes)
                    if not causes or not all(one.text for one in causes):
                        yield f"no cause of bit {bit} of {name} at {where(change.step)}"

    def ends(self) -> Iterator[str]:
        """Whatever is said to end a wait does so: the lines of the try, given to another program, end it at that millisecond."""
        tried = self.found.tried
        for what, lines in tried.logs.items():
            again = Story(lines_of([*self.story.script, *lines], self.found.program))
            for call in self.story.waiting():
                self.counts["tries"] += 1
                seen = next((one for one in [tried.ended[what].get(call.number)] if one), None)
                if seen is not None and (seen[0], seen[1]) != ended(again.calls[call.number]):
                    yield f"{what}: {call.words} ends otherwise: {ended(again.calls[call.number])}"
                if seen is None and ended(again.calls[call.number]) is not None:
                    yield f"{what}: {call.words} ends, and that isn't said"


def ended(call: Call) -> object:
    """When and how a call ended."""
    if call.gone is not None:
        return call.gone.clock, "no reply, its connection is closed"
    return None if call.ended is None else (call.ended.clock, call.reply.words)


def where(step: Step) -> str:
    return f"line {step.moment.line}, {step.kind} {step.text!r}"
