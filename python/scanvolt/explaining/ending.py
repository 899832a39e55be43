"""The end: each call that waits, why, what would end that and what is due; and what is left behind."""

from __future__ import annotations

import itertools
from collections.abc import Sequence

from .lines import as_number
from .reasons import Reasons
from .story import Call, call_list
from .telling import numbers
from .tries import TIME, Tried
from .words import counted, long, millis, shown_bits, unit

LEFT = 14  # columns of a label


class Ending:
    """Tells the end of a session. `tried` is what ended the waits when it was tried."""

    def __init__(self, reasons: Reasons, tried: Tried | None = None) -> None:
        self._reasons, self._tried = reasons, tried
        self._story, self._telling, self._lines = reasons.story, reasons.telling, reasons.lines

    def text(self) -> list[str]:
        """The end, in lines."""
        found = [f"at the end, {millis(self._story.clock)}:"]
        in_line: list[Call] = []  # that wait for the lock
        for call in self._story.waiting():
            if call.waits[-1].what == "lock":
                in_line.append(call)
            if call.waits[-1].what == "lock" and len(in_line) > 1:
                found += self._in_line(call, len(in_line))
            else:
                found += self._call(call)
        if not self._story.waiting():
            found.append("  no call waits")
        return found + self._held() + self._state()

    def first_lines(self) -> list[str]:
        """What an exception says of it: what waits and why, or else what is held, in two lines."""
        found = self.text()
        if self._story.waiting():
            return [found[1].strip(), " ".join(found[2].split())]
        return [one.strip() for one in found[1:3]]

    def _labelled(self, label: str, lines: Sequence[str]) -> list[str]:
        labels = [label] + [""] * (len(lines) - 1)
        return [f"    {one:<{LEFT}}{line}" for one, line in zip(labels, lines)]

    def _in_line(self, call: Call, place: int) -> list[str]:
        """A call that waits for the lock behind others, in a line."""
        wait, behind = call.waits[-1], self._story.behind(call)
        if wait.deadline is not None:
            most = f"until {millis(wait.deadline)} at most"
        else:
            most = "without a limit"
        after = f"; behind it {call_list(behind)}" if behind else ""
        headline = self._reasons.headline(call, wait)
        return [f"  {call.who}  {headline} too, place {place} in line, {most}{after}"]

    def _call(self, call: Call) -> list[str]:
        """A call that waits."""
        wait, behind = call.waits[-1], self._story.behind(call)
        found = [f"  {call.who}  {self._reasons.headline(call, wait)}"]
        reasons = self._reasons.why(wait, self._story.end)
        found += self._labelled(
            "because", ["  " * depth + why for depth, why in enumerate(reasons)]
        )
        if self._tried is not None:
            found += self._labelled("would end it", self._ends(call))
            others = [one.what for one in self._tried.of(call) if not one.is_end]
            found += self._labelled("would not", [", ".join(others)] if others else [])
            left = self._tried.left_of(call)
            found += self._labelled("not tried", [", ".join(left)] if left else [])
        found += self._labelled("due", [self._due(call)])
        if behind:
            found += self._labelled(
                "behind it", [f"{call_list(behind)}: not taken before it is answered"]
            )
        return found

    def _ends(self, call: Call) -> list[str]:
        """What ended the wait when it was tried: when, and with which reply."""
        assert self._tried is not None
        rows = [
            (one.what, f"it ends at {millis(one.clock)}: {one.words}")
            for one in self._tried.of(call)
            if one.is_end
        ]
        wide = max((len(what) for what, _ in rows), default=0)
        return [f"{what:<{wide}}  {seen}" for what, seen in rows]

    def _due(self, call: Call) -> str:
        """What ends the wait by itself as time passes, if anything does."""
        wait, clock = call.waits[-1], self._story.clock
        scan = self._reasons.due(self._story.end)
        found = []
        if wait.what in ("input", "response") and scan is not None:
            found.append(f"this scan, in {millis(scan)}")
        if wait.deadline is not None:
            found.append(
                f"its timeout at {millis(wait.deadline)}, in {long(wait.deadline - clock)}"
            )
        return "; ".join(found) or "nothing: however much time passes, it waits"

    def _held(self) -> list[str]:
        """A unit that is held while no call waits for it."""
        if self._lines.steps and self._story.value("held") != "none":
            held = self._story.held_at(self._lines.steps[-1])
        else:
            held = None
        if held is None or any(
            call.waits[-1].what in ("input", "response") for call in self._story.waiting()
        ):
            return []
        since = f"unit `{unit(held.text)}` since {millis(held.moment.clock)}"
        found = [
            since + ": every device_write and device_read will wait",
            self._reasons.scan(self._story.end),
        ]
        if self._tried is None:
            ends = []
        else:
            ends = [f"{one.what}, at {millis(one.clock)}" for one in self._tried.of_held()]
        found += ["would end it: " + "; or ".join(ends)] if ends else []
        if self._tried is None:
            left = []
        else:
            left = [one.what for one in self._tried.left if one.what != TIME]
        found += ["not tried: " + ", ".join(left)] if left else []
        labels = ["held"] + [""] * (len(found) - 1)
        return [f"  {label:<10}{line}" for label, line in zip(labels, found)]

    def _state(self) -> list[str]:
        """Errors, lock, status byte, and what can be read."""
        value = self._story.value
        errors, taken = numbers(value("errors")), self._lines.last("lock", self._story.end)
        held = "free"
        if value("lock") != "none" and taken is not None:
            link = self._telling.link(int(str(value("lock"))))
            held = f"{link}, since {self._reasons.doers.by(taken.step)}"
        registers: list[tuple[str, str]] = [
            ("STB", "poll"),
            ("SRE", "sre"),
            ("ESR", "esr"),
            ("ESE", "ese"),
        ]
        shown = [f"{label} {shown_bits(name, as_number(value(name)))}" for label, name in registers]
        found = [
            "  errors    " + (folded(errors) or "none"),
            "  lock      " + held,
            "  status    " + "; ".join(shown),
        ]
        if value("response"):
            found.append(f"  response  {value('response')} bytes unread")
        if as_number(value("text")):
            found.append(f"  text      {value('text')} bytes of a message that hasn't ended")
        return found + [
            f"  c{conn:<9d}{counted(count, 'byte')} of a call that isn't whole"
            for conn, count in self._story.unfinished()
        ]


def folded(errors: Sequence[int]) -> str:
    """The numbers of errors; the same one in a row is said once."""
    found = []
    for number, row in itertools.groupby(errors):
        count = len(list(row))
        found.append(str(number) if count == 1 else f"{number} ({count} times)")
    return ", ".join(found)
