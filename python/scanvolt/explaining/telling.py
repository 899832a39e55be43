"""What changed, in words. What is noise to people isn't told, unless everything is wanted."""

from __future__ import annotations

from collections.abc import Callable

from .lines import Change, Step, as_number
from .story import Story
from .words import (
    LABELS,
    NAMES,
    SOURCES,
    a,
    channels,
    counted,
    error,
    known,
    millis,
    moved,
    pair,
    reading,
    volts,
)

# said by another value, or of no use
NOISE = ("stb", "rqs", "oper.cond", "answers", "scan", "place", "readings")
# whose numbers say less than their bits
FLAGS = ("esr", "oper.event", "ques.event", "lim.event", "ques.cond", "lim.cond")
LONG = 60  # characters of moved bits that are too many to be told
AWAITED = {
    "lock": "the lock",
    "input": "the message under way to end",
    "response": "a response",
    "dial": "the interrupt channel to be connected",
}


class Telling:
    """Tells changes of a session."""

    def __init__(self, story: Story, everything: bool = False) -> None:
        # the session, for what takes its telling from here, and whether noise is told too
        self.story, self.lines, self.everything = story, story.lines, everything
        self._by_name: dict[str, Callable[[Change], str | None]] = {
            "poll": self._poll,
            "errors": self._errors,
            "lost": self._lost,
            "lock": self._lock,
            "held": self._held,
            "state": self._state,
            "source": lambda one: f"trigger source {SOURCES[str(one.new)]}",
            "reading": self._reading,
            "text": self._text,
            "response": self._response,
            "opc": lambda one: "*OPC pending" if one.new else None,
            "count": lambda one: f"count of scans {one.new}",
            "list": lambda one: f"scan list {channels(one.new)}",
            "range": lambda one: f"range {volts(as_number(one.new))}",
            "monitor": lambda one: f"monitored channel {one.new}",
            "upper": lambda one: f"upper limit {volts(as_number(one.new))}",
            "lower": lambda one: f"lower limit {volts(as_number(one.new))}",
            "limits": lambda one: "limits on" if one.new else "limits off",
        }
        self._by_tail: dict[str, Callable[[Change], str | None]] = {
            "wait": self._wait,
            "open": self._open,
            "faulted": self._faulted,
        }
        self._by_head: dict[str, Callable[[Change], str | None]] = {
            "link": lambda one: f"link {one.name[5:]} ended" if one.new == "none" else None,
            "srq": lambda one: f"service requests of link {one.name[4:]} {one.new}",
        }

    def change(self, change: Change) -> str | None:
        """A change in words; None if it is noise."""
        head, _, tail = change.name.partition(".")
        how = self._by_name.get(change.name) or self._by_tail.get(tail) or self._by_head.get(head)
        if how is None and change.name in NAMES and change.name not in NOISE:
            how = self._bits
        found = None if how is None else how(change)
        if found is None and self.everything:
            return f"{change.name} {shown(change.old)} -> {shown(change.new)}"
        return found

    def at(self, name: str, step: Step) -> str:
        """A word after a step."""
        return str(self.lines.at(name, step.number))

    def link(self, number: int) -> str:
        """A link, with its connection."""
        conn = self.story.owners.get(number)
        return f"link {number}" + ("" if conn is None else f" (c{conn})")

    def holder(self, step: Step) -> str:
        """The link that holds the lock after a step."""
        found = self.at("lock", step)
        return "nobody" if found == "none" else self.link(int(found))

    def _poll(self, change: Change) -> str:
        old, new = as_number(change.old), as_number(change.new)
        return f"STB {old} -> {new} ({moved('poll', old, new)})"

    def _bits(self, change: Change) -> str | None:
        name, old, new = change.name, as_number(change.old), as_number(change.new)
        if name == "oper.event" and not (old ^ new) & self.lines.bits(
            "oper.enable", change.step.number
        ):
            return None
        if name in FLAGS:
            return f"{LABELS[name]} {moved(name, old, new)}"
        named = moved(name, known(name, old), known(name, new))
        told = f"{LABELS[name]} {old} -> {new}"
        return f"{told} ({named})" if named and len(named) < LONG else told

    def _errors(self, change: Change) -> str:
        old, new = numbers(change.old), numbers(change.new)
        if not new:
            if len(old) == 1:
                return f"error {error(old[0])} taken: queue empty"
            return f"error queue cleared ({len(old)})"
        if new == old[1:]:
            return f"error {error(old[0])} taken, {len(new)} left"
        added = new[len(old) :] if new[: len(old)] == old else new[-1:]
        return (
            "error "
            + ", ".join(map(error, added))
            + ("" if len(new) == len(added) else f" ({len(new)} in the queue)")
        )

    def _lost(self, change: Change) -> str | None:
        count = as_number(change.new) - as_number(change.old)
        return f"{counted(count, 'error')} lost: the queue is full" if count > 0 else None

    def _lock(self, change: Change) -> str:
        if change.new == "none":
            return f"lock freed by link {change.old}"
        return f"lock: {self.link(int(str(change.new)))}"

    def _held(self, change: Change) -> str:
        if change.new != "none":
            return "waits until the scan is idle"
        return "is done" if change.step.kind == "release" else "the held unit is dropped"

    def _state(self, change: Change) -> str:
        scan, of = pair(self.lines.at("scan", change.step.number))
        if change.new == "waiting":
            scan += 1
        where = f" (scan {scan} of {of})" if of > 1 else ""
        if change.new == "waiting":
            source = a(SOURCES[self.at("source", change.step)])
            return f"scan: waiting for {source} trigger{where}"
        return f"scan: {change.new}{where}"

    def _reading(self, change: Change) -> str | None:
        return reading(change.new) if change.new != "none" else "readings dropped"

    def _text(self, change: Change) -> str | None:
        if change.new in (0, "ended"):
            dropped = (
                change.new == 0
                and isinstance(change.old, int)
                and change.step.kind in ("event", "resume")
            )
            if dropped:
                return f"unfinished message of {counted(as_number(change.old), 'byte')} dropped"
            return None
        return f"{counted(as_number(change.new), 'byte')} of a message that hasn't ended"

    def _response(self, change: Change) -> str | None:
        old = as_number(change.old)
        new = as_number(change.new)
        call = self.story.call_of(change.step)
        if new > old:
            return f"response of {counted(new, 'byte')} ready"
        if (
            new == 0
            and call is not None
            and call.name == "device_read"
            and change.step.kind != "interrupt"
        ):
            return None
        if new == 0:
            return f"response dropped, {counted(old, 'byte')}"
        return f"{new} of {old} bytes left"

    def _wait(self, change: Change) -> str | None:
        if change.new == "none":
            return None
        what, _, deadline = str(change.new).split()
        most = f", until {millis(int(deadline))} at most" if deadline != "never" else ""
        held = f", held by {self.holder(change.step)}" if what == "lock" else ""
        return f"waits for {AWAITED[what]}{held}{most}"

    def _open(self, change: Change) -> str:
        conn, state = change.name[1:].split(".")[0], "open" if change.new else "closed"
        return f"interrupt channel of c{conn} {state}"

    def _faulted(self, change: Change) -> str | None:
        return f"c{change.name[1:].split('.')[0]} takes no further call" if change.new else None


def numbers(value: object) -> tuple[int, ...]:
    """The numbers of a value that is a list of them; none of any other."""
    return value if isinstance(value, tuple) else ()


def shown(value: object) -> str:
    """A value as the program prints it."""
    return (" ".join(map(str, value)) or "none") if isinstance(value, tuple) else str(value)
