"""Why a call waits, down to the trigger source or the holder of the lock; what is due by itself."""

from __future__ import annotations

from .doers import Doers, of
from .story import Call, Wait, call_list
from .telling import AWAITED
from .words import SOURCES, a, counted, millis, pair, unit


class Reasons:
    """Tells why calls of a session wait."""

    def __init__(self, doers: Doers) -> None:
        # the session, for what takes its reasons from here
        self.doers = doers
        self.telling = doers.telling
        self.story = doers.story
        self.lines = doers.lines

    def scan(self, number: int, over: bool = False) -> str:
        """What the scan does after a step, and where it stands; what it did if that is over."""
        state, source = str(self.lines.at("state", number)), str(self.lines.at("source", number))
        scan, scans = pair(self.lines.at("scan", number))
        place, length = pair(self.lines.at("place", number))
        if state == "waiting":
            waits = "waited" if over else "waits"
            return f"the scan {waits} for {a(SOURCES[source])} trigger (scan {scan + 1} of {scans})"
        if state == "scanning":
            return (
                f"scanning: {place} of {counted(length, 'channel')} read (scan {scan} of {scans})"
            )
        return f"the scan {'was' if over else 'is'} idle"

    def due(self, number: int) -> int | None:
        """In how many milliseconds the scan under way ends; None if none is."""
        place, length = pair(self.lines.at("place", number))
        return length - place if self.lines.at("state", number) == "scanning" else None

    def why(self, wait: Wait, number: int, over: bool = False) -> list[str]:
        """Why a call waits, as of a step: lines, each the cause of the one before it. Why it waited, if that is over."""
        if wait.what == "lock":
            return self._lock(wait, number, over)
        if wait.what == "dial":
            has = "hadn't" if over else "hasn't"
            return [f"the peer {has} taken the connection of the interrupt channel"]
        return self._message(number, over) or self._executed(wait, over)

    def brief(self, wait: Wait, number: int, over: bool = False) -> str:
        """Why a call waits, in one line: the held unit and the scan, or else the first reason."""
        held = self.story.held_at(self.lines.steps[number])
        if (
            wait.what in ("input", "response")
            and held is not None
            and self.lines.at("held", number) != "none"
        ):
            return f"unit `{unit(held.text)}` waits until the scan is idle: {self.scan(number)}"
        return "".join(self.why(wait, number, over)[:1])

    def _executed(self, wait: Wait, over: bool) -> list[str]:
        """The message that was executed in the same event when the wait began."""
        call = self.story.executed.get(wait.begin.number)
        if call is None:
            return []
        be = "was" if over else "is"
        return [f"a message{of(call)} {be} under way, and {be} executed first"]

    def _lock(self, wait: Wait, number: int, over: bool) -> list[str]:
        holder, taken = str(self.lines.at("lock", number)), self.lines.last("lock", number)
        if holder == "none" or taken is None:
            return []
        link, has = self.telling.link(int(holder)), "had" if over else "has"
        found = [f"{link} {has} held the lock since {self.doers.by(taken.step)}"]
        ahead = [
            one
            for one in self.story.calls
            for other in one.waits
            if other.what == "lock"
            and other is not wait
            and other.is_on(number)
            and other.begin.number < wait.begin.number
        ]
        if ahead:
            found.append(f"before it in line: {call_list(ahead)}")
        own = next((one for one in self.story.calls if wait in one.waits), None)
        if own is not None and self.story.owners.get(int(holder)) == own.conn:
            found.append(
                f"c{own.conn} is the holder's own connection: what comes behind this call, as device_unlock, isn't taken before "
                "it is answered"
            )
        return found

    def _message(self, number: int, over: bool) -> list[str]:
        """Why a message is under way."""
        held = self.story.held_at(self.lines.steps[number])
        if self.lines.at("held", number) == "none" or held is None:
            return []
        be, has = ("was", "had") if over else ("is", "has")
        since = f"since {millis(held.moment.clock)}"
        found = [
            f"a message{of(self.story.call_of(held))} {be} under way",
            f"its unit `{unit(held.text)}` {has} waited {since} for the scan to be idle",
            self.scan(number, over),
        ]
        source = self.lines.last("source", number)
        if self.lines.at("state", number) == "waiting" and source is not None:
            said = f"{has} been {SOURCES[str(source.new)]}"
            found.append(f"the source {said} since {self.doers.by(source.step)}")
        return found

    def headline(self, call: Call, wait: Wait, over: bool = False) -> str:
        """That a call has waited, since when, and for what; that it had, if that is over."""
        has, since = "had" if over else "has", f"since {millis(wait.begin.moment.clock)}"
        return f"{call.words} {has} waited {since} for {AWAITED[wait.what]}"
