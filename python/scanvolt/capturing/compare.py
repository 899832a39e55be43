"""Compares what a replay sends with what the capture has, and tries other ticks where they differ."""

from __future__ import annotations

import re
import subprocess
import time
from collections.abc import Iterable, Iterator, Sequence
from dataclasses import dataclass

from ..lifeline import Tied
from . import orders
from .flows import Flow, Point, reply_at
from .packets import Fault
from .script import MARKED, Scheduled, script
from .session import Session

NEAR = 100  # starts up to this many milliseconds off are tried
STARTS = 150  # starts farther off: this many are tried for each kind of entry of the scenario
BEFORE, BEHIND = 16, 2  # milliseconds by which an entry may come before a reply, or after it
PATIENCE = 60  # seconds for which other ticks and starts are tried, for one difference
ENDING = 50_000_000  # nanoseconds before the capture's end: replies in them may be missing
LINE = re.compile(r"refused \d+|[ci]\d+ (?:[0-9a-f]{2})+")


@dataclass
class Difference:
    """The first difference. `kind` is `differs`, `missing`, `more` or `refused`. `point` is where it was found,
    `flow` and `place` the byte that differs, and `found` what the replay has there.
    """

    kind: str
    point: int
    flow: Flow | None = None
    place: int = 0
    found: bytes = b""


def replies(
    program: str, lines: list[str], count: int, options: Sequence[str] = ()
) -> list[list[list[str]]]:
    """What the replay prints after each point. `count` is how many points there are."""
    text = "".join(line + "\n" for line in lines).encode()
    try:
        with Tied([program, "replay", *options], subprocess.PIPE) as tied:
            printed, faults = tied.process.communicate(text)
            status = tied.process.returncode
    except OSError as error:
        raise Fault(f"{program} doesn't run: {error.strerror}") from None
    if status != 0:
        raise Fault(f"{program} replay: status {status}, {faults.decode(errors='replace').strip()}")
    blocks: list[list[list[str]]] = [[]]
    for line in printed.decode(errors="replace").splitlines():
        if line == MARKED:
            blocks.append([])
        elif LINE.fullmatch(line):
            blocks[-1].append(line.split())
        else:
            raise Fault(f"{program} replay prints what no replay does: {line[:60]}")
    if len(blocks) <= count:
        raise Fault(
            f"{program} replay ended early, after {len(blocks) - 1} of {count} events, with status 0"
        )
    return blocks[:-1]


class Watch:
    """Is told what a comparison finds and tries. This one does nothing with it."""

    def found(self, difference: Difference) -> None:
        """A difference was found. Other ticks are tried next."""

    def starts(self, difference: Difference) -> None:
        """No other ticks settle the difference. Other starts are tried next."""


class Comparison:
    """A session, and the program that replays it. If the start of the server was told, others are tried only if
    `others` says so.
    """

    def __init__(
        self, session: Session, entries: list[Scheduled], program: str, others: bool = False
    ) -> None:
        self.points = session.points
        self.told = session.told  # whether --start was given
        self.others = others or not self.told
        self.late = False  # whether the time for the last difference was over before all was tried
        self._ending = session.end - session.start - ENDING
        self._entries = entries
        self._program = program
        self._found: dict[int, bytearray] = {}
        self.early = 0  # by how many milliseconds the start is taken earlier than the session says
        self.swapped = 0  # how many calls are taken later than the capture suggests
        self.farthest = 0  # the start tried that is farthest off, in milliseconds

    def _first(self, ticks: list[int], last: int | None = None) -> Difference | None:
        """The first difference up to the point `last`. `ticks` says how many ticks pass before each point."""
        points = self.points if last is None else self.points[: last + 1]
        lines = script(points, ticks, self._entries, mark=True)
        blocks = replies(self._program, lines, len(points))
        self._found = {}
        for number, (point, block) in enumerate(zip(points, blocks)):
            difference = self._at(number, point, block)
            if difference:
                return difference
        return None

    def _at(self, number: int, point: Point, block: list[list[str]]) -> Difference | None:
        """The first difference at a point."""
        for words in block:
            if words[0] == "refused":
                return Difference("refused", number, found=words[1].encode())
            if words[0] in point.owners:
                difference = self._sent(number, point.owners[words[0]], bytes.fromhex(words[1]))
                if difference:
                    return difference
        for flow, count in point.due:
            found = self._found.get(id(flow), b"")
            if len(found) < count:
                return Difference("missing", number, flow, len(found))
        return None

    def _sent(self, number: int, flow: Flow, data: bytes) -> Difference | None:
        """The first difference in what is sent on a flow."""
        found = self._found.setdefault(id(flow), bytearray())
        begun = len(found)
        found += data
        if flow.wanted[begun : len(found)] == data:
            return None
        for place in range(begun, min(len(found), len(flow.wanted))):
            if found[place] != flow.wanted[place]:
                return Difference("differs", number, flow, place, bytes(found))
        # The capture doesn't have this stream to its end, or ends between a call and its reply.
        if flow.loose or self.points[number].time >= self._ending:
            return None
        return Difference("more", number, flow, len(flow.wanted), bytes(found))

    def settle(self, slack: int, watch: Watch | None = None) -> tuple[Difference | None, list[int]]:
        """The first difference that remains if the ticks of each point may be up to `slack` earlier or
        later; and the ticks of each point.
        """
        watch = watch or Watch()
        ticks = [point.ticks for point in self.points]
        while True:
            difference = self._first(ticks)
            if difference is None:
                return None, ticks
            watch.found(difference)
            trial = self._better(ticks, difference, slack, watch)
            if trial is None:
                return difference, ticks
            ticks = trial

    def _better(
        self, ticks: list[int], difference: Difference, slack: int, watch: Watch
    ) -> list[int] | None:
        """Ticks with which there is no difference up to the point of `difference`, if some are found: one
        point is moved, or the start.
        """
        if slack and self._reorder(ticks, difference):
            return ticks
        until = time.monotonic() + PATIENCE
        self.late = False
        for trial in self._trials(ticks, difference, slack):
            if self._is_over(until):
                return None
            if self._first(trial, difference.point) is None:
                return trial
        steps = self._starts(difference) if slack else []
        if steps:
            watch.starts(difference)
        for step in steps:
            if self._is_over(until):
                return None
            self.farthest = max(self.farthest, abs(step))
            trial = [max(0, point.ticks + step) for point in self.points]
            if self._first(trial, difference.point) is None:
                self.early = step
                return trial
        return None

    def _is_over(self, until: float) -> bool:
        """Whether the time for a difference is over. Notes that it is."""
        self.late = time.monotonic() >= until
        return self.late

    def _starts(self, difference: Difference) -> list[int]:
        """By how many milliseconds the server may have started earlier, the least first. Without a scenario, and
        with a start that was told, none is tried. With one, each start that is near, and those at which an entry of the scenario
        comes about the time of the reply that differs. Without --start, the server started no later than the
        first packet.
        """
        if not (self._entries and self.others):
            return []
        at = self.points[difference.point].ticks
        found = set(self._farther(range(-NEAR, NEAR + 1)))
        for kind in ("external", "input"):
            ticks = {tick for tick, line in self._entries if line.startswith(kind)}
            steps = {tick - at + off for tick in ticks for off in range(-BEHIND, BEFORE + 1)}
            found.update(self._farther(steps)[:STARTS])
        return self._farther(found)

    def _farther(self, steps: Iterable[int]) -> list[int]:
        """Those of `steps` that are farther off than the start taken now, the least first."""
        found = [step for step in steps if abs(step) > abs(self.early) and (step > 0 or self.told)]
        return sorted(found, key=lambda step: (abs(step), -step))

    def _reorder(self, ticks: list[int], difference: Difference) -> bool:
        """Whether the difference is gone if a call is taken after another connection's call."""
        flow = difference.flow
        if flow is None:
            return False
        reply = reply_at(flow, difference.place)
        for _ in orders.later(self.points, dict(self._found), difference.point, flow, reply):
            if self._first(ticks, difference.point) is None:
                self.swapped += 1
                return True
        return False

    def _trials(self, ticks: list[int], difference: Difference, slack: int) -> Iterator[list[int]]:
        """Ticks with one point moved, earlier or later: the point of the call's turn, or that of its reply."""
        reply = reply_at(difference.flow, difference.place) if difference.flow else None
        places = [difference.point]
        if reply is not None:
            places = [reply.turn, reply.due]
            if difference.kind == "missing":
                places = [reply.due, reply.turn]
        for count in range(1, slack + 1):
            for place in dict.fromkeys(places):
                for step in (-count, count):
                    trial = self._moved(ticks, place, step)
                    if trial and self._is_near(trial, slack):
                        yield trial

    def _is_near(self, ticks: list[int], slack: int) -> bool:
        return all(
            abs(count - max(0, point.ticks + self.early)) <= slack
            for count, point in zip(ticks, self.points)
        )

    def _moved(self, ticks: list[int], place: int, step: int) -> list[int] | None:
        """The ticks with `step` more or fewer at a point. Points before and after it are moved if order wants it."""
        count = ticks[place] + step
        if count < 0:
            return None
        return (
            [min(one, count) for one in ticks[:place]]
            + [count]
            + [max(one, count) for one in ticks[place + 1 :]]
        )
