"""The lines of a replay script: events, ticks, and the entries of a scenario."""

from __future__ import annotations

from ..stimulus import read_scenario
from .flows import Point
from .packets import Fault

MOST = 1_000_000  # ticks of one line
# A line that is refused and changes nothing: its output shows how far the replay is.
MARK, MARKED = "input 0 0", "refused 8"
Scheduled = tuple[int, str]


def scenario(path: str) -> list[Scheduled]:
    """The entries of a scenario: the tick, and the line of a replay."""
    try:
        return [(entry.clock, entry.line.decode().rstrip("\n")) for entry in read_scenario(path)]
    except ValueError as error:
        raise Fault(str(error)) from None
    except OSError as error:
        raise Fault(f"the scenario can't be read: {error}") from None


class _Clock:
    """Writes ticks, and before and after each tick the entries of the scenario that are due."""

    def __init__(self, entries: list[Scheduled]) -> None:
        self._entries = entries
        self._next = 0
        self._ticks = 0

    def _due(self, lines: list[str]) -> None:
        while self._next < len(self._entries) and self._entries[self._next][0] <= self._ticks:
            lines.append(self._entries[self._next][1])
            self._next += 1

    def reach(self, ticks: int, lines: list[str]) -> None:
        """Lets time pass until this many ticks have passed since the start."""
        self._due(lines)
        while self._ticks < ticks:
            count = min(ticks - self._ticks, MOST)
            if self._next < len(self._entries):
                count = min(count, self._entries[self._next][0] - self._ticks)
            lines.append("tick" if count == 1 else f"tick {count}")
            self._ticks += count
            self._due(lines)


def script(
    points: list[Point], ticks: list[int], entries: list[Scheduled], mark: bool = False
) -> list[str]:
    """The lines of these points. `ticks` says how many ticks pass before each."""
    clock = _Clock(entries)
    lines: list[str] = []
    for point, count in zip(points, ticks):
        clock.reach(count, lines)
        lines += point.lines
        if mark:
            lines.append(MARK)
    return lines
