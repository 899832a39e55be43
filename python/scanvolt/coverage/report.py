"""The table of what was met, and the summary in one line."""

from __future__ import annotations

from collections import Counter
from collections.abc import Mapping

from ..explaining.text import wrapped
from .counting import Item, everything

WIDTH, INDENT = 120, 4  # columns


class Report:
    """What was met of all that can be: of entries that aren't in the lists, nothing is said."""

    def __init__(self, found: Mapping[Item, int]) -> None:
        self._counts: Counter[Item] = Counter({item: found.get(item, 0) for item in everything()})
        self._lists: dict[str, list[Item]] = {}
        for item in everything():
            self._lists.setdefault(item[0], []).append(item)

    def _met(self, items: list[Item]) -> int:
        return sum(self._counts[item] > 0 for item in items)

    @property
    def parts(self) -> tuple[int, int]:
        """How many were met, and how many there are."""
        return self._met(list(self._counts)), len(self._counts)

    @property
    def _percent(self) -> float:
        met, there = self.parts
        return 100 * met / there

    def summary(self) -> str:
        """The summary in one line."""
        parts = [
            f"{name} {self._met(items)} of {len(items)}" for name, items in self._lists.items()
        ]
        met, count = self.parts
        return f"coverage of the instrument: {met} of {count}, {self._percent:.0f} %: {', '.join(parts)}"

    def lines(self, everything_met: bool = False) -> list[str]:
        """The table: of each list what wasn't met; if all is wanted, also how often the rest was met."""
        found: list[str] = []
        for name, items in self._lists.items():
            missing = [words for _, words in items if not self._counts[_, words]]
            told = "" if missing else "all"
            found.append(f"{name:<24}{self._met(items):4d} of {len(items):<4d}{told}")
            if everything_met:
                found += [f"{self._counts[item]:8d}  {item[1]}" for item in items]
            elif missing:
                found.append(
                    " " * INDENT + wrapped("not met: " + "; ".join(missing), WIDTH - INDENT, INDENT)
                )
        return found

    def below(self, least: float) -> str:
        """Says so if less than so many percent were met; empty if not."""
        if self._percent >= least:
            return ""
        return f"coverage of the instrument: {self._percent:.1f} % is below {least:g} %"
