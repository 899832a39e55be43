"""What traces say of faults on order."""

from __future__ import annotations

from collections.abc import Sequence
from dataclasses import dataclass

SHOWN = 5  # faults that the end of a trace lists; of more, the last


@dataclass(frozen=True)
class Told:
    """A fault that came: when, by the meter's clock in milliseconds, after which line of the session's script, to whom
    (`c0 link 1`), and what it was, in words.
    """

    line: int
    clock: int
    who: str
    words: str

    def __str__(self) -> str:
        return "fault on order: " + self.words


def end_lines(faults: Sequence[Told]) -> list[str]:
    """The lines about faults at the end of a trace; none if none came."""
    found = [f"{one.clock:,} ms, {one.who}: {one.words}" for one in faults[-SHOWN:]]
    if len(faults) > SHOWN:
        found.insert(0, f"{len(faults)} came; the last:")
    labels = ["on order"] + [""] * (len(found) - 1)
    return [f"  {label:<10}{line}" for label, line in zip(labels, found)]
