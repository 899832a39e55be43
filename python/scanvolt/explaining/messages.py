"""The text that writes brought: which call brought the bytes of a unit.

The instrument joins the bytes of all writes. A message ends at NL, and at the end of a write with END. A unit's place counts
the bytes of its message before it (docs/STEPS.md).
"""

from __future__ import annotations

from typing import TYPE_CHECKING

from ..vxi11 import calls

if TYPE_CHECKING:
    from .story import Call

NL = b"\n"


class Text:
    """The bytes that came and whose messages haven't ended."""

    def __init__(self) -> None:
        self.pieces: list[tuple[bytes, Call]] = []  # each with the call that wrote it

    def add(self, call: Call) -> None:
        """A write was taken."""
        self.pieces.append((call.arguments.data, call))

    def drop(self) -> None:
        """All text that hasn't been executed is dropped."""
        self.pieces = []

    def end(self) -> None:
        """The message ended: its bytes are gone, up to the NL or the END that ends it. After that, an empty message may
        have ended that had no unit.
        """
        while self.pieces:
            data, call = self.pieces[0]
            place = data.find(NL)
            if place >= 0:
                self.pieces[0] = (data[place + 1 :], call)
                return
            self.pieces.pop(0)
            if call.arguments.flags & calls.END:
                return

    def writer(self, place: int, unit: bytes) -> Call | None:
        """The call that brought the first byte of a unit; None if the bytes at its place are others."""
        whole = b"".join(data for data, _ in self.pieces)
        if whole[place : place + len(unit)] != unit:
            return None
        for data, call in self.pieces:
            if place < len(data) or not data and call is self.pieces[-1][1]:
                return call
            place -= len(data)
        return self.pieces[-1][1] if self.pieces else None
