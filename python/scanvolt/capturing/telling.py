"""What a comparison prints while it runs: the first difference at once, then what is tried, and at the end what remains."""

from __future__ import annotations

import signal

from . import compare
from .compare import Comparison, Difference, Watch
from .session import Session
from .told import counted, summary, told


def say(lines: list[str]) -> None:
    """Prints lines at once. If the reader of the output has ended (SIGPIPE), this process ends too. At other times
    SIGPIPE is ignored, since a program that replays may end before it has read its script.
    """
    signal.signal(signal.SIGPIPE, signal.SIG_DFL)
    print("\n".join(lines), flush=True)
    signal.signal(signal.SIGPIPE, signal.SIG_IGN)


class Telling(Watch):
    """Prints what a comparison finds and tries."""

    def __init__(self, session: Session, slack: int) -> None:
        self._session = session
        self._slack = slack
        self._shown: Difference | None = None
        self._begun = False

    def begin(self) -> None:
        """Prints what the capture has, before anything else."""
        if not self._begun:
            self._begun = True
            say(["capture: " + summary(self._session)])

    def _show(self, head: str, difference: Difference) -> None:
        """Prints a difference, unless it was the last one that was printed."""
        self.begin()
        if difference != self._shown:
            self._shown = difference
            say(["capture: " + head] + told(self._session, difference))

    def found(self, difference: Difference) -> None:
        """Prints the first difference, and that other ticks are tried."""
        if self._shown is None:
            self._show("at the times of the capture, the first difference is this:", difference)
            if self._slack:
                slack = counted(self._slack, "millisecond")
                say(
                    [
                        f"capture: other ticks are tried, up to {slack} earlier or later, for at most {compare.PATIENCE:g} s"
                    ]
                )

    def starts(self, difference: Difference) -> None:
        """Prints the difference that other ticks don't settle, and that other starts are tried."""
        self._show("other ticks settle that; then the first difference is this:", difference)
        say([f"capture: other starts of the server are tried, for at most {compare.PATIENCE:g} s"])

    def remains(self, difference: Difference, comparison: Comparison) -> None:
        """Prints the difference that remains."""
        if difference != self._shown:
            self._show("the difference that remains with other ticks:", difference)
        elif self._slack:
            tried = (
                f"what could be tried in {compare.PATIENCE:g} s"
                if comparison.late
                else "all that was tried"
            )
            say([f"capture: the difference remains with {tried}"])
