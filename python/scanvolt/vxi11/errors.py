"""The errors of VXI-11 (revision 1.0, table B.2)."""

from __future__ import annotations

from collections.abc import Callable

__tracebackhide__ = True  # pytest shows the line that calls the package, and not these frames
NAMES = {
    1: "syntax error",
    3: "device not accessible",
    4: "invalid link identifier",
    5: "parameter error",
    6: "channel not established",
    8: "operation not supported",
    9: "out of resources",
    11: "device locked by another link",
    12: "no lock held by this link",
    15: "I/O timeout",
    17: "I/O error",
    21: "invalid address",
    23: "abort",
    29: "channel already established",
}

SYNTAX_ERROR = 1
NOT_ACCESSIBLE = 3
INVALID_LINK = 4
PARAMETER_ERROR = 5
NOT_ESTABLISHED = 6
NOT_SUPPORTED = 8
OUT_OF_RESOURCES = 9
LOCKED = 11
NO_LOCK = 12
IO_TIMEOUT = 15
IO_ERROR = 17
INVALID_ADDRESS = 21
ABORTED = 23
ALREADY_ESTABLISHED = 29
EARLY = 5  # milliseconds by which a timeout may seem to be early, by this machine's clock


class DeviceError(Exception):
    """An error that the instrument returned: its number, and its name in the standard.

    `call` is the call and its link, in words. If the error is that of a timeout, `timeout` is the timeout. `waited`
    is for how long the call waited, and `clock` when it was answered, by the clock of a meter in virtual time; all
    are in milliseconds. What isn't known is None. `tell` makes the notes of a virtual instrument, which tracebacks show
    (Python 3.11 and later, and pytest): why the call ended so. They are made when they are first asked for.
    """

    def __init__(self, number: int, name: str = "") -> None:
        self.number = number
        self.name = name or NAMES.get(number, "reserved error")
        self.call: str | None = None
        self.timeout: int | None = None
        self.waited: float | None = None
        self.clock: int | None = None
        self.tell: Callable[[], list[str]] | None = None
        self._notes: list[str] | None = None
        super().__init__(number, self.name)

    @property
    def __notes__(self) -> list[str]:
        """The lines that a traceback shows below the error."""
        if self._notes is None:
            self._notes = [] if self.tell is None else self.tell()
            self.tell = None
        return self._notes

    def __reduce__(self) -> tuple[object, ...]:
        """A copy in another process has no meter to ask."""
        return type(self), (self.number, self.name), {**self.__dict__, "tell": None}

    def __str__(self) -> str:
        if self.call is None:
            return f"{self.name} (VXI-11 error {self.number})"
        told = f"{self.call}: {self.name} ({self.number})"
        if self.timeout is not None:
            whole = self.waited is None or self.waited >= self.timeout - EARLY
            if whole:
                told += f", after {self.timeout} ms"
            else:
                told += f", after {int(self.waited or 0)} of {self.timeout} ms"
        return told + ("" if self.clock is None else f", at {self.clock} ms of the meter's clock")
