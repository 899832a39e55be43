"""Timeouts and other counts of milliseconds: which may be one."""

from __future__ import annotations

from .whole import WORD, whole

__tracebackhide__ = True  # pytest shows the line that calls the package, and not these frames
LONGEST = WORD  # a timeout is a word of four bytes


def milliseconds(count: int, name: str) -> int:
    """The count, if it is a whole number from 0 to LONGEST. If not, raises TypeError or ValueError, which says what
    `name` wants.
    """
    return whole(count, 0, LONGEST, f"{name} wants milliseconds")


class Milliseconds:
    """An attribute that is a count of milliseconds. It is checked when it is set."""

    def __set_name__(self, owner: type, name: str) -> None:
        self._name = name

    def __get__(self, one: object, owner: type) -> int:
        found: int = vars(one)[self._name]
        return found

    def __set__(self, one: object, count: int) -> None:
        vars(one)[self._name] = milliseconds(count, self._name)
