"""Whole numbers that a caller gives: which may be one."""

from __future__ import annotations

import operator

__tracebackhide__ = True  # pytest shows the line that calls the package, and not these frames
WORD = 2**32 - 1  # the greatest number of four bytes


def whole(number: int, least: int, most: int, wants: str) -> int:
    """The number, if it is whole and from `least` to `most`. If not, raises TypeError or ValueError, whose text begins
    with `wants`: who wants what.
    """
    wanted = f"{wants}, a whole number from {least} to {most}, and not {number!r}"
    try:
        found = operator.index(number)
    except TypeError:
        raise TypeError(wanted) from None
    if isinstance(number, bool):
        raise TypeError(wanted)
    if not least <= found <= most:
        raise ValueError(wanted)
    return found
