"""What happens to an instrument, and when: reads a scenario, as `scanvolt serve` takes it (docs/INSTRUMENT.md)."""

from __future__ import annotations

import decimal
import operator
import os
import re
from dataclasses import dataclass
from typing import Union

from .foreign import without_additions
from .vxi11.whole import whole

__tracebackhide__ = True  # pytest shows the line that calls the package, and not these frames
CHANNELS = 128
MOST_MICROVOLTS = 10**9
LONGEST_LINE = 65536  # bytes
SHOWN_MOST = 40  # characters of a bad word that are shown
DIGITS = re.compile(b"[0-9]{1,18}")
CHANNEL = re.compile(b"[1-9][0-9]{0,2}")
LEVEL = re.compile(b"-?[0-9]{1,18}")
Name = Union[str, os.PathLike[str]]
Volts = Union[decimal.Decimal, int, float, str]


@dataclass(frozen=True)
class Entry:
    """What happens at a millisecond, as a line of a replay: the external trigger comes, or an input gets a voltage."""

    clock: int
    line: bytes
    channel: int | None = None
    microvolts: int = 0


@dataclass(frozen=True)
class Bad:
    """A bad line of a scenario: its number, counted from 1, and what is wrong with it."""

    number: int
    line: bytes
    reason: str


def microvolts(volts: Volts) -> int:
    """Volts in whole microvolts, from -1000 V to 1000 V.

    A float, or a number of NumPy that is like one, is rounded to the nearest microvolt. Any other number has to be a
    whole number of microvolts. Raises ValueError if `volts` isn't such a number.
    """
    try:
        plain = _plain(volts)
        exact = decimal.Decimal(repr(plain) if isinstance(plain, float) else plain) * 10**6
        whole = exact.to_integral_value(decimal.ROUND_HALF_UP)
    except (decimal.InvalidOperation, TypeError, ValueError):
        raise ValueError(f"no voltage: {volts!r}") from None
    if not exact.is_finite() or abs(exact) > MOST_MICROVOLTS:
        raise ValueError(f"a voltage of -1000 to 1000 V is wanted: {volts!r}")
    if whole != exact and not isinstance(plain, float):
        raise ValueError(f"a voltage has whole microvolts: {volts!r}")
    return int(whole)


def _plain(volts: Volts) -> decimal.Decimal | int | float | str:
    """A number as Python's own: those of NumPy are written otherwise, or aren't known to Decimal."""
    if isinstance(volts, (str, decimal.Decimal)):
        return volts
    if hasattr(volts, "__index__"):
        return operator.index(volts)
    if not hasattr(volts, "__float__"):  # bytes, of which `float` would read a number
        raise TypeError
    return float(volts)


def input_line(channel: int, volts: Volts) -> bytes:
    """The line that sets the voltage of a channel, 1 to 128."""
    number = whole(channel, 1, CHANNELS, "an input wants a channel")
    return b"input %d %d\n" % (number, microvolts(volts))


def read_scenario(name: Name) -> list[Entry]:
    """The entries of a scenario's file. Raises ValueError at the first bad line, and OSError if the file
    can't be read.
    """
    entries, bad = checked_scenario(name)
    if bad:
        raise ValueError(
            f"bad line {bad[0].number} of the scenario {os.fspath(name)}: {bad[0].reason}"
        )
    return entries


def checked_scenario(name: Name) -> tuple[list[Entry], list[Bad]]:
    """The entries of a scenario's file, and its bad lines. Raises OSError if the file can't be read."""
    with open(name, "rb") as file:
        lines, faults = without_additions(file.read(), os.fspath(name))
    entries: list[Entry] = []
    bad = [Bad(*fault) for fault in faults]
    for number, line in enumerate(lines, 1):
        if line:
            try:
                entries.append(entry_of(line, entries[-1].clock if entries else 0))
            except ValueError as fault:
                bad.append(Bad(number, line, str(fault)))
    return entries, sorted(bad, key=lambda one: one.number)


def entry_of(line: bytes, last: int = 0) -> Entry:
    """The entry in a line. Raises ValueError, with the reason, if the line is bad or its time is before `last`."""
    if len(line) > LONGEST_LINE:
        raise ValueError(f"it has more than {LONGEST_LINE} bytes")
    clock, *words = line.split(b" ")
    if not DIGITS.fullmatch(clock):
        raise ValueError(
            f"a time is a whole number of milliseconds, of 1 to 18 digits, and not {shown(clock)}"
        )
    if int(clock) < last:
        raise ValueError(f"a time may not be before that of the entry before, {last}: {int(clock)}")
    if words == [b"external"]:
        return Entry(int(clock), b"external\n")
    if len(words) != 3 or words[0] != b"input":
        raise ValueError(
            "after the time comes `external` or `input CHANNEL MICROVOLTS`, with one space "
            f"between two words, and not {shown(b' '.join(words))}"
        )
    channel, level = words[1:]
    if not CHANNEL.fullmatch(channel) or int(channel) > CHANNELS:
        raise ValueError(f"a channel is a whole number, 1 to {CHANNELS}, and not {shown(channel)}")
    if not LEVEL.fullmatch(level) or abs(int(level)) > MOST_MICROVOLTS:
        raise ValueError(
            "a voltage is a whole number of microvolts, of at most 18 digits, "
            f"{-MOST_MICROVOLTS} to {MOST_MICROVOLTS}, and not {shown(level)}"
        )
    return Entry(
        int(clock), b"input %d %d\n" % (int(channel), int(level)), int(channel), int(level)
    )


def shown(word: bytes) -> str:
    """A part of a line, in backquotes; of a long one, its start."""
    text = word.decode("latin-1").encode("unicode_escape").decode()
    return f"`{text}`" if len(text) <= SHOWN_MOST else f"`{text[:SHOWN_MOST]}`.."
