"""Shapes: how the voltage of a channel goes, as pairs of a tick and microvolts."""

from __future__ import annotations

import math
import random
import re
from collections.abc import Callable
from decimal import ROUND_HALF_UP, Decimal, InvalidOperation

from ..stimulus import CHANNELS, MOST_MICROVOLTS

LIMIT = MOST_MICROVOLTS // 10**6  # volts
Pair = tuple[int, int]


class Wrong(Exception):
    """The arguments ask for what can't be done."""


def number(text: str, what: str, least: Decimal | None = None) -> Decimal:
    """A number of seconds or volts."""
    try:
        value = Decimal(text)
    except InvalidOperation:
        value = Decimal("NaN")
    if not value.is_finite() or abs(value) > 10**12:
        raise Wrong(f"{what} is no number, or too large a one: {text}")
    if least is not None and value < least:
        raise Wrong(f"{what} is below {least}: {text}")
    return value


def whole(text: str, what: str, least: int, most: int) -> int:
    """A whole number in this range."""
    if not (re.fullmatch("[0-9]{1,20}", text) and least <= int(text) <= most):
        raise Wrong(f"{what} isn't a whole number from {least} to {most}: {text}")
    return int(text)


def channel_of(text: str) -> int:
    return whole(text, "a channel", 1, CHANNELS)


def channels_of(text: str) -> list[int]:
    """The channels that an argument names: CHANNEL, or FIRST:LAST."""
    first, colon, last = text.partition(":")
    begin = channel_of(first)
    end = channel_of(last) if colon else begin
    if end < begin:
        raise Wrong(f"a range of channels ends before it begins: {text}")
    return list(range(begin, end + 1))


def microvolts(volts: Decimal) -> int:
    """Volts in microvolts, rounded to the nearest, halves away from zero."""
    if abs(volts) > LIMIT:
        raise Wrong(f"a voltage is beyond {LIMIT} V: {volts}")
    return int((volts * 1000000).quantize(Decimal(1), ROUND_HALF_UP))


def milliseconds(seconds: Decimal) -> int:
    return int((seconds * 1000).quantize(Decimal(1), ROUND_HALF_UP))


def fields(words: list[str], least: int, most: int, shape: str) -> list[str]:
    """The fields of a shape. Raises Wrong unless there are `least` to `most`."""
    if not least <= len(words) <= most:
        raise Wrong("a shape isn't as --help has it: " + shape)
    return words


def volts(text: str) -> float:
    return float(number(text, "a voltage"))


def function_of(
    kind: str, words: list[str], shape: str, length: int, place: int
) -> Callable[[int], float]:
    """The function from a tick to the voltage, for a ramp, sine or noise. `place` is the place of the channel in
    its range.
    """
    words = fields(words, 2 if kind == "ramp" else 3, 3, shape)
    first, second = volts(words[0]), volts(words[1])
    if kind == "noise":
        source = random.Random(whole(words[2], "a seed", 0, 10**18) + place)
        return lambda tick: first + second * (2 * source.random() - 1)
    period = milliseconds(number(words[2], "a time", Decimal("0.001"))) if words[2:] else length
    if kind == "sine":
        return lambda tick: first + second * math.sin(2 * math.pi * tick / period)
    # A repeated ramp starts again after each period. One without a period reaches the second voltage at the end.
    again = bool(words[2:])
    return lambda tick: first + (second - first) * (tick % period if again else tick) / period


def steps(words: list[str], shape: str) -> list[Pair]:
    """The pairs of `steps`."""
    pairs: list[Pair] = []
    for word in fields(words, 1, 1, shape)[0].split(","):
        height, at, seconds = word.partition("@")
        if not at:
            raise Wrong("a step isn't VOLTS@SECONDS: " + word)
        tick = milliseconds(number(seconds, "a time", Decimal(0)))
        if pairs and tick < pairs[-1][0]:
            raise Wrong("a step is earlier than the step before it: " + word)
        pairs.append((tick, microvolts(number(height, "a voltage"))))
    return pairs


def changes(shape: str, every: int, length: int, place: int = 0) -> list[Pair]:
    """The pairs of a shape."""
    kind, *words = shape.split(":")
    if kind in ("ramp", "sine", "noise"):
        function = function_of(kind, words, shape, length, place)
        ticks = range(0, length + 1, every)
        return [(tick, microvolts(Decimal(round(function(tick), 6)))) for tick in ticks]
    if kind == "steps":
        return steps(words, shape)
    fields(words, 0, 0, shape)
    return [(0, microvolts(number(kind, "a voltage, or a shape's name,")))]
