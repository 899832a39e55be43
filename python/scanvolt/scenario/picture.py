"""Draws a scenario, 72 columns wide."""

from __future__ import annotations

from .shapes import Pair

WIDTH, HEIGHT = 72, 5  # the columns of a picture, and the lines of a channel in it
LABEL, COLUMNS = 14, WIDTH - 14  # the columns of the labels, and of the plotted values
Span = tuple[int, int]


def spans(pairs: list[Pair], length: int, columns: int) -> list[Span]:
    """For each column of a plot the least and the greatest value that the channel has there."""
    pairs = [(0, 0)] + pairs if not pairs or pairs[0][0] > 0 else pairs
    found: list[Span | None] = [None] * columns
    for (tick, value), (end, _) in zip(pairs, pairs[1:] + [(length + 1, 0)]):
        if tick > length or end <= tick:
            continue
        first, last = tick * columns // (length + 1), (end * columns - 1) // (length + 1)
        for column in range(first, min(last, columns - 1) + 1):
            low, high = found[column] or (value, value)
            found[column] = (min(low, value), max(high, value))
    return [span for span in found if span is not None]


def plot(channel: int, pairs: list[Pair], length: int) -> list[str]:
    """The lines that draw a channel."""
    found = spans(pairs, length, COLUMNS)
    low, high = min(span[0] for span in found), max(span[1] for span in found)
    height = 1 if low == high else HEIGHT
    rows = [[" "] * COLUMNS for _ in range(height)]
    for column, span in enumerate(found):
        top, bottom = (
            round((high - value) * (height - 1) / ((high - low) or 1)) for value in reversed(span)
        )
        for row in range(top, bottom + 1):
            rows[row][column] = "*"
    labels = [f"{high / 1e6:+.6f}"] + [""] * (height - 2) + [f"{low / 1e6:+.6f}"] * (height > 1)
    return [f"channel {channel}, volts"] + [
        (f"{label:>{LABEL - 2}} |{''.join(line)}").rstrip() for label, line in zip(labels, rows)
    ]


def trigger_row(triggers: list[int], length: int) -> list[str]:
    """The lines that draw the external triggers."""
    places = {tick * COLUMNS // (length + 1) for tick in triggers}
    row = "".join("^" if column in places else " " for column in range(COLUMNS))
    head = f"{len(triggers)} external triggers, from {triggers[0] / 1000:.3f} s to {triggers[-1] / 1000:.3f} s"
    return [head, (" " * (LABEL - 2) + f" |{row}").rstrip()]


def picture(plan: dict[int, list[Pair]], triggers: list[int], length: int) -> list[str]:
    """The lines that draw a scenario."""
    drawn: list[str] = []
    for channel in sorted(plan):
        drawn += plot(channel, plan[channel], length)
    if triggers:
        drawn += trigger_row(triggers, length)
    end = f"{length / 1000:.3f} s"
    return drawn + [" " * (LABEL - 1) + "0" + end.rjust(COLUMNS)]
