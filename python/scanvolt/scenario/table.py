"""Reads voltages from a table in CSV."""

from __future__ import annotations

import csv
from decimal import Decimal

from .shapes import Pair, Wrong, channel_of, microvolts, milliseconds, number


def opened(name: str) -> str:
    """The text of a file."""
    try:
        with open(name, newline="", encoding="utf-8") as file:
            return file.read()
    except (OSError, UnicodeDecodeError) as error:
        raise Wrong(f"{name} can't be read: {error}") from None


def table_line(row: list[str], names: list[int], last: int) -> tuple[int, list[Pair]]:
    """The tick of a line of the table, and its channels and microvolts."""
    if len(row) != 1 + len(names):
        raise Wrong(f"it has {len(row)} fields and not {1 + len(names)}")
    tick = milliseconds(number(row[0].strip(), "a time", Decimal(0)))
    if tick < last:
        raise Wrong("the time is earlier than that of the line before: " + row[0])
    return tick, [
        (channel, microvolts(number(text.strip(), "a voltage")))
        for channel, text in zip(names, row[1:])
        if text.strip()
    ]


def table_head(row: list[str]) -> list[int]:
    """The channels that the first line of a table names."""
    if row[0].strip() != "time" or len(row) < 2:
        raise Wrong("it isn't a line time,CHANNEL,..")
    names = [channel_of(text.strip()) for text in row[1:]]
    if len(set(names)) < len(names):
        raise Wrong("a channel is there twice")
    return names


def table(name: str) -> dict[int, list[Pair]]:
    """The channels of a table, each with its pairs of a tick and microvolts."""
    plan: dict[int, list[Pair]] | None = None
    names: list[int] = []
    last, rows = 0, csv.reader(opened(name).splitlines(keepends=True))
    try:
        for row in filter(None, rows):
            if plan is None:
                names = table_head(row)
                plan = {channel: [] for channel in names}
                continue
            last, values = table_line(row, names, last)
            for channel, value in values:
                plan[channel].append((last, value))
    except (Wrong, csv.Error) as error:
        raise Wrong(f"{name}, line {rows.line_num}: {error}") from None
    if plan is None:
        raise Wrong(f"{name} has no line time,CHANNEL,..")
    return plan
