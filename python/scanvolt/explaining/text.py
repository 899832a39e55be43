"""The timeline as text."""

from __future__ import annotations

from collections.abc import Callable, Sequence

from .blocks import Block, Blocks, Row
from .words import millis

DIM = "\x1b[2m"
BOLD = "\x1b[1m"
RED = "\x1b[31m"
GREEN = "\x1b[32m"
YELLOW = "\x1b[33m"
BLUE = "\x1b[34m"
RESET = "\x1b[0m"
WIDTH, INDENT, LABEL = 120, 24, 26  # columns of a line, before what changed, and of a step's name
Paint = Callable[[str, str], str]


def plain(text: str, _colour: str) -> str:
    """A text without colour."""
    return text


def coloured(text: str, colour: str) -> str:
    """A text in a colour of a terminal."""
    return colour + text + RESET if text and colour else text


def wrapped(words: str, room: int, indent: int) -> str:
    """Changes in lines of at most this many columns."""
    found: list[str] = []
    line = ""
    for part in words.split("; "):
        if line and len(line) + 2 + len(part) > room:
            found.append(line + ";")
            line = part
        else:
            line = line + "; " + part if line else part
    return ("\n" + " " * indent).join(found + [line])


def row_text(row: Row, paint: Paint) -> str:
    """What a step changed."""
    label = row.label if row.kind != "event" else ""
    if label:
        indent = INDENT + LABEL + 2
        body = f"{label:<{LABEL}}  {wrapped(row.words, WIDTH - indent, indent)}"
    else:
        body = wrapped(row.words, WIDTH - INDENT, INDENT)
    return " " * INDENT + paint(body.rstrip(), YELLOW if row.kind == "request" else "")


def readings(block: Block) -> str:
    """One reading, or how many until when."""
    if block.times == 1:
        return block.rows[-1].words if block.rows else block.head
    return f"{block.times} readings, until {millis(block.last)}; the last: {block.rows[-1].words}"


def block_text(block: Block, clock: str, paint: Paint) -> list[str]:
    """The lines of a block."""
    start = paint(f"{clock:>8}", DIM) + (" <" if block.kind == "answer" else "  ")
    who = paint(f"{block.who:<10}", BLUE)
    if block.kind == "reading":
        return [f"{start}{who} {readings(block)}"]
    waits = block.kind in ("waits", "queued")
    arrow = "" if not block.reply else " .. " if waits else " -> "
    reply = paint(block.reply, RED if block.is_fault else YELLOW if waits else GREEN)
    if block.times > 1:
        times = paint(f"   {block.times} times, until {millis(block.last)}", DIM)
    else:
        times = ""
    found = [f"{start}{who} {paint(block.head, BOLD)}{arrow}{reply}{times}"]
    found += [row_text(row, paint) for row in block.rows if row.label or row.words]
    return [line for one in found for line in one.split("\n")]


def timeline(blocks: Blocks, colour: bool = False) -> list[str]:
    """The timeline, in lines. `"` stands for the millisecond of the line above."""
    found: list[str] = []
    last = -1
    for block in blocks.all():
        clock = f"{block.clock:,}" if block.clock != last else '"'
        found += block_text(block, clock, coloured if colour else plain)
        last = block.last if block.times > 1 else block.clock
    return found


def newest(lines: Sequence[str], count: int) -> list[str]:
    """The last lines of a timeline, and how many there are before them; none if none are wanted."""
    if count == 0:
        return []
    if len(lines) <= count:
        return list(lines)
    left = len(lines) - count
    return [f"      ..  {left} lines before"] + list(lines[left:])
