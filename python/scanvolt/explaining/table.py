"""The table of the page: the blocks of the timeline as HTML, and the end. It is there without JavaScript too."""

from __future__ import annotations

import html
import re

from .blocks import Block, Blocks, Row
from .slots import Slots
from .text import readings
from .words import millis

LABELS = (
    "because",
    "would end it",
    "would not",
    "not tried",
    "due",
    "behind it",
    "errors",
    "lock",
    "status",
    "response",
    "text",
    "held",
    "on order",
)
BLOCK = (
    '<div class="b %s%s" data-s="%d" data-l="%s"><span class="t%s">%s</span><span class="w %s">%s</span>'
    '<div class="x">%s%s%s</div></div>'
)
COLOURS = 6  # of connections


def table(blocks: Blocks, slots: Slots) -> str:
    """The rows of all blocks."""
    found: list[str] = []
    clock: int | None = None
    for block in blocks.all():
        if block.moment.number >= slots.first:
            found.append(_block(block, slots, block.clock != clock))
            clock = block.last if block.times > 1 else block.clock
    return "\n".join(found)


def _block(block: Block, slots: Slots, is_new: bool) -> str:
    """The row of a block."""
    place = slots.last(block.moment) if block.kind == "answer" else slots.at(block.moment.steps[0])
    call = block.call
    if block.kind == "reading":
        rows = ""
    else:
        rows = "".join(_row(row, slots, place) for row in block.rows if row.label or row.words)
    who, colour = block.who.replace("link ", "L"), f"c{call.conn % COLOURS}" if call else "c9"
    return BLOCK % (
        block.kind,
        " err" if block.is_fault else "",
        place,
        call.link or "" if call else "",
        " new" if is_new else "",
        millis(block.clock)[:-3],
        colour,
        html.escape(who),
        _head(block),
        _reply(block),
        rows,
    )


def _head(block: Block) -> str:
    """What happened: the name of a call, and its arguments."""
    if block.kind == "reading":
        return html.escape(readings(block))
    if block.call is None:
        return html.escape(block.head)
    name, _, more = block.head.partition(" ")
    mark = "‹ " if block.kind == "answer" else ""
    rest = f" <code>{html.escape(more)}</code>" if more else ""
    return f"{mark}<b>{html.escape(name.replace('device_', ''))}</b>{rest}"


def _reply(block: Block) -> str:
    found = ""
    if block.reply:
        arrow = "…" if block.kind in ("waits", "queued") else "→"
        found = f' <span class="re">{arrow} {html.escape(block.reply)}</span>'
    if block.times > 1 and block.kind == "call":
        found += f' <span class="dim">{block.times} times, until {millis(block.last)}</span>'
    return found


def _row(row: Row, slots: Slots, place: int) -> str:
    """What a step changed."""
    label = row.label if row.kind != "event" else ""
    kind = "srq" if row.kind == "request" else "u" if row.kind in ("unit", "interrupt") else ""
    at = slots.at(row.step) if row.step else place
    code = f"<code>{html.escape(label)}</code> " if label else ""
    return f'<div class="r {kind}" data-s="{at}">{code}{_chips(row.words)}</div>'


def _chips(words: str) -> str:
    """Changes, each as a chip."""
    found = []
    for part in words.split("; ") if words else ():
        if part.startswith("error -") and "taken" not in part:
            kind = "bad"
        elif part.startswith("STB"):
            kind = "st"
        else:
            kind = ""
        found.append(f'<span class="ch {kind}">{html.escape(part)}</span>')
    return " ".join(found)


def ending(lines: list[str]) -> str:
    """The lines of the end, each with its label at the left."""
    found = []
    for line in lines[1:]:
        label, words, deep = _labelled(line)
        who = not label and len(line) - len(line.lstrip()) == 2
        kind, said = "e who" if who else "e", html.escape(re.sub(" {2,}", ", ", words))
        found.append(
            f'<div class="{kind}"><span>{label}</span><div class="d{deep}">{said}</div></div>'
        )
    return "".join(found)


def _labelled(line: str) -> tuple[str, str, int]:
    """The label of a line, its words, and how deep they are."""
    words = line.strip()
    label = next(
        (
            one
            for one in LABELS
            if words.startswith(one + " ") and len(line) - len(line.lstrip()) <= 4
        ),
        "",
    )
    deep = 0 if label else min(4, max(0, len(line) - len(line.lstrip()) - 18) // 2)
    return label, words[len(label) :].strip(), deep
