"""A session as one page that needs nothing else: lanes over an axis of steps or of time, a table, and the causes of each value.

The page has its data, its style and its scripts in itself. Its policy forbids all requests, and all scripts but its own.
"""

from __future__ import annotations

import base64
import hashlib
import html
import json
import pathlib
import re
from typing import TYPE_CHECKING

from .blocks import Blocks
from .lanes import Lanes
from .slots import Slots
from .table import ending, table
from .telling import numbers
from .words import counted, millis

if TYPE_CHECKING:
    from .explanation import Explanation

HERE = pathlib.Path(__file__).resolve().parent
LEAST = 8  # characters of a millisecond in the table, for which there is room
SCRIPTS = ("axis.js", "drawing.js", "looking.js")
POLICY = "default-src 'none'; style-src 'unsafe-inline'; script-src 'sha256-%s'; base-uri 'none'; form-action 'none'"


def page(found: Explanation, title: str) -> str:
    """The page of a session."""
    slots = Slots(found.story)
    script = "\n".join(part(name) for name in SCRIPTS)
    checksum = base64.b64encode(hashlib.sha256(script.encode()).digest()).decode()
    values: dict[str, str] = {
        "TITLE": html.escape(title),
        "POLICY": POLICY % checksum,
        "FACTS": html.escape(facts(found, slots)),
        "CLOCK": str(wide(found)),
        "TABLE": table(Blocks(found.reasons), slots),
        "END": ending(found.end_lines()),
        "DATA": data(found, slots),
        "CSS": part("page.css"),
        "JS": script,
    }
    return filled(part("page.html"), values)


def part(name: str) -> str:
    """A file of which the page is made."""
    return (HERE / name).read_text(encoding="utf-8")


def filled(text: str, values: dict[str, str]) -> str:
    """A text with values in place of `{{NAME}}`: in one pass, since values may have braces."""
    return re.sub(r"\{\{(\w+)\}\}", lambda place: values[place[1]], text)


def wide(found: Explanation) -> int:
    """How many characters the table needs for a millisecond."""
    return max(LEAST, len(millis(found.story.clock)))


def data(found: Explanation, slots: Slots) -> str:
    """What the scripts draw, as JSON. `<` is escaped, since `<!--<script>` in a unit would end the page."""
    lanes, doers = Lanes(found.reasons, slots), found.reasons.doers
    rows: list[list[object]] = []
    for step in slots.found:
        call = found.story.call_of(step)
        if step.kind == "event":
            label = call.words if call else doers.event(step.moment)
        else:
            label = doers.label(step)
        rows.append([step.moment.clock, step.moment.line, step.kind, label])
    folded = [
        [moment.clock, change.new]
        for moment in found.story.moments
        if moment.number in slots.folded and moment.number >= slots.first
        for change in [moment.steps[0].of("readings")]
        if change is not None
    ]
    drawn = {
        "clock": found.story.clock,
        "slots": rows,
        "calls": [lanes.call(one) for one in lanes.calls()],
        "links": lanes.places(),
        "signals": lanes.signals(),
        "units": lanes.units(),
        "requests": lanes.requests(),
        "folded": folded,
    }
    return json.dumps(drawn, separators=(",", ":")).replace("<", "\\u003c")


def facts(found: Explanation, slots: Slots) -> str:
    """A few numbers about the session."""
    story = found.story
    errors = sum(1 for one in story.calls if one.answer and one.answer.is_fault)
    queued = sum(
        max(0, len(numbers(one.new)) - len(numbers(one.old)))
        for one in story.lines.history.get("errors", ())
    )
    said = [millis(story.clock), counted(len(story.calls), "call")]
    if slots.first:
        shown = sum(1 for one in story.calls if one.arrived.number >= slots.first)
        said.append(f"only the last {counted(shown, 'call')} are shown")
    said += [f"{errors} returned an error"] if errors else []
    said += [counted(queued, "instrument error")] if queued else []
    waiting = len(story.waiting())
    verb = "waits" if waiting == 1 else "wait"
    return " · ".join(said + [f"{waiting} still {verb}" if waiting else "none waits"])
