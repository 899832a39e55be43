"""What a meter in virtual time says of itself: why a call can't be answered, and the notes of its errors."""

from __future__ import annotations

from typing import TYPE_CHECKING

from ..program import ProgramError
from .ending import Ending
from .explanation import Explanation
from .story import Call, call_words

if TYPE_CHECKING:
    from ..replay import Moment
    from ..virtual import Meter, Pending

PATIENCE = 5.0  # seconds that an explanation may take while a call or a traceback waits for it
MOST = 500000  # bytes of a session's lines that are explained without being asked
LEFT = 12  # columns of a label


def of_meter(meter: Meter, moment: Moment | None = None) -> Explanation | None:
    """The explanation of a meter's session, until now or until a moment of it; None if there can't be one in a few seconds, as
    with an earlier program.
    """
    if meter._replay.log is None or meter._replay.size > MOST:
        return None
    try:
        return Explanation(meter._replay.script(moment), meter._replay.path, PATIENCE)
    except (ProgramError, ValueError):
        return None


def why_no_answer(meter: Meter, pending: Pending[object]) -> str | None:
    """Why a call can't be answered, if nothing is due within the meter's patience that could end the wait for it; None if it may
    be answered.
    """
    if meter._ahead and meter._ahead[0].clock <= meter.clock + meter.patience:
        return None
    found = of_meter(meter)
    if found is None:
        return None
    return _hopeless(found, pending.connection.number, pending.xid, meter.patience)


def _hopeless(found: Explanation, conn: int, xid: int, patience: int) -> str | None:
    """Why a call of a connection can't be answered within this many milliseconds."""
    story = found.story
    waiting = story.waiting()
    first = next((one for one in waiting if one.conn == conn), None)
    until = story.clock + patience
    due = [
        one
        for one in waiting
        if one.waits[-1].deadline is not None and one.waits[-1].deadline <= until
    ]
    if first is None or due or story.value("state") == "scanning":
        return None
    own = _call(found, conn, xid)
    told = f"{call_words(first)} can't be answered: nothing is due that ends its wait"
    if own is not None and own is not first:
        told = f"{own.name} of c{conn} isn't taken: it is behind {call_words(first)}, which can't be answered"
    lines = found.reasons.why(first.waits[-1], story.end)
    ends = [str(one) for one in found.tried.of(first) if one.is_end]
    rows = [("because" if place == 0 else "", line) for place, line in enumerate(lines)]
    rows += [("would end it" if place == 0 else "", line) for place, line in enumerate(ends)]
    return "\n".join([told] + [f"  {label:<{LEFT}}  {line}" for label, line in rows])


def notes(meter: Meter, conn: int, xid: int, moment: Moment) -> list[str]:
    """Two lines about a call that ended with an error at a moment of the session: what it waited for, and why; or else the
    first lines of the end.
    """
    found = of_meter(meter, moment)
    return [] if found is None else note(found, conn, xid)


def note(found: Explanation, conn: int, xid: int) -> list[str]:
    """The two lines, of an explanation that ends with the error."""
    call = _call(found, conn, xid)
    if call is None or not call.waits or call.waits[-1].end is None:
        return Ending(found.reasons).first_lines()
    wait = call.waits[-1]
    number = wait.end.number - 1 if wait.end is not None else found.story.end
    return [
        f"{call.who}: {found.reasons.headline(call, wait, True)}",
        "because " + found.reasons.brief(wait, number, True),
    ]


def _call(found: Explanation, conn: int, xid: int) -> Call | None:
    return next(
        (one for one in reversed(found.story.calls) if one.conn == conn and one.message.xid == xid),
        None,
    )
