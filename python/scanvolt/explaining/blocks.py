"""The timeline as blocks: one for each thing that happened, with what it changed. Noise is left out, repetitions are folded."""

from __future__ import annotations

from collections.abc import Iterator
from dataclasses import dataclass, field, replace

from .lines import Moment, Step
from .reasons import Reasons
from .story import Call, Story
from .tables import REFUSED
from .words import escaped, millis

# what changes in a millisecond that only takes a reading
READING = {"reading", "readings", "place"}


@dataclass
class Row:
    """What a step changed: the step's name, and words."""

    label: str
    words: str
    step: Step | None = None
    kind: str = ""


@dataclass
class Block:
    """One thing that happened. If it happened several times in a row, `times` says how often and `last` until when. Its kind is
    `call`, `waits`, `queued`, `answer`, `reading`, `time`, `event`, `refused` or `fault`.
    """

    moment: Moment
    who: str
    head: str
    kind: str
    reply: str = ""
    is_fault: bool = False
    rows: list[Row] = field(default_factory=list)
    call: Call | None = None
    times: int = 1
    last: int = 0

    @property
    def clock(self) -> int:
        """Its millisecond."""
        return self.moment.clock

    def _repeats(self, other: Block) -> bool:
        """Whether it is the same call as another one, with the same reply, and nothing changed."""
        mine, others = ((one.who, one.head, one.reply, one.kind) for one in (self, other))
        return self.kind == "call" and mine == others and not self.rows and not other.rows


class _Ordered:
    """The blocks of faults on order, between the blocks of what the instrument saw."""

    def __init__(self, story: Story) -> None:
        self._left, self._last = list(story.faults), story.moments[0] if story.moments else None

    def before(self, moment: Moment) -> list[Block]:
        """The faults that came before an event."""
        count = sum((one.line, one.clock) < (moment.line, moment.clock) for one in self._left)
        found, self._last = self._blocks(count), moment
        return found

    def rest(self) -> list[Block]:
        """The faults that came after the last event."""
        return self._blocks(len(self._left))

    def _blocks(self, count: int) -> list[Block]:
        taken, self._left = self._left[:count], self._left[count:]
        return [
            Block(replace(self._last, clock=one.clock), one.who, str(one), "fault", is_fault=True)
            for one in taken
            if self._last is not None
        ]


class Blocks:
    """Makes the blocks of a session."""

    def __init__(self, reasons: Reasons) -> None:
        self._reasons = reasons
        self._doers = reasons.doers
        self._telling = reasons.telling
        self._story = reasons.story
        self._everything = self._telling.everything

    def all(self) -> list[Block]:
        """All that happened, folded."""
        found: list[Block] = []
        faults = _Ordered(self._story)
        for moment in self._story.moments:
            found += faults.before(moment)
            for block in self._of(moment):
                last = found[-1] if found else None
                if last and last.kind == block.kind == "reading" and not self._everything:
                    last.times, last.last, last.rows = last.times + 1, block.clock, block.rows
                elif last and last._repeats(block) and not self._everything:
                    last.times, last.last = last.times + 1, block.clock
                else:
                    found.append(block)
        return found + faults.rest()

    def _of(self, moment: Moment) -> Iterator[Block]:
        """The blocks of an event."""
        kind, rows = moment.kind, self._rows(moment)
        call = self._story.of_moment.get(moment.number)
        replied = self._story.replied.get(moment.number, [])
        if moment.refused is not None:
            yield self._refused(moment, rows)
            return
        if kind == "bytes" and not self._everything:
            yield from self._queued(moment, rows)
        elif kind == "dialed" and call and call in replied and not self._everything:
            yield Block(
                moment,
                call.who,
                call.words,
                "call",
                call.reply.words,
                call.reply.is_fault,
                rows,
                call,
            )
            return
        elif kind in ("turn", "refuse") and call:
            if self._dials_at_once(call, moment):
                return
            yield self._turn(moment, call, call in replied, rows)
        elif kind == "tick":
            if not rows and not replied:
                return
            yield self._tick(moment, rows)
        else:
            yield self._event(moment, rows)
        for one in replied:
            if one is not call or kind not in ("turn", "refuse"):
                waited = f"   after {millis(moment.clock - one.turned.clock)}" if one.turned else ""
                yield Block(
                    moment,
                    one.who,
                    one.words,
                    "answer",
                    one.reply.words + waited,
                    one.reply.is_fault,
                    [],
                    one,
                )

    def _rows(self, moment: Moment) -> list[Row]:
        """What the steps of an event changed, and the service requests that it sends."""
        rows: list[Row] = []
        for step in moment.steps:
            told = [words for words in map(self._telling.change, step.changes) if words]
            if step.kind == "interrupt":
                told.insert(0, "comes before the last response was read to its end")
            if told or step.is_unit or step.conn is not None or self._everything:
                rows.append(Row(self._doers.label(step), "; ".join(told), step, step.kind))
        for conn, handle in self._story.requests.get(moment.number, ()):
            rows.append(Row("service request", f'"{escaped(handle)}" to c{conn}', None, "request"))
        return rows

    def _refused(self, moment: Moment, rows: list[Row]) -> Block:
        assert moment.refused is not None
        reply = f"refused {moment.refused}: {REFUSED.get(moment.refused, 'unknown')}"
        return Block(
            moment,
            "script",
            " ".join(moment.words)[:40],
            "refused",
            reply,
            True,
            rows if self._everything else [],
        )

    def _queued(self, moment: Moment, rows: list[Row]) -> Iterator[Block]:
        """Calls that come and aren't taken with the next event."""
        for one in self._story.came.get(moment.number, ()):
            if one.turned is None or one.turned.number > moment.number + 1:
                yield Block(
                    moment,
                    one.who,
                    one.words,
                    "queued",
                    "comes, and isn't taken yet",
                    False,
                    [],
                    one,
                )
        if rows:
            yield Block(moment, "c" + moment.words[1], "bytes", "event", "", False, rows)

    def _dials_at_once(self, call: Call, moment: Moment) -> bool:
        """Whether a create_intr_chan is connected in the same millisecond: then that is told and not the wait."""
        return bool(
            not self._everything
            and call.waits
            and call.waits[0].what == "dial"
            and call.ended
            and call.ended is not moment
            and call.ended.clock == moment.clock
        )

    def _turn(self, moment: Moment, call: Call, ended: bool, rows: list[Row]) -> Block:
        """A call that is taken: its reply, or what it waits for."""
        block = Block(moment, call.who, call.words, "call", "", False, rows, call)
        if ended:
            block.reply, block.is_fault = call.reply.words, call.reply.is_fault
            if (
                len(rows) == 1
                and rows[0].kind == "unit"
                and not rows[0].words
                and not self._everything
            ):
                block.rows = []
        elif call.waits and rows and rows[0].kind == "event":
            wait = call.waits[0]
            block.kind, block.reply, block.rows = "waits", rows[0].words, rows[1:]
            brief = self._reasons.brief(wait, wait.begin.number)
            if wait.what != "lock" and brief:
                block.rows.insert(0, Row("", "because " + brief))
        return block

    def _tick(self, moment: Moment, rows: list[Row]) -> Block:
        """A millisecond that passes."""
        changed = {change.name for change in moment.changes()}
        if len(moment.steps) == 1 and changed <= READING and "reading" in changed:
            kind = "reading"
        else:
            kind = "time"
        shown = [row for row in rows if row.kind != "timeout" or row.words or self._everything]
        head = self._brings(moment)
        if (
            kind == "time"
            and not self._everything
            and shown
            and shown[0].words.startswith(head + "; ")
        ):
            shown[0].words = shown[0].words[len(head) + 2 :]
        return Block(moment, "time", head, kind, "", False, shown)

    def _brings(self, moment: Moment) -> str:
        """What a millisecond brings."""
        state = next((one for one in moment.changes() if one.name == "state"), None)
        late = [step for step in moment.steps if step.kind == "timeout"]
        if state is not None and state.new == "idle":
            return "the last reading: the scan is done"
        if state is not None and state.new == "waiting":
            return "a scan is done, the next one waits"
        if late:
            return "timeout of " + " and ".join(
                self._doers.label(step).replace(" times out", "") for step in late
            )
        return self._doers.event(moment)

    def _event(self, moment: Moment, rows: list[Row]) -> Block:
        """An event of the script that takes no call."""
        kind, reply = moment.kind, ""
        if kind == "external" and not rows:
            source = self._telling.at("source", moment.steps[0])
            state = self._telling.at("state", moment.steps[0])
            if state == "waiting":
                does = f"waits for another trigger, {source.upper()}"
            else:
                does = f"is {state}"
            reply = f"ignored: the scan {does}"
        if kind in ("turn", "refuse"):
            reply = "takes no call"
        if kind in ("input", "external") or len(moment.words) < 2:
            who = "script"
        else:
            who = "c" + moment.words[1].lstrip("ci")
        return Block(moment, who, self._doers.event(moment), "event", reply, False, rows)
