"""Who did a step: a unit and its message, a call, the time that passes, or the script."""

from __future__ import annotations

from .lines import Moment, Step
from .story import Call, call_words
from .telling import Telling
from .words import millis, reading, unit, volts

STEPS = {"finish": "message ends", "fire": "trigger IMM", "overrun": "message too long"}
UNIT_MOST, EVENT_MOST = 40, 40  # characters of a unit and of an event that are shown


class Doers:
    """Names who did what in a session."""

    def __init__(self, telling: Telling) -> None:
        # the session, for what takes its doers from here
        self.telling, self.story, self.lines = telling, telling.story, telling.lines

    def label(self, step: Step) -> str:
        """What a step is, in a word or two."""
        if step.is_unit:
            return unit(step.text) or "(empty unit)"
        if step.kind == "release":
            held = self.story.held_at(step)
            return unit(held.text, 20) if held else "held unit"
        if step.conn is not None:
            call = self.story.call_of(step)
            who = call.who if call else f"c{step.conn}"
            return f"{who} resumes" if step.kind == "resume" else f"{who} times out"
        return STEPS.get(step.kind, "")

    def by(self, step: Step) -> str:
        """Who did a step: its millisecond, its line, and what it is."""
        return f"{millis(step.moment.clock)}, line {step.moment.line}: {self.what(step)}"

    def what(self, step: Step) -> str:
        """What a step is, with the call that it comes from."""
        call = self.story.call_of(step)
        if step.is_unit:
            return f"unit `{unit(step.text, UNIT_MOST)}`{of(call)}"
        if step.kind == "finish":
            return f"end of the message{of(call)}"
        if step.kind == "release":
            held = self.story.held_at(step)
            text = unit(held.text, UNIT_MOST) if held else "?"
            whose = of(self.story.call_of(held) if held else None)
            return f"held unit `{text}`{whose} was answered"
        if step.kind == "fire":
            return "the IMMediate trigger"
        if step.kind == "overrun":
            return f"the message{of(call)} was too long"
        if step.kind in ("resume", "timeout"):
            return call_words(call) + (" resumed" if step.kind == "resume" else " timed out")
        return call_words(call) if call else self.event(step.moment)

    def event(self, moment: Moment) -> str:
        """What an event is that takes no call."""
        words = moment.words
        if words[0] == "tick":
            change = moment.steps[0].of("reading")
            if change is not None and change.new != "none":
                return reading(change.new)
            return "1 ms passes"
        if words[0] == "input" and len(words) > 2:
            return f"input {words[1]} = {volts(int(words[2]))}"
        if words[0] == "external":
            return "EXTernal trigger"
        if words[0] == "open":
            role = {"core": "core channel", "abort": "abort channel"}.get(words[2], "port mapper")
            return f"c{words[1]} opens, {role}"
        if words[0] == "close":
            if words[1][0] == "c":
                return f"{words[1]} closes"
            return f"interrupt channel of c{words[1][1:]} closes"
        if words[0] == "dialed":
            ended = "succeeded" if words[2] == "ok" else "failed"
            return f"interrupt channel of c{words[1]}: connecting {ended}"
        return " ".join(words)[:EVENT_MOST]


def of(call: Call | None) -> str:
    """Of which call something is; nothing if that isn't known."""
    return "" if call is None else f" of {call_words(call)}"
