"""Places on the page's axis: one for each step that is worth one, so that what happens in one millisecond is spread out."""

from __future__ import annotations

from .blocks import READING
from .lines import Change, Moment, Step
from .model import Node
from .story import Story

FOLD = 3  # readings in a row that are drawn as one stretch
QUIET = ("role", "output")
UNSEEN = ("stb", "rqs", "answers")
# calls that a page shows; if a session has more, only so many of the last ones
MOST, KEPT = 5000, 3000


class Slots:
    """The places. A step that isn't worth one is at the place before it. Only the steps from the moment `first` on count."""

    def __init__(self, story: Story, most: int = 0, kept: int = 0) -> None:
        self._story = story
        most, kept = most or MOST, kept or KEPT
        self.first = story.calls[-kept].arrived.number if len(story.calls) > most else 0
        self.found: list[Step] = []  # the step of each place
        self._of: list[int] = []
        self.folded = self._runs()  # moments that take one of many readings in a row
        for step in story.lines.steps:
            if (
                step.moment.number >= self.first
                and step.moment.number not in self.folded
                and self._shown(step)
            ):
                self.found.append(step)
            self._of.append(max(0, len(self.found) - 1))

    def is_kept(self, step: Step) -> bool:
        """Whether a step is on the page."""
        return step.moment.number >= self.first

    def at(self, step: Step) -> int:
        """The place of a step."""
        return self._of[step.number]

    def last(self, moment: Moment) -> int:
        """The place of a moment's last step."""
        return self._of[moment.steps[-1].number]

    def kept(self, name: str) -> list[Change]:
        """The changes of a value that are on the page."""
        return [one for one in self._story.lines.history.get(name, ()) if self.is_kept(one.step)]

    def tree(self, node: Node) -> list[object]:
        """Causes as the page has them: words, place, causes."""
        place = self.at(node.step) if node.step is not None and self.is_kept(node.step) else None
        return [node.text, place, [self.tree(one) for one in node.children]]

    def _runs(self) -> set[int]:
        """The moments that only take one of several readings in a row."""
        only = [
            moment.number
            for moment in self._story.moments
            if moment.kind == "tick"
            and len(moment.steps) == 1
            and {one.name for one in moment.changes()} <= READING
            and moment.steps[0].of("reading") is not None
        ]
        runs: dict[int, list[int]] = {}
        start = -1
        for place, number in enumerate(only):
            if place == 0 or only[place - 1] + 1 != number:
                start = number
            runs.setdefault(start, []).append(number)
        return {number for run in runs.values() if len(run) >= FOLD for number in run}

    def _shown(self, step: Step) -> bool:
        """Whether a step is worth a place."""
        moment = step.moment
        told = [
            one
            for one in step.changes
            if one.name.rpartition(".")[2] not in QUIET and one.name not in UNSEEN
        ]
        if step.kind == "finish":
            return any(one.name != "text" for one in told)
        if step.kind != "event":
            return True
        if moment.kind == "bytes":
            return any(
                one.turned is None or one.turned.number > moment.number + 1
                for one in self._story.came.get(moment.number, ())
            )
        return moment.kind != "tick" or bool(told) or moment.number in self._story.replied
