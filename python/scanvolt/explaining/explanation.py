"""A session explained: the timeline, the end, the causes of a value, and a page."""

from __future__ import annotations

import functools
import html
from collections.abc import Sequence

from ..faults.told import Told, end_lines
from . import text
from .blocks import Blocks
from .doers import Doers
from .ending import Ending
from .reasons import Reasons
from .running import Ports, lines_of
from .story import Story
from .telling import Telling
from .tries import Tried, tried
from .why import Why, drawn

FRAME = '<iframe style="width:100%%;height:640px;border:0" sandbox="allow-scripts" srcdoc="%s"></iframe>'


class Explanation:
    """What an instrument saw. `str` of it is the end. The methods return text.

    `script` is the lines of a replay, `program` the path of the program, and `patience` how many seconds it may take. `ports`
    are those of the core and the abort channel, of a server that recorded the script. `faults` are those on order that came: the
    script doesn't have them, since the instrument doesn't see them. Raises ProgramError if the program can't explain the script.
    """

    def __init__(
        self,
        script: Sequence[str],
        program: str,
        patience: float | None = None,
        ports: Ports | None = None,
        faults: Sequence[Told] = (),
    ) -> None:
        self.script, self.program = script, program
        # the session, for other views
        self.story = Story(lines_of(script, program, patience, ports))
        self.story.faults = faults
        self.reasons = Reasons(Doers(Telling(self.story)))

    def __repr__(self) -> str:
        return f"<Explanation of {len(self.story.calls)} calls, until {self.story.clock} ms>"

    def __str__(self) -> str:
        return self.end()

    def _repr_html_(self) -> str:
        """The page, as a notebook shows it."""
        return FRAME % html.escape(self.page())

    @functools.cached_property
    def tried(self) -> Tried:
        """What would end each wait at the end. It is tried once, when it is needed."""
        return tried(self.story, self.program)

    def lines(
        self, last: int | None = None, everything: bool = False, colour: bool = False
    ) -> list[str]:
        """The lines of the timeline; only the last ones if `last` is given, with all noise if `everything`."""
        reasons = Reasons(Doers(Telling(self.story, everything))) if everything else self.reasons
        found = text.timeline(Blocks(reasons), colour)
        return found if last is None else text.newest(found, last)

    def text(self, last: int | None = None, everything: bool = False) -> str:
        """The timeline and the end."""
        return "\n".join(self.lines(last, everything) + self.end_lines())

    def end_lines(self) -> list[str]:
        """The end, in lines."""
        return Ending(self.reasons, self.tried).text() + end_lines(self.story.faults)

    def end(self) -> str:
        """What waits at the end, why, and what would end it."""
        return "\n".join(self.end_lines())

    def why(self, name: str) -> str:
        """Why a value is what it is: `RQS`, `ESR.CME@1200`, `error`, `wait c0`. Raises Unknown for a name that no value has."""
        waits = name.lower().startswith("wait") and "@" not in name
        return "\n".join(drawn(Why(self.reasons, self.tried if waits else None).tree(name)))

    def page(self, title: str = "session") -> str:
        """A page of HTML that needs nothing else."""
        from .page import page

        return page(self, title)
