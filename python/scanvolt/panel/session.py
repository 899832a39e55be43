"""The session until now, as the page of `scanvolt.explaining` shows it. Each time, the record is explained anew."""

from __future__ import annotations

import json
import threading

from ..explaining.blocks import Blocks
from ..explaining.ending import Ending
from ..explaining.explanation import Explanation
from ..explaining.page import data, facts, wide
from ..explaining.slots import Slots
from ..explaining.table import ending, table
from ..replay import ticks
from .watch import Watch

LONGEST = 4 * 10**6  # bytes of a record that is shown
FOLLOWABLE = 75 * 10**4  # bytes of a record that is followed: more takes seconds each time
LONG = "the session is too long to be followed: stop that, and it is shown whole"
FOLLOWED = 300  # calls that are shown while it is followed, the last ones
TOO_LONG = (
    "the record has %.1f million bytes, and only %.1f million are explained here; keep it (GET /record, or --record "
    "FILE), and use `scanvolt-explain FILE --core %d --abort %d`"
)


class TooLong(Exception):
    """The record is too long to be explained here."""


class Sessions:
    """Explains the record of a server, one time after the other."""

    def __init__(self, watch: Watch) -> None:
        self._watch = watch
        self._guard = threading.Lock()

    def _script(self) -> list[str]:
        """The record, and the time that is known to have passed after it. Raises TooLong."""
        watch = self._watch
        if watch.spool.size > LONGEST:
            raise TooLong(
                TOO_LONG
                % (watch.spool.size / 1e6, LONGEST / 1e6, watch.server.core, watch.server.abort)
            )
        place, ahead = watch.explained()
        return (watch.spool.read(0, place) + ticks(ahead)).decode("latin-1").splitlines()

    def _explained(self) -> Explanation:
        server = self._watch.server
        return Explanation(self._script(), server.program, ports=(server.core, server.abort))

    def live(self, is_whole: bool = False) -> bytes:
        """What the scripts of the page take, as JSON: the whole session, and what would end the waits; or the last calls alone.

        Raises TooLong and ProgramError.
        """
        if not is_whole and self._watch.spool.size > FOLLOWABLE:
            raise TooLong(LONG)
        with self._guard:
            found = self._explained()
            slots = Slots(found.story) if is_whole else Slots(found.story, FOLLOWED, FOLLOWED)
            end = found.end_lines() if is_whole else Ending(found.reasons).text()
            rest = {
                "facts": facts(found, slots),
                "wide": wide(found),
                "table": table(Blocks(found.reasons), slots),
                "end": ending(end),
            }
            return (f'{{"data":{data(found, slots)},{json.dumps(rest)[1:]}').encode()

    def page(self) -> bytes:
        """The page that needs nothing else, with all that happened. Raises TooLong and ProgramError."""
        with self._guard:
            return self._explained().page(f"scanvolt, port {self._watch.server.core}").encode()
