"""What scanvolt-serve and scanvolt-panel have in common: the words for the instrument, and the scenario that shapes make."""

from __future__ import annotations

import argparse
import contextlib
import os
import tempfile
from collections.abc import Callable

from ..scenario import command as scenario
from ..scenario.shapes import Wrong
from .ports import ROLES


def add_instrument(parser: argparse.ArgumentParser) -> None:
    """Adds the arguments that say what is served, and where."""
    parser.add_argument(
        "shapes", metavar="CHANNELS=SHAPE", nargs="*", help="voltages: 1=1.25, 2:4=sine:0:5:10, .."
    )
    for role in ROLES:
        parser.add_argument(
            "--" + role, default="0", metavar="PORT", help="a free port if not named"
        )
    parser.add_argument("--scenario", metavar="FILE", help="voltages and external triggers")
    parser.add_argument("--seconds", help="how long the shapes last; 60 seconds if not said")
    parser.add_argument("--record", metavar="FILE", help="keeps the session as a script")
    parser.add_argument(
        "--program",
        help="the scanvolt that serves; if not named, the one that `python3 -m scanvolt` prints",
    )


class Inputs:
    """The scenario that the arguments name or, by shapes, make: `path`, None if there is none. `drop` removes one that was made.
    Raises Wrong.
    """

    def __init__(self, given: argparse.Namespace) -> None:
        self.path: str | None = given.scenario
        self.drop: Callable[[], object] = lambda: None
        if given.seconds and not given.shapes:
            raise Wrong("--seconds is for shapes, and there is none")
        if not given.shapes:
            return
        if given.scenario:
            raise Wrong("voltages come from --scenario or from shapes, and not from both")
        options, shapes = scenario.words_of(
            given.shapes + (["--seconds", given.seconds] if given.seconds else [])
        )
        plan, triggers, _ = scenario.made(options, shapes)
        with tempfile.NamedTemporaryFile(
            "w", prefix="scanvolt-", suffix=".scenario", delete=False
        ) as file:
            file.write("".join(line + "\n" for line in scenario.lines(plan, triggers)))
        self.path, self.drop = file.name, self._gone

    def _gone(self) -> None:
        """Removes the file, if it is still there."""
        assert self.path is not None
        with contextlib.suppress(FileNotFoundError):
            os.unlink(self.path)
