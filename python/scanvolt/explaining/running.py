"""Runs `scanvolt explain` over a script."""

from __future__ import annotations

import subprocess
from collections.abc import Sequence

from ..lifeline import Tied
from ..program import ProgramError, in_a_line
from ..replay import ticks
from .lines import Lines, Unreadable
from .words import unit

SHOWN = 60  # characters of a bad line that are shown
BAD_LINE = "scanvolt: bad line "
Ports = tuple[int, int]  # of the core and the abort channel, which replies name
OLD = "%s has no `explain`: it is an earlier release, or no scanvolt"


def command(program: str, ports: Ports | None) -> list[str]:
    """The command that explains a script; with the ports of the server that recorded it, if there are some."""
    return [program, "explain"] + (
        [] if ports is None else ["--core", str(ports[0]), "--abort", str(ports[1])]
    )


def lines_of(
    script: Sequence[str], program: str, patience: float | None = None, ports: Ports | None = None
) -> Lines:
    """What the program says about a script. Raises ProgramError if it can't, or doesn't end within this many seconds."""
    given = "".join(line + "\n" for line in script).encode("latin-1")
    try:
        with Tied(command(program, ports), subprocess.PIPE, 0) as tied:
            told, fault = tied.process.communicate(given, patience)
            status = tied.process.returncode
    except OSError as error:
        raise ProgramError(f"the program can't be run: {program}: {error.strerror}") from None
    except subprocess.TimeoutExpired:
        raise ProgramError(
            f"{program} takes more than {patience or 0:g} s to explain the session"
        ) from None
    if status:
        said = in_a_line(fault)
        raise ProgramError(
            why_not(said, script, program) or f"{program} ended with status {status}"
        )
    try:
        return Lines(script).read(told.decode("ascii", "replace"))
    except Unreadable as error:
        raise ProgramError(f"{program}: {error}") from None


def why_not(said: str, script: Sequence[str], program: str) -> str:
    """What the program says of its fault, for people."""
    if said == "scanvolt: bad words":
        return OLD % program
    number = said[len(BAD_LINE) :]
    if said.startswith(BAD_LINE) and number.isdigit() and 0 < int(number) <= len(script):
        line = unit(script[int(number) - 1].encode("latin-1"), SHOWN)
        return f"line {number} isn't one of a replay script (docs/REPLAY.md): {line}"
    return said


def script_of(log: bytes, since: int) -> Sequence[str]:
    """The lines of a script that was kept, and of the time that passed after it."""
    return (log + ticks(since)).decode("latin-1").splitlines()
