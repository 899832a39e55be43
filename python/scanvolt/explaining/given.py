"""What a file has that is to be explained: a script of the replay, or a capture."""

from __future__ import annotations

import argparse
import sys
from collections.abc import Callable, Sequence

from ..program import find_program
from .running import Ports

# how they begin
CAPTURES = (
    b"\x0a\x0d\x0d\x0a",
    b"\xd4\xc3\xb2\xa1",
    b"\xa1\xb2\xc3\xd4",
    b"\x4d\x3c\xb2\xa1",
    b"\xa1\xb2\x3c\x4d",
)
OTHERWISE = "the replay answers otherwise than the capture; scanvolt-capture compare says where"


def read(path: str) -> bytes:
    """The bytes of a file, or of standard input. Raises OSError."""
    if path == "-":
        return sys.stdin.buffer.read()
    with open(path, "rb") as file:
        return file.read()


def script(given: argparse.Namespace, warn: Callable[[str], object]) -> Sequence[str]:
    """The lines of the script. Raises OSError, Fault and ProgramError. `warn` is told if it isn't quite what a capture has."""
    return session(given, warn)[0]


def session(
    given: argparse.Namespace, warn: Callable[[str], object]
) -> tuple[Sequence[str], Ports | None]:
    """The lines of the script, and the ports of the server that recorded it, if they are given. Raises as `script` does."""
    data = read(given.file)
    if data.startswith(CAPTURES):
        return of_capture(given, warn), None
    ports = (given.core, given.abort) if given.core and given.abort else None
    return (
        data.decode("latin-1").split("\n")[: None if data and not data.endswith(b"\n") else -1],
        ports,
    )


def of_capture(given: argparse.Namespace, warn: Callable[[str], object]) -> list[str]:
    """The script of a capture, with ticks at which the replies are those of the capture, if there are such."""
    from ..capturing import command
    from ..capturing.compare import Comparison
    from ..capturing.script import scenario
    from ..capturing.script import script as lines_of

    words = ["script", given.file]
    for name in ("scenario", "start", "core", "abort", "portmap"):
        if getattr(given, name) is not None:
            words += ["--" + name, str(getattr(given, name))]
    options = command.words(words)
    entries = scenario(given.scenario) if given.scenario else []
    session = command.session_of(options)
    difference, ticks = Comparison(session, entries, given.program or find_program()).settle(
        options.slack
    )
    if difference is not None:
        warn(OTHERWISE)
    return lines_of(session.points, ticks, entries)
