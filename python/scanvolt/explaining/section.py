"""What the instrument saw, for the report of a test that failed."""

from __future__ import annotations

import argparse
import os
import re
import time

from ..capturing.growing import snapshot
from ..program import Server
from .explanation import Explanation
from .given import script

LINES = 20  # of the timeline that are shown
HINT = "(--scanvolt-trace=DIR keeps all of it, as a script, a text and a page)"
FLUSHED = 1.0  # seconds after which a packet is in the file that tshark writes


def section(found: Explanation, name: str, folder: str | None) -> str:
    """The last lines of the timeline, and the end. If there is a folder, keeps script, text and page there."""
    timeline, end = found.lines(), found.end_lines()
    last = HINT
    if folder:
        stem = kept(found, timeline + end, name, folder)
        last = f"kept: {stem}.replay, .txt, .html"
    return "\n".join(found.lines(LINES) + end + [last])


def kept(found: Explanation, lines: list[str], name: str, folder: str) -> str:
    """Writes script, text and page of a test into a folder. Returns their path without the ending."""
    texts = (
        (".replay", "\n".join(found.script)),
        (".txt", "\n".join(lines)),
        (".html", found.page(name)),
    )
    os.makedirs(folder, exist_ok=True)
    path = os.path.join(folder, re.sub(r"[^\w.-]+", "_", name))
    for ending, text in texts:
        with open(path + ending, "w", encoding="utf-8") as file:
            file.write(text + "\n")
    return path


def captured(server: Server, start: float, capture: str) -> tuple[Explanation, list[str]]:
    """What a server that was ready at this moment saw, from a capture that may still be written; and warnings about it. Raises
    OSError, Fault and ProgramError.
    """
    time.sleep(FLUSHED)
    warnings: list[str] = []
    with snapshot(capture) as front:
        given = argparse.Namespace(
            file=front,
            program=server.program,
            start=f"{start:.6f}",
            core=server.core,
            abort=server.abort,
            portmap=server.port_mapper,
            scenario=None if server.scenario == os.devnull else server.scenario,
        )
        return Explanation(script(given, warnings.append), server.program), warnings
