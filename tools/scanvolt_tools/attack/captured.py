"""captured PROGRAM COMMAND.. : runs a client against `PROGRAM serve`, captures what passes between
them, replays it by `PROGRAM replay`, and compares each reply byte by byte; then makes the same calls
in virtual time by the Python package, and compares each reply and service request (tools/capture).

The server's port mapper has port 111, so this needs root, or a network namespace such as
tools/clients makes. It needs Debian's package tshark. What the client prints is discarded.
Status: 0 all replies are equal, 1 a reply differs, 2 it can't be run.
"""
import os
import pathlib
import shutil
import subprocess
import sys
import tempfile
import time

from scanvolt.capturing.command import main as capture
from scanvolt.program import ProgramError, Server

from ..repository import TOP
from ..runnable import runs
from .capture import Failed, captured

PORTS = (4096, 4097, 111)
SCENARIO = TOP + "/examples/bench.scenario"
MOST = 60  # seconds that the client may take


def session(program: str, command: list[str], path: pathlib.Path) -> float:
    """Captures the session of a client. Returns the time at which its server was ready."""
    with captured(path):
        with Server(SCENARIO, program, ports=PORTS):
            ready = time.time()
            done = subprocess.run(
                command, stdout=subprocess.PIPE, stderr=subprocess.STDOUT, timeout=MOST
            )
    if done.returncode:
        sys.stderr.write(done.stdout.decode(errors="replace"))
        raise Failed("the client failed")
    return ready


def main(words: list[str]) -> int:
    if len(words) < 2:
        print("captured: usage: captured PROGRAM COMMAND..", file=sys.stderr)
        return 2
    if not runs(words[0]):
        return 2
    if not shutil.which("tshark") or not shutil.which("dumpcap"):
        print("captured: this Debian package is missing: tshark", file=sys.stderr)
        return 2
    program = os.path.abspath(words[0])
    with tempfile.TemporaryDirectory(prefix="captured.") as folder:
        path = pathlib.Path(folder) / "session.pcapng"
        try:
            ready = session(program, words[1:], path)
        except (Failed, ProgramError, OSError, subprocess.TimeoutExpired) as fault:
            print(f"captured: {fault}", file=sys.stderr)
            return 2
        return capture(
            [
                "virtual",
                str(path),
                "--program",
                program,
                "--portmap",
                str(PORTS[2]),
                "--scenario",
                SCENARIO,
                "--start",
                f"{ready:.9f}",
                "--other-starts",
            ]
        )
