"""The servers that bench/ measures, each as a block in which it serves."""
import contextlib
import os
import select
import sys

import rounds
from rounds import Failure

sys.path.insert(0, str(rounds.TOP / "python"))

from scanvolt.lifeline import Tied  # noqa: E402
from scanvolt.program import ProgramError, Server, free_ports  # noqa: E402
from tests.browser import CHROMIUM, Browser  # noqa: E402

__all__ = ["CHROMIUM", "Browser", "free_ports", "other", "panel", "scanvolt"]
PATIENCE = 10  # seconds that another server, or a panel, may take until it is ready
PAGE = 30  # seconds that the page of a panel may take
SHOWS = "typeof state == 'object' && state"  # what its script says when it shows the instrument


class Endless(Server):
    """It serves until it is stopped."""

    _sweeps = 2**32 - 1


@contextlib.contextmanager
def scanvolt(program, core=None, record=None, control=False):
    """A scanvolt with an empty scenario, on free ports. `core` is the one that it may use; the other words are those of Server."""
    try:
        server = Endless(program=program, record=record, control=control)
    except ProgramError as fault:
        raise Failure(str(fault)) from None
    with server:
        pin(server.process, core)
        yield server


@contextlib.contextmanager
def other(command, core=None):
    """Another server. It has to print a line that begins with `ready` first."""
    with Tied(command) as tied:
        pin(tied.process, core)
        told(tied.process, b"ready", command)
        yield tied


@contextlib.contextmanager
def panel(program, browser):
    """A scanvolt with a panel, whose page is open in a browser. Gives the core port."""
    environment = ["env", f"PYTHONPATH={rounds.TOP / 'python'}"]
    command = [*environment, sys.executable, "-u", "-m", "scanvolt.panel", "--program", program]
    with Tied(command) as tied:
        address = told(tied.process, b"panel", command).split()[1]
        core = int(told(tied.process, b"ready", command).split()[1])
        page = browser.page(address.decode())
        try:
            page.wait(SHOWS, PAGE)
            yield core
        finally:
            page.close()


def pin(process, core):
    """Lets a process use this core alone; any if it is None."""
    if core is not None:
        os.sched_setaffinity(process.pid, {int(core)})


def told(process, word, command):
    """The next line that a process prints. Raises Failure unless it comes soon, and begins with this word."""
    line = b""
    while not line.endswith(b"\n") and select.select([process.stdout], [], [], PATIENCE)[0]:
        piece = process.stdout.read(1)
        if not piece:
            break
        line += piece
    if not line.startswith(word):
        raise Failure(f"`{' '.join(command)}` isn't ready")
    return line
