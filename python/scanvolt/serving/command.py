"""Serves an instrument on 127.0.0.1 until it is stopped.

    scanvolt-serve
    scanvolt-serve --core 4096 1=1.25 2=sine:0:5:10
    scanvolt-serve --scenario stand.scenario

CHANNELS=SHAPE sets voltages, as scanvolt-scenario takes them. Ports that aren't named are free ones. Standard error tells
which ports it takes, how clients find them, which process has a port that is in use, and when it was ready. Then the program
prints `ready CORE ABORT PORTMAP`, and the control port behind these if --control asks for one. This process becomes the program:
Ctrl-C and SIGTERM end it, and so does the end of the process that started it.

--record FILE keeps what happens as a script, which scanvolt-explain and `scanvolt replay` read. The control port sets inputs
while the program serves, by lines such as `input 3 2500000`, in microvolts, and `external`. scanvolt-panel serves with both, and
shows the instrument as a page.

Status: 2 an argument can't be taken, or a port is in use; 3 there is no program, or it can't be run; else that of the program:
128 plus a signal's number in a shell, 0 after its last sweep (man scanvolt).
"""

from __future__ import annotations

import argparse
import os
import shlex
import sys

from ..live import Record
from ..program import ProgramError, check_fits, find_program, serve_command
from ..scenario.shapes import Wrong
from .becoming import become, parent
from .ports import CONTROL, ROLES, Taken, free, port
from .words import Inputs, add_instrument

NAME = "scanvolt-serve"
SWEEPS = 2**32 - 1
TOLD = """ports %d (core), %d (abort) and %d (port mapper) of 127.0.0.1
vxi11: scanvolt.vxi11.Client(port=%d)
PyVISA-py: pyvisa_py.protocols.rpc.PMAP_PORT = %d, then open TCPIP::127.0.0.1::inst0::INSTR"""
CONTROLLED = "port %d of 127.0.0.1 sets inputs, by lines such as `input 3 2500000` and `external`"
RECORDED = "record: scanvolt-explain %s --core %d --abort %d"


def say(text: str) -> None:
    """Prints lines about the server."""
    for line in text.splitlines():
        print(f"{NAME}: {line}", file=sys.stderr, flush=True)


def words(given: list[str] | None) -> argparse.Namespace:
    """The arguments of the command line."""
    parser = argparse.ArgumentParser(
        prog=NAME, description=__doc__, formatter_class=argparse.RawDescriptionHelpFormatter
    )
    add_instrument(parser)
    parser.add_argument(
        "--" + CONTROL,
        metavar="PORT",
        help="a port that sets inputs, 0 for a free one; none if not named",
    )
    parser.add_argument(
        "--sweeps", default=str(SWEEPS), help="after how many sweeps it ends (man scanvolt)"
    )
    parser.add_argument(
        "--stay", action="store_true", help="goes on when the process has ended that started it"
    )
    return parser.parse_args(given)


def serve(given: argparse.Namespace) -> None:
    """Becomes the program."""
    ending = None if given.stay else parent()
    program = given.program or find_program()
    check_fits(program)
    roles = ROLES if given.control is None else (*ROLES, CONTROL)
    ports = free([port(getattr(given, role)) for role in roles])
    inputs, record = Inputs(given), Record(given.record)
    try:
        record.check()
    except OSError:
        inputs.drop()
        raise
    say(TOLD % (*ports[:3], ports[0], ports[2]))
    if given.control is not None:
        say(CONTROLLED % ports[3])
    if record.path is not None:
        say(RECORDED % (shlex.quote(record.path), *ports[:2]))
    path = inputs.path or os.devnull
    become(
        serve_command(
            os.path.abspath(program), path, given.sweeps, dict(zip(roles, ports)), record.path
        ),
        say,
        ending,
        inputs.drop,
    )


def main(given_words: list[str] | None = None) -> int:
    """Runs the command. Returns its status if it doesn't become the program."""
    given = words(given_words)
    try:
        serve(given)
    except Taken as fault:
        say("\n".join(fault.reasons))
        return 2
    except (Wrong, ValueError) as fault:
        say(str(fault))
        return 2
    except OSError as fault:
        say(f"{fault.filename}: {fault.strerror}" if fault.filename else str(fault))
    except ProgramError as fault:
        say(str(fault))
    return 3
