"""Starts a server with a front panel: a page that shows what the instrument does, live, and has knobs for its inputs.

    scanvolt-panel
    scanvolt-panel 1=1.25 2=sine:0:5:10
    scanvolt-panel --port 8128 --core 4096 --abort 4097 --portmap 4111 --scenario stand.scenario --record session.replay

Ports and voltages are given as to scanvolt-serve.
It prints the address of the page, and the ports. The page is on 127.0.0.1 alone. Its address has a token, without which it
shows all and changes nothing. For machines: GET /state, GET /record, POST /inputs/3 with a voltage as its body, POST /external;
the last two with the token. Ctrl-C ends the panel and the server.

Status: 0; or 2 if it can't be done, and standard error says why: the program is missing, a port is taken, a line of the scenario
is bad, the record can't be written.
"""

from __future__ import annotations

import argparse
import signal
import sys
import threading

from ..program import ProgramError
from ..scenario.shapes import Wrong
from ..serving.ports import CONTROL, ROLES, port
from ..serving.words import Inputs, add_instrument
from .watch import Watch
from .web import Panel

NAME = "scanvolt-panel"


def words(given: list[str] | None, name: str) -> argparse.Namespace:
    """The arguments of the command line."""
    parser = argparse.ArgumentParser(
        prog=name, description=__doc__, formatter_class=argparse.RawDescriptionHelpFormatter
    )
    parser.add_argument("--port", default="0", help="the port of the page; a free one if not named")
    add_instrument(parser)
    parser.add_argument(
        "--" + CONTROL,
        default="0",
        metavar="PORT",
        help="the port that sets inputs; a free one if not named",
    )
    return parser.parse_args(given)


def watched(given: argparse.Namespace) -> Watch:
    """Starts the server."""
    ports = [port(getattr(given, role)) for role in (*ROLES, CONTROL)]
    inputs = Inputs(given)
    try:
        return Watch(inputs.path, given.program, given.record, ports)
    finally:
        inputs.drop()


def _serve(given: argparse.Namespace) -> None:
    """Serves until a signal comes."""
    over = threading.Event()
    for one in (signal.SIGINT, signal.SIGTERM, signal.SIGHUP):
        signal.signal(one, lambda *_: over.set())
    number = port(given.port)
    watch = watched(given)
    try:
        with Panel(watch, number) as panel:
            watch.start()
            threading.Thread(target=panel.serve_forever, daemon=True).start()
            server = watch.server
            print(
                f"panel {panel.address}\nready {server.core} {server.abort} {server.port_mapper} {server.control}",
                flush=True,
            )
            over.wait()
            panel.shutdown()
    finally:
        watch.close()


def main(given_words: list[str] | None = None, name: str = NAME) -> int:
    """Runs the command. Returns its status."""
    given = words(given_words, name)
    try:
        _serve(given)
        return 0
    except (OSError, ProgramError, ValueError, Wrong) as fault:
        if isinstance(fault, OSError) and fault.filename:
            shown = f"{fault.filename}: {fault.strerror}"
        elif isinstance(fault, OSError):
            shown = fault.strerror or str(fault)
        else:
            shown = str(fault)
        print(f"{name}: {shown}", file=sys.stderr)
        return 2
