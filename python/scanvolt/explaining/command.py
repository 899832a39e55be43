"""Explains a session: what happened, why a value is what it is, what waits at the end and what would end that.

    scanvolt-explain session.replay
    scanvolt-explain session.replay --why RQS --why "ESR.CME@1200" --why "RQS@line 17" --why "wait c0"
    scanvolt-explain session.replay --html session.html
    scanvolt-explain session.pcapng --start 1700000000.5 --scenario stand.scenario
    scanvolt-explain record.replay --core 4096 --abort 4097

FILE is a script of `scanvolt replay`, as `scanvolt serve --record`, `Meter.explain().script` and `scanvolt-capture script` have
it; or a capture, as `scanvolt-capture` takes it; or - for standard input. Columns of the timeline: millisecond (" is that of the
line above), connection and link, call, reply. Below a call is what it changed, by program unit; < marks the reply to a call that
waited. STB is the status byte as a poll returns it.

What would end a wait at the end was tried with a second program, for at most 2 seconds. NAME of --why is a bit (RQS, ESR.CME,
stb.5, ques.event.LIM), a register, or error, lock, held, trigger, source, response, reading, wait cN; after @ a millisecond,
or `line` and the number of a line.

Status: 0; or 2 if it can't be done: the file can't be read, a line of it isn't one of a script, the capture is cut off, NAME
isn't known, or the program is missing or too old. Standard error has the reason then.
"""

from __future__ import annotations

import argparse
import os
import sys

from ..capturing.packets import Fault
from ..program import ProgramError, find_program
from ..serving.ports import ROLES
from .asked import Unknown
from .explanation import Explanation
from .given import session

NAME = "scanvolt-explain"


def words(given: list[str] | None, name: str) -> argparse.Namespace:
    """The arguments of the command line."""
    parser = argparse.ArgumentParser(
        prog=name, description=__doc__, formatter_class=argparse.RawDescriptionHelpFormatter
    )
    parser.add_argument(
        "file", metavar="FILE", help="a script, a capture, or - for a script on standard input"
    )
    parser.add_argument(
        "--why", metavar="NAME[@MS]", action="append", help="prints why a value is what it is"
    )
    parser.add_argument(
        "--html", metavar="FILE", help="writes a page instead, which needs no other file"
    )
    parser.add_argument(
        "--all", action="store_true", help="leaves no change out, and folds nothing"
    )
    parser.add_argument(
        "--last",
        type=int,
        metavar="N",
        help="prints only the last N lines of the timeline, and the end",
    )
    parser.add_argument(
        "--colour",
        choices=("auto", "always", "never"),
        default="auto",
        help="auto: on a terminal, unless NO_COLOR is set",
    )
    parser.add_argument(
        "--program",
        help="the scanvolt that explains; without it, the one that SCANVOLT, PATH or the checkout has",
    )
    parser.add_argument("--scenario", help="of a capture: the scenario of the session")
    parser.add_argument(
        "--start", help="of a capture: when the server was ready, in seconds since 1970"
    )
    for port in ROLES:
        parser.add_argument(
            "--" + port,
            type=int,
            help="of a capture: the port of this channel"
            + ("" if port == "portmap" else "; of a record: that of its server"),
        )
    found = parser.parse_args(given)
    if found.last is not None and found.last < 0:
        parser.error(f"--last wants a number of lines, and not {found.last}")
    return found


def is_coloured(given: argparse.Namespace) -> bool:
    """Whether the timeline is printed in colours."""
    return (
        given.colour == "always"
        or given.colour == "auto"
        and sys.stdout.isatty()
        and not os.environ.get("NO_COLOR")
    )


def told(given: argparse.Namespace, name: str) -> list[str]:
    """The lines to print. Writes the page if that is wanted."""
    lines, ports = session(given, lambda warning: print(f"{name}: {warning}", file=sys.stderr))
    found = Explanation(lines, given.program or find_program(), ports=ports)
    if given.why:
        return [found.why(one) for one in given.why]
    if given.html:
        page = found.page(os.path.basename(given.file))
        with open(given.html, "w", encoding="utf-8") as target:
            target.write(page)
        return []
    return found.lines(given.last, given.all, is_coloured(given)) + found.end_lines()


def main(given_words: list[str] | None = None, name: str = NAME) -> int:
    """Runs the command. Returns its status."""
    given = words(given_words, name)
    try:
        lines = told(given, name)
        if lines:
            print("\n".join(lines), flush=True)
        return 0
    except BrokenPipeError:  # whoever reads has seen enough
        os.dup2(os.open(os.devnull, os.O_WRONLY), sys.stdout.fileno())
        return 0
    except (OSError, Fault, ProgramError, Unknown) as fault:
        shown = f"{fault.filename}: {fault.strerror}" if isinstance(fault, OSError) else str(fault)
        print(f"{name}: {shown}", file=sys.stderr)
        return 2
    except KeyboardInterrupt:
        return 130
