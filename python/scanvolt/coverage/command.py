"""Tells which of the instrument's commands, errors, status bits, calls and situations sessions have met.

    scanvolt-coverage session.replay --least 60

SCRIPT is a script of `scanvolt replay`, as `scanvolt-serve --record SCRIPT`, `pytest --scanvolt-trace=DIR`,
`Meter.explain().script` and `scanvolt-capture script` have it; - stands for standard input. For each list it prints how much was
met, and what wasn't; last comes a summary in one line.

Status: 0; 1 if less than --least percent were met; 2 if a script can't be read or explained.
"""

from __future__ import annotations

import argparse
import os
import sys
from collections import Counter

from ..explaining.given import read
from ..explaining.running import lines_of
from ..explaining.story import Story
from ..program import ProgramError, find_program
from .counting import Item, count
from .report import Report

NAME = "scanvolt-coverage"


def words(given: list[str] | None) -> argparse.Namespace:
    """The arguments of the command line."""
    parser = argparse.ArgumentParser(
        prog=NAME, description=__doc__, formatter_class=argparse.RawDescriptionHelpFormatter
    )
    parser.add_argument(
        "scripts",
        metavar="SCRIPT",
        nargs="+",
        help="a script of a session, or - for standard input",
    )
    parser.add_argument(
        "--least", type=float, default=0, metavar="PERCENT", help="status 1 if less was met"
    )
    parser.add_argument("--all", action="store_true", help="prints how often each entry was met")
    parser.add_argument("--program", help="the scanvolt that explains")
    return parser.parse_args(given)


def main(given_words: list[str] | None = None) -> int:
    """Runs the command. Returns its status."""
    given = words(given_words)
    found: Counter[Item] = Counter()
    try:
        program = given.program or find_program()
        for path in given.scripts:
            text = read(path).decode("latin-1")
            found += count(
                Story(
                    lines_of(
                        text.split("\n")[:-1] if text.endswith("\n") else text.split("\n"), program
                    )
                )
            )
        report = Report(found)
        below = report.below(given.least)
        print(
            "\n".join([*report.lines(given.all), report.summary()] + ([below] if below else [])),
            flush=True,
        )
        return 1 if below else 0
    except BrokenPipeError:  # whoever reads has seen enough
        os.dup2(os.open(os.devnull, os.O_WRONLY), sys.stdout.fileno())
        return 0
    except (OSError, ProgramError) as fault:
        shown = f"{fault.filename}: {fault.strerror}" if isinstance(fault, OSError) else str(fault)
        print(f"{NAME}: {shown}", file=sys.stderr)
        return 2
