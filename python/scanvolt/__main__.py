"""Prints the version of this package, and of the program that it runs the path, what named it, the version and the kind.

The kind is `proved` or `unproved`. Version and kind are `unknown` where no file beside the program tells them.
Status: 0 the program fits this package, 1 there is none, or it doesn't fit.
"""

from __future__ import annotations

import argparse
import sys

from . import __version__
from .about import version_and_kind
from .program import ProgramError, check_fits, found


def main(given: list[str] | None = None) -> int:
    """Runs the command. Returns its status."""
    argparse.ArgumentParser(
        prog="python3 -m scanvolt",
        description=__doc__,
        formatter_class=argparse.RawDescriptionHelpFormatter,
    ).parse_args(given)
    print(f"package {__version__}")
    try:
        path, where = found()
    except ProgramError as fault:
        print(f"no program: {fault}")
        return 1
    version, kind = version_and_kind(path)
    print(f"program {path}\nfound by {where}\nversion {version}\nkind {kind}", flush=True)
    try:
        check_fits(path)
    except ProgramError as fault:
        print(fault)
        return 1
    return 0


if __name__ == "__main__":
    sys.exit(main())
