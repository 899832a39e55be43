"""What is known of a program: its version, and whether it is proved. Files beside the program say so, since the
program itself doesn't tell (`*IDN?` has the same answer in all releases).
"""

from __future__ import annotations

import pathlib

from .program import BUILT

UNKNOWN = "unknown"
KINDS = ("proved", "unproved")  # of the programs that BUILT names
# how the line of KIT begins, in a release, if the program in it is proved
SHIPPED = f"program {BUILT[0]},"


def first_line(path: pathlib.Path) -> str:
    """The first line of a file that has the version."""
    try:
        return path.read_text(encoding="utf-8").split("\n")[0].strip() or UNKNOWN
    except (OSError, UnicodeDecodeError):
        return UNKNOWN


def is_shipped_proved(kit: pathlib.Path) -> bool:
    """Whether the file KIT of a release says that its program is proved."""
    try:
        return any(
            line.startswith(SHIPPED) for line in kit.read_text(encoding="utf-8").splitlines()
        )
    except (OSError, UnicodeDecodeError):
        return False


def version_and_kind(program: str) -> tuple[str, str]:
    """The version of a program and its kind, `proved` or `unproved`; `unknown` for what can't be known.

    A program that was built in a checkout has the version of the checkout. One that was installed as
    PREFIX/bin/scanvolt has the version in PREFIX/share/scanvolt/VERSION.
    """
    path = pathlib.Path(program).resolve()
    for built, kind in zip(BUILT, KINDS):
        if path.as_posix().endswith("/" + built):
            return first_line(path.parents[built.count("/")] / "VERSION"), kind
    share = path.parent.parent / "share"
    kind = "proved" if is_shipped_proved(share / "doc/scanvolt/KIT") else UNKNOWN
    return first_line(share / "scanvolt/VERSION"), kind
