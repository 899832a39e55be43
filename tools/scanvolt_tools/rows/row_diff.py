"""row-diff [CRATE] | row-diff STDOUT PRINTED : shows the rows of a test crate that print something else than they have to.

CRATE is a folder such as crates/test_rows. Its `stdout` is compared with what `rt ci` left in `out/stdout` (built by
LLVM) and `out/stdout.by-rattle` (built by Rattle's own compiler). Without CRATE, all crates that have rows and ran are
compared. STDOUT is the `stdout` of such a folder, and PRINTED what its program printed. For each row that differs it shows
its place, its title, what was asked just before the first line that differs, that line as it was wanted and as it came,
and the first place where they differ.
Status: 0 no row differs, 1 some do, 2 there is nothing to compare, or it can't be read.
"""
import glob
import os
import sys

from ..repository import TOP
from .difference import differences
from .files import rows_in

MOST = 10  # rows that are shown


def text_of(path: str) -> str:
    with open(path, encoding="utf-8", errors="backslashreplace", newline="") as file:
        return file.read()


def compare(stdout: str, printed: str) -> int:
    """Prints the rows that differ. Returns how many do."""
    rows = rows_in(os.path.join(os.path.dirname(stdout), "rows"))
    found = differences(rows, text_of(stdout), text_of(printed))
    for lines in found[:MOST]:
        print("\n".join(lines) + "\n")
    if found:
        first = f"; the first {MOST} are shown" if len(found) > MOST else ""
        print(f"{printed}: {len(found)} of {len(rows)} rows differ{first}")
    return len(found)


def pairs(words: list[str]) -> list[tuple[str, str]]:
    """The pairs of files that are compared."""
    if len(words) == 2:
        return [(words[0], words[1])]
    folders = words or sorted(
        os.path.relpath(os.path.dirname(path)) for path in glob.glob(TOP + "/crates/*/rows")
    )
    found = [
        (folder, f"{folder}/out/{name}")
        for folder in folders
        for name in ("stdout", "stdout.by-rattle")
    ]
    return [(folder + "/stdout", path) for folder, path in found if os.path.exists(path)]


def main(words: list[str]) -> int:
    if len(words) > 2:
        print((__doc__ or "").strip())
        return 2
    try:
        compared = pairs(words)
        if words and not compared:
            print(f"row-diff: there is no {words[0]}/out/stdout: `rt ci` makes it", file=sys.stderr)
            return 2
        return 1 if sum([compare(*pair) for pair in compared]) else 0
    except (OSError, ValueError) as fault:
        print(f"row-diff: {fault}", file=sys.stderr)
        return 2
