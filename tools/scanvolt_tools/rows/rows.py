"""rows [--check] [CRATE..] : writes stdin and stdout of test crates from the text of their rows, CRATE/rows/*.rows.

Without a CRATE it does so for each crate that has such files. A file is written only if it changes. With --check it writes
nothing, and prints lines that can't be read, titles that occur twice, and files of more than 500 lines, unless one row
alone is as long. CONTRIBUTING.md says how a row is written.
Status: 0 all is written, 1 there are faults, which are printed with file and line.
"""
import glob
import os
from collections.abc import Iterable, Iterator

from ..check.writing import printed
from ..repository import TOP
from .files import Row, rows_in, streams
from .values import TextError

MOST = 500  # lines of a file


def write(path: str, text: str) -> None:
    """Writes a file, unless it has this text already."""
    data = text.encode("utf-8")
    if os.path.exists(path):
        with open(path, "rb") as file:
            if file.read() == data:
                return
    with open(path, "wb") as file:
        file.write(data)


def faults(rows: Iterable[Row]) -> Iterator[str]:
    """The faults of rows that could be read."""
    titles: set[str] = set()
    lengths: dict[str, list[int]] = {}
    for row in rows:
        if row.title in titles:
            yield f"{row.place}: another row has this title"
        titles.add(row.title)
        if row.lines and row.place:
            name, _, first = row.place.rpartition(":")
            lengths.setdefault(name, []).append(int(first))
    for name, firsts in lengths.items():
        with open(name, encoding="utf-8") as file:
            length = sum(1 for _ in file)
        if length > MOST and len(firsts) > 1:
            yield f"{name}: {length} lines"


def main(words: list[str]) -> int:
    check = words[:1] == ["--check"]
    here = glob.glob(TOP + "/crates/*/rows")
    folders = words[check:] or sorted(os.path.relpath(os.path.dirname(path)) for path in here)
    told: list[str] = []
    for folder in folders:
        try:
            rows = rows_in(os.path.join(folder, "rows"))
        except (OSError, TextError) as fault:
            told.append(str(fault))
            continue
        told += faults(rows)
        for name, text in zip(("stdin", "stdout"), () if check else streams(rows)):
            write(os.path.join(folder, name), text)
    return printed(told)
