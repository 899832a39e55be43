"""Files of rows: each row has a title, and lines that say what is asked and what is wanted.

A line that begins with `#` is a comment. These lines may follow the title: `kind WORDS`, what is done with the row
(crates/test_rows/src/main.rt lists the kinds); `joined`, its hexadecimal has no blanks; `unended`, its last line has
no new line; `singly`, the row is run a second time with its writes cut into single bytes. A line `and MESSAGE` continues
the line before it: the messages come together. `short` has lines that mean several lines of a script, `messages` the calls and
replies, `dialects` the other lines of each kind.
"""
import dataclasses
import glob
import os

from .dialects import KINDS, Scripts
from .lines import Reading
from .singly import PREFIX, cut
from .values import TextError

MARKS = ("joined", "unended", "singly")


@dataclasses.dataclass
class Row:
    """A row: its place in the file, its marks, the lines of its text, and what they ask and want."""

    title: str
    place: str = ""
    kind: str = ""
    marks: list[str] = dataclasses.field(default_factory=list)
    lines: list[tuple[int, list[str]]] = dataclasses.field(default_factory=list)
    asked: list[str] = dataclasses.field(default_factory=list)
    wanted: list[str] = dataclasses.field(default_factory=list)

    def reading(self) -> Reading:
        """A reader for the lines of this row."""
        return KINDS.get(self.kind.partition(" ")[0], Scripts)("joined" in self.marks)

    def read(self) -> "Row":
        """Reads the lines of the text."""
        reading = self.reading()
        self.asked = ["! " + self.kind] if self.kind else []
        for number, (first, *more) in self.lines:
            try:
                asked, wanted = reading.read(first, more)
            except ValueError as fault:
                raise TextError(f"{self.place.rpartition(':')[0]}:{number}: {fault}") from None
            self.asked += asked
            self.wanted += wanted
        if "unended" not in self.marks:
            self.asked.append("")
        return self


def rows_of(path: str) -> list[Row]:
    """The rows of a file."""
    rows: list[Row] = []
    with open(path, encoding="utf-8") as file:
        for number, line in enumerate(file.read().split("\n"), 1):
            if line and not line.startswith("#"):
                _take(rows, line, path, number)
    return [row.read() for row in rows]


def _take(rows: list[Row], line: str, path: str, number: int) -> None:
    """Adds a line to the last row, or begins a row with it."""
    word, _, rest = line.partition(" ")
    place = f"{path}:{number}"
    if word == "title":
        rows.append(Row(rest.strip(), place))
    elif not rows:
        raise TextError(f"{place}: a line before the first title")
    elif word == "kind" and not rows[-1].lines:
        rows[-1].kind = rest
    elif line in MARKS and not rows[-1].lines:
        rows[-1].marks.append(line)
    elif word == "and" and rows[-1].lines:
        rows[-1].lines[-1][1].append(rest)
    else:
        rows[-1].lines.append((number, [line]))


def rows_in(folder: str) -> list[Row]:
    """The rows of a folder's files, in the order of their names, and the rows that are made from these."""
    paths = sorted(glob.glob(os.path.join(glob.escape(folder), "*.rows")))
    if not paths:
        raise TextError("no *.rows in " + folder)
    rows = [row for path in paths for row in rows_of(path)]
    again = sorted((row for row in rows if "singly" in row.marks), key=lambda row: row.title)
    return rows + [_cut(row) for row in again]


def _cut(row: Row) -> Row:
    asked, wanted = cut(row.asked, row.wanted)
    return Row(PREFIX + row.title, row.place, asked=asked, wanted=wanted)


def streams(rows: list[Row]) -> tuple[str, str]:
    """What is asked and what is wanted, as the crate's program reads and prints it."""
    asked = "\n".join("\n".join(["= " + row.title] + row.asked) for row in rows)
    wanted = "".join(line + "\n" for row in rows for line in ["= " + row.title] + row.wanted)
    return asked, wanted
