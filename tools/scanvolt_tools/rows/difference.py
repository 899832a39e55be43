"""Compares what a crate's program printed with what it had to print: shows each row that differs, its title and its question."""
import copy
import re
from collections.abc import Iterable, Mapping, Sequence

from . import fields
from .files import Row
from .lines import Telling, quoted
from .numbering import Numbering
from .singly import PREFIX

BEFORE = 8  # lines of the text that are shown before a difference
WIDEST = 400  # columns of a line that are shown
REFUSALS = {
    "1": "out of memory",
    "2": "the connection is open",
    "3": "no such connection or channel",
    "4": "no room",
    "5": "more than waits",
    "6": "no call waits for a dialing",
    "7": "no call that may be refused",
    "8": "no such channel of the scanner",
    "9": "a voltage out of range",
    "10": "the clock is at its end",
}
NOTHING = "nothing more"


def parts(text: str, known: Mapping[str, Row]) -> list[tuple[str, list[str]]]:
    """The titles of an output, each with its lines; none if the program printed nothing. `known` are the rows by their titles.

    What `explain` prints has lines `= NAME VALUE`. So a row that explains ends only before the title of a known row.
    """
    if text and not text.startswith("= "):
        raise ValueError("it doesn't begin with a title")
    rows: list[tuple[str, list[str]]] = []
    explains = False
    for line in text.rstrip("\n").split("\n") if text else []:
        if line.startswith("= ") and (line[2:] in known or not explains):
            rows.append((line[2:], []))
            explains = line[2:] in known and known[line[2:]].kind.startswith("explain")
        else:
            rows[-1][1].append(line)
    return rows


def explained(line: str) -> str:
    """A line, with names after its numbers."""
    error = re.search(r" error=(\d+)", line)
    if error:
        return f"{line} ({fields.error_name(int(error[1]))})"
    if line.startswith("refused "):
        refusal = REFUSALS.get(line[8:].partition(":")[0], "no number of a refusal")
        return f"{line} ({refusal})"
    return line


def decoded(numbering: Numbering, line: str | None, text: list[str] | None = None) -> str:
    """A printed line in the words of the text. If `text` wants this line, its own words are kept."""
    if line is None:
        return NOTHING
    told = Telling(copy.deepcopy(numbering), always=True).told(line) or [quoted(line)]
    if text and told[0].startswith("reply ") and " xid=" not in text[0]:
        told = [text[0] + told[0][told[0].rindex(" xid=") :]] + text[1:]
    return " ".join(map(explained, told))


def call_of(numbering: Numbering, line: str | None) -> str | None:
    """The call to which a reply belongs, in the words of the text."""
    found = re.fullmatch(r"(?:write )?c?(\w+) [0-9a-f]{8}([0-9a-f]{8})[0-9a-f]*", line or "")
    return numbering.texts.get((found[1], int(found[2], 16))) if found else None


def marked(wanted: str, came: str) -> list[str]:
    """The two lines, and a mark under the first place where they differ."""
    at = next(
        (at for at, pair in enumerate(zip(wanted, came)) if pair[0] != pair[1]),
        min(len(wanted), len(came)),
    )
    start = max(0, at - WIDEST // 2)
    lead = "..." if start else ""
    cut = [lead + line[start : start + WIDEST] for line in (wanted, came)]
    return ["  wanted  " + cut[0], "  came    " + cut[1], " " * (10 + len(lead) + at - start) + "^"]


def context(row: Row, index: int) -> tuple[list[str], list[str] | None, Numbering]:
    """The lines of the text up to what is asked before line `index`, the line that wants it, and the calls so far."""
    reading, count = row.reading(), 0
    lines: list[str] = []
    for _, (first, *more) in row.lines:
        said = [first] + ["and " + one for one in more]
        for one, rest in reading.longer(first, more):
            before = copy.deepcopy(reading.numbering)
            wanted = reading.read_one(one, rest)[1]
            if wanted and count == index:
                return lines + ([] if is_wanted(first) else said), [one] + said[1:], before
            count += len(wanted)
        lines += said
    return lines, None, reading.numbering


def is_wanted(line: str) -> bool:
    return line.split(" ", 1)[0] in (
        "reply",
        "request",
        "refused",
        "given",
        "prints",
        "gets",
        ">",
        "and",
        "..",
        "@",
        "-",
        "=",
    )


def shown(lines: Sequence[str]) -> list[str]:
    """The last of some lines. If they ask nothing, the last lines before them that ask are shown first."""
    last, front = lines[-BEFORE:], lines[:-BEFORE]
    asked = (
        []
        if not all(map(is_wanted, last))
        else [line for line in front if not is_wanted(line)][-BEFORE:]
    )
    left = len(front) - len(asked)
    return [*asked, *([f".. and {left} more"] if left else []), *last]


def source(rows: Mapping[str, Row], title: str, index: int) -> tuple[Row, int]:
    """The row of a title that has its text, and which of its wanted lines corresponds to line `index` of the title's output."""
    row = rows[title]
    if row.lines or not title.startswith(PREFIX):
        return row, index
    whole, place = rows[title[len(PREFIX) :]], -1
    for line in row.wanted[: index + 1]:  # the lines of the whole row, without some of them
        place = whole.wanted.index(line, place + 1)
    return whole, place if index < len(row.wanted) else len(whole.wanted)


def told(
    rows: Mapping[str, Row], title: str, wanted: Sequence[str], came: Sequence[str]
) -> list[str]:
    """The lines that show how a row differs."""
    index = next(
        (at for at, pair in enumerate(zip(wanted, came)) if pair[0] != pair[1]),
        min(len(wanted), len(came)),
    )
    row, place = source(rows, title, index)
    lines, text, numbering = context(row, place)
    first, second = (some[index] if index < len(some) else None for some in (wanted, came))
    made = [f"{row.place}: {title}"]
    made += ["  kind " + row.kind] if row.kind else []
    made += ["  | " + line[:WIDEST] for line in shown(lines)]
    call = call_of(numbering, first) or call_of(numbering, second)
    made += ["  call    " + call] if call else []
    return made + marked(decoded(numbering, first, text), decoded(numbering, second))


def differences(rows: Iterable[Row], wanted: str, printed: str) -> list[list[str]]:
    """The rows that differ, each as the lines that show it. `rows` are the rows of the text."""
    known = {row.title: row for row in rows}
    came = dict(parts(printed, known))
    found: list[list[str]] = []
    for title, lines in parts(wanted, known):
        if title not in known:
            found.append(
                [f"{title}: no row of the text has this title; make stdout anew with tools/rows"]
            )
        elif title not in came:
            found.append(
                [f"{known[title].place}: {title}", "  came    nothing: the program had ended"]
            )
        elif came[title] != lines:
            found.append(told(known, title, lines, came[title]))
    if not found and wanted != printed:
        found.append(["  no row differs, but the titles do, their order, or the end of the print"])
    return found
