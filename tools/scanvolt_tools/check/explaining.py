"""explaining [--check] : writes python/scanvolt/explaining/tables.py from what the documents and the definitions say.

- the bits of the status byte and of the registers: the table of docs/INSTRUMENT.md, checked with the definitions;
- which registers the bits of the status byte sum up, and which bit of a condition sums up a register: the definitions;
- the errors of the queue: the tables of docs/INSTRUMENT.md;
- why an event is refused: the table of docs/REPLAY.md;
- the values that aren't 0 at the start: docs/STEPS.md.

With --check it writes nothing, and prints a line if the file isn't what it would write.
Status: 0, or 1 if something is printed.
"""
import json
import re

from ..repository import Repository
from .drawing import status_bits
from .drawing.canvas import Fault
from .drawing.sources import Sources, part
from .drawing.status_bits import Byte, Names, Nested
from .writing import printed, settled

TARGET = "python/scanvolt/explaining/tables.py"
INSTRUMENT, REPLAY, STEPS = "docs/INSTRUMENT.md", "docs/REPLAY.md", "docs/STEPS.md"
# The registers of the page, and the names that `scanvolt explain` gives them.
REGISTERS = {
    "status byte": "poll",
    "standard events": "esr",
    "operation": "oper",
    "questionable": "ques",
    "limits": "lim",
}
# Names of bits that the page describes in words.
SHORT = {"error queue": "EAV", "not idle": "BUSY", "RQS, MSS": "RQS"}
HEAD = '''"""Tables of the documents: bits, sums of bits, errors, and why an event is refused. `tools/explaining` writes this file."""
from typing import Dict, Tuple

'''


def short(name: str) -> str:
    """The name of a bit: its capitals if it has some, as MEAS of MEASuring."""
    return SHORT.get(name) or "".join(re.findall("[A-Z]", name)) or name.upper()


def bits(names: Names) -> dict[str, dict[int, tuple[str, str]]]:
    """The bits of each register: the name, and what the bit stands for."""
    return {
        REGISTERS[register]: {
            bit: (short(name), stands.replace("`", ""))
            for bit, (name, stands) in sorted(found.items())
        }
        for register, found in names.items()
    }


def sums(byte: Byte, nested: Nested) -> dict[tuple[str, int], tuple[str, str]]:
    """Which two registers each summary bit rests on: the events, and their enable."""
    pairs = {"standard events": ("esr", "ese")}
    pairs.update(
        (name, (REGISTERS[name] + ".event", REGISTERS[name] + ".enable"))
        for name in ("operation", "questionable", "limits")
    )
    found = {("poll", bit): pairs[name] for bit, name in byte.items() if name in pairs}
    found.update(
        ((REGISTERS[register] + ".cond", bit), pairs[inner])
        for inner, (register, bit) in nested.items()
    )
    return found


def classes(names: Names) -> dict[int, int]:
    """Which class of errors sets each standard event: 1 for -1xx."""
    found = {
        bit: re.search(r"-(\d)xx", stands) for bit, (_, stands) in names["standard events"].items()
    }
    return {bit: int(match.group(1)) for bit, match in sorted(found.items()) if match}


def errors(text: str) -> dict[int, str]:
    """The text of each error."""
    rows = re.findall(r"^\| (-\d{3} .*?) \|", text, flags=re.M)
    pairs = [one.split(" ", 1) for row in rows for one in row.split("; ")]
    found: dict[int, str] = {}
    for number, words in pairs:
        if found.setdefault(int(number), words) != words:
            raise Fault(f"{INSTRUMENT}: two texts of error {number}")
    return dict(sorted(found.items(), reverse=True))


def refused(sources: Sources) -> dict[int, str]:
    """Why an event is refused, by number."""
    rows = sources.table(REPLAY, "R", "Why an event is refused", "Events that are refused with R")
    return {int(number): why.split(";")[0] for number, why, _ in rows}


def start(text: str) -> dict[str, object]:
    """The values that aren't 0 at the start, and aren't words."""
    said = part(r"(?s)At the start all numbers are 0.*? except: (.*?)\.\s", text)
    found: dict[str, object] = {}
    for name, value, each in re.findall(
        r"`([a-z.]+)` (`?[-\w]+`?)( of each register)?", " ".join(said.split())
    ):
        value = value.strip("`")
        for one in (
            [f"{register}.{name}" for register in ("oper", "ques", "lim")] if each else [name]
        ):
            found[one] = int(value) if value.lstrip("-").isdigit() else value
    return found


def written(sources: Sources) -> str:
    """The text of the file."""
    names, byte, nested = status_bits.read(sources)
    tables = (
        ("BITS: Dict[str, Dict[int, Tuple[str, str]]]", bits(names)),
        ("SUMS: Dict[Tuple[str, int], Tuple[str, str]]", sums(byte, nested)),
        ("CLASSES: Dict[int, int]", classes(names)),
        ("ERRORS: Dict[int, str]", errors(sources.text(INSTRUMENT))),
        ("REFUSED: Dict[int, str]", refused(sources)),
        ("START: Dict[str, object]", start(sources.text(STEPS))),
    )
    return HEAD + "".join(f"{name} = {shown(table, '')}\n" for name, table in tables)


def shown(value: object, indent: str) -> str:
    """A value as Python has it, each entry of a table on a line."""
    if not isinstance(value, dict):
        return repr(value) if not isinstance(value, str) else json.dumps(value)
    deeper = indent + "    "
    return (
        "{\n"
        + "".join(f"{deeper}{key!r}: {shown(one, deeper)},\n" for key, one in value.items())
        + indent
        + "}"
    )


def main(words: list[str]) -> int:
    repository = Repository()
    try:
        text = written(Sources(repository))
    except Fault as fault:
        return printed([str(fault)])
    return printed(
        settled(repository, TARGET, text, words == ["--check"], "tools/explaining writes")
    )
