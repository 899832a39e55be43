"""covering [--check] : writes python/scanvolt/coverage/tables.py, the lists of what tests of a driver may meet.

- the headers of commands and queries: tools/headers.table;
- the calls of VXI-11 and the errors of each, what calls wait for and how a wait ends, how a read ends, and how the scan goes
  from state to state: the tables of docs/INSTRUMENT.md.

Bits and errors of the queue are in python/scanvolt/explaining/tables.py.
With --check it writes nothing, and prints a line if the file isn't what it would write.
Status: 0, or 1 if something is printed.
"""
import re
from collections.abc import Iterable, Mapping
from typing import Any

from ..repository import Repository
from .drawing.canvas import Fault
from .drawing.sources import Sources
from .writing import printed, settled

TARGET = "python/scanvolt/coverage/tables.py"
INSTRUMENT, HEADERS = "docs/INSTRUMENT.md", "tools/headers.table"
# What a call waits for, as the page and as `scanvolt explain` say it.
KINDS = {"the lock": "lock", "input": "input", "response": "response", "dialing": "dial"}
OF_A_LINK = re.compile("device_|destroy_link")  # the calls that name a link
# By kind: the calls that wait, and the errors after a time-out, after device_abort and after a failure.
Kinds = Mapping[str, tuple[str, int | None, int | None, int | None]]
HEAD = '''"""What tests may meet of the instrument: headers, calls, waits, reads, states. `tools/covering` writes this file."""
from typing import Dict, Tuple

'''


def headers(sources: Sources) -> tuple[str, ...]:
    """The headers, in the order of their table."""
    lines = [line for line in sources.text(HEADERS).splitlines() if not line.startswith("#")]
    return tuple(line.split()[0] for line in lines)


def order(sources: Sources) -> list[int]:
    """The errors that the server checks for first: of a link, of a long write, of the lock."""
    text = " ".join(sources.text(INSTRUMENT).split())
    found = re.search(
        r"in this order: (\d+), if the link .*?; (\d+), if a write .*?; (\d+), if another link holds",
        text,
    )
    if not found:
        raise Fault(f"{INSTRUMENT}: it doesn't say in which order the server checks for errors")
    return [int(one) for one in found.groups()]


def waits(sources: Sources) -> Kinds:
    """For what calls wait: which calls, and the errors after a time-out and after device_abort, None if there is none."""
    rows = sources.table(
        INSTRUMENT, "Waits for", "Call", "Resumes when", "At most", "Timed out", "device_abort"
    )
    found = {}
    for what, call, resumes, _, late, aborted in rows:
        number = re.match(r"\d+", aborted)
        failed = re.search(r"fails \((\d+)\)", resumes)
        found[KINDS[what]] = (
            call,
            int(late) if late else None,
            int(number[0]) if number else None,
            int(failed[1]) if failed else None,
        )
    return found


def calls(sources: Sources, kinds: Kinds) -> dict[str, tuple[int, ...]]:
    """The errors of each call."""
    no_link, long_write, locked = order(sources)
    rows = sources.table(
        INSTRUMENT,
        "Call",
        "Procedure",
        "What it does, and its own errors except those after a wait",
    )
    found = {}
    for names, number, text in rows:
        for name in names.split(", "):
            own = {
                int(one)
                for one in re.findall(r"(?:error |, )(\d+)(?= if| beyond| at once|$)", text)
            }
            own |= {no_link} if OF_A_LINK.match(name) else set()
            own |= {long_write} if name == "device_write" else set()
            own |= {locked} if "*L*" in number else set()
            for call, late, aborted, failed in kinds.values():
                marked = "marked L" in call and "*L*" in number
                if name in call or marked:
                    own |= {one for one in (late, failed) if one}
                    own |= (
                        {aborted}
                        if aborted and (marked or name not in call.partition(";")[2])
                        else set()
                    )
            found[name] = tuple(sorted(own))
    return {**found, **others(sources)}


def others(sources: Sources) -> dict[str, tuple[int, ...]]:
    """The calls of the other channels, each an entry of a list, and their errors."""
    text = (
        sources.text(INSTRUMENT)
        .partition("### Abort channel and port mapper\n")[2]
        .partition("\n#")[0]
    )
    found = {
        name: tuple(int(one) for one in re.findall(r"\bit returns error (\d+)", told))
        for name, told in re.findall(
            r"^- (\w+) \(procedure (.*?)(?=^- |\Z)", text, re.DOTALL | re.MULTILINE
        )
    }
    if not found:
        raise Fault(f"{INSTRUMENT}: it doesn't say which calls the other channels have")
    return found


def reads(sources: Sources) -> dict[str, int]:
    """How a read ends: the weight of each reason; that of its own limit is 0."""
    text = " ".join(sources.text(INSTRUMENT).split())
    found = re.search(
        r"adds up the conditions that then hold: (.*?)\. The reason is 0 if only the ([\d,]+ bytes) end the read",
        text,
    )
    if not found:
        raise Fault(f"{INSTRUMENT}: it doesn't say how a read ends")
    return {
        **{name: int(weight) for name, weight in re.findall(r"([A-Z]+) (\d)", found[1])},
        found[2]: 0,
    }


def states(sources: Sources) -> tuple[tuple[str, str, str], ...]:
    """How the scan goes from a state to another one."""
    rows = sources.table(INSTRUMENT, "From", "By", "To", "When")
    return tuple((start.lower(), by, to.lower()) for start, by, to, _ in rows if start != to)


def written(sources: Sources) -> str:
    """The text of the file."""
    kinds = waits(sources)
    tables = (
        (
            "HEADERS: Tuple[str, ...]",
            listed(headers(sources)),
        ),
        ("CALLS: Dict[str, Tuple[int, ...]]", lines(calls(sources, kinds))),
        (
            "# Of each kind of wait, the errors after a time-out and after device_abort, 0 for none.\n"
            "WAITS: Dict[str, Tuple[int, int]]",
            lines({name: (row[1] or 0, row[2] or 0) for name, row in kinds.items()}),
        ),
        ("READS: Dict[str, int]", lines(reads(sources))),
        (
            "STATES: Tuple[Tuple[str, str, str], ...]",
            listed(states(sources)),
        ),
    )
    return HEAD + "".join(f"{name} = {table}\n" for name, table in tables)


def listed(entries: Iterable[object]) -> str:
    """A tuple as Python has it, each entry on a line."""
    return "(\n" + "".join(f"    {entry!r},\n" for entry in entries) + ")"


def lines(table: Mapping[Any, Any]) -> str:
    """A table as Python has it, each entry on a line."""
    return "{\n" + "".join(f"    {key!r}: {value!r},\n" for key, value in table.items()) + "}"


def main(words: list[str]) -> int:
    repository = Repository()
    try:
        text = written(Sources(repository))
    except Fault as fault:
        return printed([str(fault)])
    return printed(settled(repository, TARGET, text, words == ["--check"], "tools/covering writes"))
