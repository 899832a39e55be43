"""The names that `--why` takes, and the moment after `@`."""

from __future__ import annotations

import re
from dataclasses import dataclass

from .lines import REGISTERS
from .words import NAMES, PARTS

PLAIN = ("error", "lock", "held", "trigger", "response", "source", "opc", "reading", "wait cN")
OTHER = {"error": "errors", "trigger": "state", "scan": "state", "stb": "poll"}
BYTES = ("poll", "stb", "sre", "esr", "ese")  # registers of eight bits; all others have sixteen
WORDS = (
    "errors",
    "lock",
    "held",
    "state",
    "response",
    "source",
    "opc",
    "reading",
    "count",
    "list",
    "range",
    "monitor",
    "upper",
    "lower",
    "limits",
)


class Unknown(ValueError):
    """A name that no value has, or a moment that can't be read."""


@dataclass(frozen=True)
class Asked:
    """A value, its bit if it is one, and the moment: a millisecond or a line of the script, or None for the end."""

    name: str
    bit: int | None = None
    clock: int | None = None
    line: int | None = None


def asked(text: str) -> Asked:
    """What is asked for by NAME, NAME@MS or NAME@line N. Raises Unknown."""
    name, _, moment = text.partition("@")
    found = re.fullmatch(r"(?:(line) ?)?(\d+)", moment.strip())
    if moment and not found:
        raise Unknown(f"a moment is a millisecond, or `line` and a number, and not `{moment}`")
    number = int(found[2]) if found else None
    clock, line = (None, number) if found and found[1] else (number, None)
    value, bit = _value(name.strip(), name.strip().lower())
    return Asked(value, bit, clock, line)


def _value(name: str, low: str) -> tuple[str, int | None]:
    """The value of a name, and its bit."""
    wait = re.fullmatch(r"wait c?(\d+)", low)
    if wait:
        return "wait c" + wait[1], None
    low = OTHER.get(low, low)
    if low in WORDS or re.fullmatch(r"(link|srq)\.\d+", low):
        return low, None
    if low in NAMES:
        return low, None
    head, _, tail = low.rpartition(".")
    if not head:
        for register in ("poll", "esr"):
            for bit, word in NAMES[register].items():
                if low == word.lower():
                    return register, bit
        raise Unknown(
            f"no value is called `{name}`: name a bit (RQS, ESR.CME, stb.5, ques.event.LIM), a register (ESR, ques.cond), "
            f"or one of {', '.join(PLAIN)}"
        )
    head = OTHER.get(head, head)
    if head in REGISTERS:
        if tail in dict(PARTS):
            return low, None
        head += ".event"
    head = head.replace(".condition", ".cond")
    if head not in NAMES:
        registers, parts = ", ".join(REGISTERS), ", ".join(part for part, _ in PARTS)
        raise Unknown(
            f"no register is called `{head}`: stb, sre, esr, ese, or {registers} with {parts}"
        )
    for bit, word in NAMES[head].items():
        if tail == word.lower():
            return head, bit
    if tail.isdigit() and int(tail) < (8 if head in BYTES else 16):
        return head, int(tail)
    raise Unknown(
        f"{head.replace('poll', 'stb')} has no bit `{tail}`, only {', '.join(NAMES[head].values())}"
    )
