"""Names, numbers and bytes in words."""

from __future__ import annotations

from .lines import REGISTERS, Value, as_number
from .tables import BITS, ERRORS

PARTS = (
    ("cond", "condition"),
    ("event", "event"),
    ("enable", "enable"),
    ("ptr", "PTR"),
    ("ntr", "NTR"),
)
SOURCES = {"imm": "IMMediate", "bus": "BUS", "ext": "EXTernal"}
MICRO = 10**6
TEXT_MOST, UNIT_MOST = 72, 48  # characters of a message and of a unit that are shown
DAY, HOUR = 86400000, 3600000  # milliseconds

# The bits of each value that has some, by name.
NAMES: dict[str, dict[int, str]] = {
    value: {bit: name for bit, (name, _) in BITS[register].items()}
    for value, register in (
        ("poll", "poll"),
        ("stb", "poll"),
        ("sre", "poll"),
        ("esr", "esr"),
        ("ese", "esr"),
    )
}
NAMES.update(
    (f"{register}.{part}", {bit: name for bit, (name, _) in BITS[register].items()})
    for register in REGISTERS
    for part, _ in PARTS
)
NAMES["stb"] = {**NAMES["stb"], 6: "MSS"}
NAMES["sre"] = {bit: name for bit, name in NAMES["sre"].items() if bit != 6}

# What people call a value.
LABELS: dict[str, str] = {
    "poll": "STB",
    "stb": "STB (MSS)",
    "sre": "SRE",
    "esr": "ESR",
    "ese": "ESE",
}
LABELS.update(
    (f"{register}.{part}", f"{register.upper()} {word}")
    for register in REGISTERS
    for part, word in PARTS
)


def stands(name: str, bit: int) -> str:
    """What a bit stands for, as docs/INSTRUMENT.md says."""
    if name in ("poll", "stb", "sre"):
        register = "poll"
    elif name == "ese":
        register = "esr"
    else:
        register = name.split(".")[0]
    return BITS[register].get(bit, ("", ""))[1]


def bit_name(name: str, bit: int) -> str:
    """The name of a bit, or else its number."""
    return NAMES.get(name, {}).get(bit, f"bit {bit}")


def bits(name: str, value: int) -> list[str]:
    """The names of the bits that are set, the highest first."""
    return [bit_name(name, bit) for bit in range(15, -1, -1) if value >> bit & 1]


def known(name: str, value: int) -> int:
    """The bits of a value that have names."""
    return value & sum(1 << bit for bit in NAMES[name])


def moved(name: str, old: int, new: int) -> str:
    """Bits that rose and fell: `+RQS -MAV`."""
    return " ".join(
        ["+" + one for one in bits(name, new & ~old)]
        + ["-" + one for one in bits(name, old & ~new)]
    )


def shown_bits(name: str, value: int) -> str:
    """A number with the names of its bits: `68 (RQS, EAV)`."""
    return f"{value} ({', '.join(bits(name, value))})" if value else "0"


def error(number: int) -> str:
    """An error of the queue, with its text."""
    return f'{number} "{ERRORS.get(number, "unknown")}"'


def escaped(data: bytes) -> str:
    """Bytes as text, with those that aren't text escaped."""
    return data.decode("latin-1").encode("unicode_escape").decode()


def quoted(data: bytes, most: int = TEXT_MOST) -> str:
    """Bytes in quotes; of many, the first and the last."""
    found = escaped(data).replace('"', '\\"')
    if len(found) > most:
        found = found[: most // 2] + ".." + found[-most // 2 + 2 :]
    return f'"{found}"'


def unit(data: bytes, most: int = UNIT_MOST) -> str:
    """A program unit, or a line; of a long one, its start."""
    found = escaped(data)
    return found if len(found) <= most else found[: most - 2] + ".."


def counted(count: int, one: str) -> str:
    """How many there are of something: `1 call`, `2,000 calls`."""
    return f"{count:,} {one}" if count == 1 else f"{count:,} {one}s"


def millis(count: int) -> str:
    """A time in milliseconds, with its unit."""
    return f"{count:,} ms"


def long(count: int) -> str:
    """A time, in days or hours if it has many."""
    if count > 2 * DAY:
        return f"{count // DAY} days"
    return f"{count // HOUR} hours" if count > 2 * HOUR else millis(count)


def volts(micro: int) -> str:
    """Microvolts as volts."""
    sign, whole, rest = "-" if micro < 0 else "", abs(micro) // MICRO, abs(micro) % MICRO
    text = f"{sign}{whole}.{rest:06d}"
    return text.rstrip("0").rstrip(".") + " V"


def reading(value: Value) -> str:
    """The newest reading: its number, its channel and what was read."""
    words = str(value).split()
    if len(words) != 3:
        return "no reading"
    said = f"overload, {words[2][0]}9.9E+37" if words[2].endswith("over") else volts(int(words[2]))
    return f"reading {words[0]}: channel {words[1]}, {said}"


def pair(value: Value) -> tuple[int, int]:
    """The two numbers of `scan` or `place`; zeros while the scan is idle."""
    words = str(value).split()
    return (int(words[0]), int(words[1])) if len(words) == 2 else (0, 0)


def a(word: str) -> str:
    """A word with its article."""
    return ("an " if word[0] in "aeiouAEIOU" else "a ") + word


def channels(value: Value) -> str:
    """A scan list as the instrument writes it, with ranges."""
    numbers = value if isinstance(value, tuple) else (as_number(value),)
    runs: list[list[int]] = []
    for one in numbers:
        if runs and one == runs[-1][-1] + 1:
            runs[-1].append(one)
        else:
            runs.append([one])
    told = ",".join(
        f"{run[0]}:{run[-1]}" if len(run) > 2 else ",".join(map(str, run)) for run in runs
    )
    return f"(@{told})"
