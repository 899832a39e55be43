"""The bits of the status model: names from docs/INSTRUMENT.md; numbers, and what each bit sums up, from the definitions."""
import re
from collections.abc import Mapping

from .canvas import Fault
from .sources import Sources, agree

PAGE = "docs/INSTRUMENT.md"
COLUMNS = ("Register", "Bit", "Weight", "Name", "Stands")
REGISTERS = "crates/sv_status/src/register_name.rt"
# The registers of the code, and the names that the page gives to them, to standard events and to the status byte.
WORDS = {"Operation": "operation", "Questionable": "questionable", "Limit": "limits"}
STANDARD, BYTE = "standard events", "status byte"
# What the status byte sums up, by the name in its definition. The summary of a register is `Summary NAME`.
SUMMED = {"StandardSummary": STANDARD, "response": "output queue", "entries": "error queue"}
Bits = Mapping[int, tuple[str, str]]  # of a register, by number: the name, and when it is 1
Names = Mapping[str, Bits]
Byte = Mapping[
    int, str | None
]  # of the status byte: what a bit sums up, None for the one that sums up all
Nested = Mapping[
    str, tuple[str, int]
]  # of a register: which bit of which other register sums it up


def terms(text: str) -> list[str]:
    """The terms of a sum, at the outermost level of parentheses."""
    depth, found = 0, [""]
    for one in text:
        depth += (one == "(") - (one == ")")
        if one == "+" and depth == 0:
            found.append("")
        else:
            found[-1] += one
    return [term.strip() for term in found]


def word(sources: Sources, place: str, text: str) -> dict[int, str]:
    """The bits of a condition word, each with its value. A word is a sum of bits and of other words."""
    bits: dict[int, str] = {}
    for term in terms(text):
        bit = re.match(r"(?:scan\.)?bit (\d+) (.*)", term)
        other = re.match(r"(scan\.)?(\w+) ", term)
        if bit:
            bits[int(bit.group(1))] = bit.group(2)
        elif other:
            there = "sv_scan/Condition" if other.group(1) else place
            for right in sources.equations(there, other.group(2)).values():
                bits.update(word(sources, there, right))
        else:
            raise Fault(f"crates/{place}: '{term}' is no bit and no word")
    return bits


def conditions(sources: Sources) -> dict[str, dict[int, str]]:
    """The bits of each register's condition, by the names of the page: those of the measurement, and summaries of registers."""
    found: dict[str, dict[int, str]] = {}
    place = "sv_layers/Condition"
    equations, measured = sources.equations(place, "condition"), sources.equations(
        place, "scan_word"
    )
    for name in sources.variants(REGISTERS, "RegisterName"):
        told = measured.get(f"scan_word {name} acts")
        right = equations.get(f"condition {name} log") or equations.get(
            "condition name log", ""
        ).replace("name", name)
        own = f"word {name} log"
        if told is None or own not in right or name not in WORDS:
            raise Fault(f"{REGISTERS}: there is no place for the register {name}")
        found[WORDS[name]] = word(sources, place, right.replace(own, told))
    return found


def standard_events(sources: Sources) -> dict[int, str | None]:
    """The numbers of the standard events, each with its class of errors, if it has one."""
    here: dict[int, str | None] = {
        int(bit): None
        for bit in re.findall(
            r"(?:\(|= )k ≡ (\d+)", sources.definition("sv_layers/Standard", "Occurs")
        )
    }
    there = sources.definition("sv_errors/Code", "class_event")
    here.update(
        {
            int(bit): f"-{kind}xx"
            for kind, bit in re.findall(r"class == (\d+) then 2 \^ (\d+)", there)
        }
    )
    return here


def status_byte(sources: Sources) -> Byte:
    """The bits of the status byte, each with what it sums up. Bit 6 sums up all others."""
    found: dict[int, str | None] = {}
    text = sources.definition("sv_layers/StatusByte", "SummaryBit")
    for bit, said in re.findall(r"\(k ≡ (\d+)\) × (.*?log)", text):
        name = re.search(rf"Summary ({'|'.join(WORDS)})|(StandardSummary|response|entries)", said)
        if not name:
            raise Fault(
                f"crates/sv_layers/specs/StatusByte.antt: it isn't known what bit {bit} sums up"
            )
        found[int(bit)] = WORDS[name.group(1)] if name.group(1) else SUMMED[name.group(2)]
    for whole in ("PolledBit", "MasterBit"):
        found.update(
            dict.fromkeys(
                map(
                    int, re.findall(r"k ≡ (\d+)", sources.definition("sv_layers/StatusByte", whole))
                )
            )
        )
    return found


def named(sources: Sources) -> Names:
    """The bits of each register as the page has them: their names, and when they are 1."""
    found: dict[str, dict[int, tuple[str, str]]] = {}
    for register, bit, weight, name, stands in sources.table(PAGE, *COLUMNS):
        if int(weight) != 2 ** int(bit):
            raise Fault(f"{PAGE}: {register}: the weight of bit {bit} isn't {weight}")
        found.setdefault(register, {})[int(bit)] = (name, stands)
    return found


def polling(sources: Sources) -> list[str]:
    """The first sentences of the page about requests and polls."""
    found = re.search(r"\n- \*\*Polling\.\*\* (.*?)\n- ", sources.text(PAGE), flags=re.S)
    if not found:
        raise Fault(f"{PAGE}: it has no item 'Polling.'")
    return re.split(r"(?<=\.) ", " ".join(found.group(1).replace("`", "").split()))[:2]


def read(sources: Sources) -> tuple[Names, Byte, Nested]:
    """The bits as the page names them, what the status byte sums up, and which bit of a condition sums up which register."""
    names, standard, byte, words = (
        named(sources),
        standard_events(sources),
        status_byte(sources),
        conditions(sources),
    )
    numbers: dict[str, Mapping[int, str | None]] = {**words, STANDARD: standard, BYTE: byte}
    agree(PAGE, "the table of bits", names, numbers, "the sources")
    for register, bits in numbers.items():
        agree(
            PAGE,
            register,
            [f"bit {bit}" for bit in names[register]],
            [f"bit {bit}" for bit in bits],
            "the sources",
        )
    for bit, kind in standard.items():
        if kind and kind not in names[STANDARD][bit][1]:
            raise Fault(f"{PAGE}: standard events: bit {bit} doesn't say {kind}")
    nested = {
        WORDS[found.group(1)]: (register, bit)
        for register, bits in words.items()
        for bit, value in bits.items()
        for found in [re.match(r"\(summary (\w+) log\)", value)]
        if found
    }
    return names, byte, nested
