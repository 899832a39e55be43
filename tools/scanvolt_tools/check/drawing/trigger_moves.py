"""How the trigger state of sv_scan moves, computed from its definitions: the state after a number of triggers and samples,
and which acts count in which state."""
import itertools
import re
from collections.abc import Iterable, Iterator, Mapping, Sequence

from .canvas import Fault
from .sources import Sources, part

STATES, ACTS = "crates/sv_scan/src/setting.rt", "crates/sv_scan/src/acts.rt"
SCAN, COUNTED, CONDITION = "sv_scan/Scan", "sv_scan/Counted", "sv_scan/Condition"
NUMBERS = ("triggers", "samples", "channels", "scans")
Test = tuple[str, str, str]  # two products, and the state if they are equal
Guards = Mapping[
    str, tuple[set[str], str | None]
]  # by act, the states in which it counts, and its error in others
Kinds = tuple[
    str, set[str], tuple[str, str]
]  # the act that begins, those that end, a trigger and a sample
Place = tuple[int, int] | None  # how many triggers and samples came; None without a measurement
Move = tuple[str, str, str]  # a state, an act, and the next state


def product(text: str, values: Mapping[str, int]) -> int:
    """The value of a product of named numbers."""
    whole = 1
    for name in text.split("*"):
        if name.strip() not in NUMBERS:
            raise Fault(f"crates/sv_scan/specs/Scan.antt: state_by: '{text.strip()}' can't be read")
        whole *= values[name.strip()]
    return whole


def chain(sources: Sources) -> list[Test]:
    """The tests of `state_by` in their order, each with its state. The last test always holds."""
    left, right = next(iter(sources.equations(SCAN, "state_by").items()))
    if tuple(left.split()[1:]) != NUMBERS:
        raise Fault("crates/sv_scan/specs/Scan.antt: state_by takes other numbers")
    *tested, last = right.split(" else ")
    found = [re.fullmatch(r"if (.*) == (.*) then (\w+)", " ".join(one.split())) for one in tested]
    tests = [(one.group(1), one.group(2), one.group(3)) for one in found if one]
    if len(tests) != len(found):
        raise Fault("crates/sv_scan/specs/Scan.antt: state_by: a test can't be read")
    return [*tests, ("samples", "samples", last.strip())]


def without(sources: Sources) -> str:
    """The state without a measurement."""
    return part(r"\(before_init log\) (\w+)$", sources.definition(SCAN, "state"))


def state_of(tests: Sequence[Test], values: Mapping[str, int]) -> str:
    """The state for these numbers of triggers and samples."""
    return next(
        state for one, other, state in tests if product(one, values) == product(other, values)
    )


def holding(sources: Sources, text: str, states: Iterable[str]) -> set[str]:
    """The states in which a test of the state holds, such as `is_idle (state log)`."""
    found = re.search(r"is_(\w+) \(state log\)", text)
    if not found:
        return set(states)
    only = set(re.findall(r"(\w+) ↦ true", sources.definition(COUNTED, "is_" + found.group(1))))
    return set(states) - only if "not (is_" in text else only


def guards(sources: Sources, states: Iterable[str], acts: Iterable[str]) -> Guards:
    """For each act, the states in which it counts, and the error if it is refused, if there is one."""
    rules = sources.equations(COUNTED, "counts")
    found = {}
    for act in acts:
        own = [right for left, right in rules.items() if re.match(rf"counts log \(?{act}\b", left)]
        right = own[0] if own else rules["counts log _"]
        fault = re.match(r"is_none \((\w+_fault)", right)
        if fault:
            right = sources.definition(COUNTED, fault.group(1)).split("\n", 1)[1]
        code = re.search(r"Some (\w+)", right)
        found[act] = (holding(sources, right, states), code.group(1) if code else None)
    return found


def kinds(sources: Sources) -> Kinds:
    """The act that begins a measurement, the acts that end one, and those that count as triggers and as samples."""
    begins = re.findall(r"(\w+) ∷ before ↦ Some", sources.definition(SCAN, "before_init"))
    ends = set(re.findall(r"(\w+) ∷ log ↦ true", sources.definition(SCAN, "starts_or_ends"))) - set(
        begins
    )
    trigger, sample = (
        part(r"elim \[ (\w+)", sources.definition(SCAN, name)) for name in ("triggers", "samples")
    )
    return begins[0], ends, (trigger, sample)


def after(place: Place, act: str, kind: Kinds) -> Place:
    """How many triggers and samples a measurement has after an act; None if there is no measurement then."""
    begins, ends, (trigger, sample) = kind
    if act in ends:
        return None
    if act == begins:
        return (0, 0)
    return place and (place[0] + (act == trigger), place[1] + (act == sample))


def moves_in(
    channels: int, scans: int, guarded: Guards, kind: Kinds, tests: Sequence[Test], rest: str
) -> set[Move]:
    """Each move from the state at rest on, in a measurement of this many channels and scans, as (state, act, state)."""

    def state(place: Place) -> str:
        return state_of(tests, dict(zip(NUMBERS, place + (channels, scans)))) if place else rest

    found: set[Move] = set()
    seen: set[Place] = {None}
    open_ones: list[Place] = [None]
    while open_ones:
        place = open_ones.pop()
        for act in [kind[0], *kind[1], *kind[2]]:
            if state(place) in guarded[act][0]:
                new = after(place, act, kind)
                found.add((state(place), act, state(new)))
                if new and new not in seen and max(new) <= channels * scans + 1:
                    seen.add(new)
                    open_ones.append(new)
    return found


def moves(sources: Sources) -> set[Move]:
    """All moves in measurements of one or two channels and scans."""
    states, acts = sources.variants(STATES, "State"), sources.variants(ACTS, "ScanAct")
    known = guards(sources, states, acts), kinds(sources), chain(sources), without(sources)
    sizes = itertools.product((1, 2), repeat=2)
    return {move for channels, scans in sizes for move in moves_in(channels, scans, *known)}


def refused(sources: Sources) -> Iterator[tuple[str, list[str], str]]:
    """Each act that is refused in some state, with its error."""
    states = sources.variants(STATES, "State")
    found = re.findall(
        r"entry (\w+) = \((\d+), codes \"(.*?)\"\)", sources.definition("sv_errors/Code", "entry")
    )
    entries = {name: f'-{number},"{text}"' for name, number, text in found}
    for act, (good, code) in guards(sources, states, sources.variants(ACTS, "ScanAct")).items():
        if code and good != set(states):
            yield act, [state for state in states if state not in good], entries[code]


def conditions(sources: Sources) -> dict[str, int]:
    """The operation condition in each state, as a number."""
    states = sources.variants(STATES, "State")
    found = dict.fromkeys(states, 0)
    for bit, said in re.findall(
        r"bit (\d+) (\(.*?\(state log\)+)", sources.definition(CONDITION, "operation")
    ):
        for state in holding(sources, said, states):
            found[state] += 2 ** int(bit)
    return found
