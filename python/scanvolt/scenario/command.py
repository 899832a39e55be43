"""scanvolt-scenario [OPTION..] [CHANNELS=SHAPE..] : writes a scenario for `scanvolt serve`, draws or checks it.

CHANNELS is a channel from 1 to 128, or a range of channels such as 1:128. A SHAPE is one of these, where V
is a voltage in volts and S a time in seconds.

  V                     the same voltage all the time
  ramp:V:V[:S]          from one voltage to the other in S seconds, again and again; without S once, by
                        the end of the scenario
  sine:V:V:S            a sine around the first voltage, with the second as amplitude and period S
  noise:V:V:SEED        random around the first voltage, at most the second away; SEED, a whole number,
                        chooses the values; each further channel of a range takes the next seed
  steps:V@S,V@S,..      a voltage from each of these times on

  --seconds S           how long it lasts; 60 seconds if not said
  --every MS            milliseconds between two values of a channel that changes; 100 if not said
  --trigger MS          an external trigger every MS milliseconds
  --csv FILE            voltages from a table: a line `time,CHANNEL,CHANNEL,..`, and then one line for
                        each time, in seconds and volts; an empty field changes nothing
  --of FILE             takes an existing scenario instead of shapes
  --picture             prints a picture of the scenario, 72 columns wide, instead of its lines
  --check FILE          prints each bad line of an existing scenario, and what is wrong with it

Status: 0 it is done; 1 --check found a bad line; 2 it can't be done, and standard error says why.
"""

from __future__ import annotations

import getopt
import signal
import sys
from decimal import Decimal

from ..stimulus import CHANNELS, checked_scenario, shown
from .picture import picture
from .shapes import Pair, Wrong, changes, channels_of, milliseconds, number, whole
from .table import table

NAME = "scanvolt-scenario"
MOST = 10**7  # values of a channel
OPTIONS = ("seconds=", "every=", "trigger=", "csv=", "of=", "check=", "picture", "help")
Plan = dict[int, list[Pair]]


def parsed(name: str) -> tuple[Plan, list[int]]:
    """The voltages and the triggers of an existing scenario."""
    plan: Plan = {}
    triggers: list[int] = []
    try:
        entries, bad = checked_scenario(name)
    except OSError as error:
        raise Wrong(f"{name} can't be read: {error.strerror}") from None
    if bad:
        raise Wrong(f"{name}, line {bad[0].number}: {bad[0].reason}")
    for entry in entries:
        if entry.channel is None:
            triggers.append(entry.clock)
        else:
            plan.setdefault(entry.channel, []).append((entry.clock, entry.microvolts))
    return plan, triggers


def check(name: str) -> int:
    """Prints the bad lines of a scenario. Returns the status."""
    try:
        entries, bad = checked_scenario(name)
    except OSError as error:
        raise Wrong(f"{name} can't be read: {error.strerror}") from None
    for one in bad:
        print(f"{name}, line {one.number}: {shown(one.line)}: {one.reason}")
    if not bad:
        end = entries[-1].clock / 1000 if entries else 0
        print(f"{name}: {len(entries)} entries, up to {end:.3f} s, no bad line")
    return 1 if bad else 0


def lines(plan: Plan, triggers: list[int]) -> list[str]:
    """The lines of a scenario. There is no line for a voltage that doesn't change."""
    events: list[tuple[int, int, str]] = []
    for channel, pairs in plan.items():
        value: int | None = None
        for tick, new in pairs:
            if new != value:
                events.append((tick, channel, f"{tick} input {channel} {new}"))
            value = new
    events += [(tick, CHANNELS + 1, f"{tick} external") for tick in triggers]
    return [line for _, _, line in sorted(events, key=lambda event: event[:2])]


def words_of(arguments: list[str]) -> tuple[dict[str, str], dict[int, tuple[str, int]]]:
    """The options, and for each channel its shape and its place in its range."""
    try:
        pairs, words = getopt.gnu_getopt(arguments, "h", list(OPTIONS))
    except getopt.GetoptError as error:
        raise Wrong(f"{error}; see --help") from None
    given: dict[str, str] = {"--seconds": "60", "--every": "100", **dict(pairs)}
    shapes: dict[int, tuple[str, int]] = {}
    for word in words:
        name, equals, shape = word.partition("=")
        if not equals:
            raise Wrong(f"neither an option nor CHANNELS=SHAPE: {word}; see --help")
        for place, channel in enumerate(channels_of(name)):
            if channel in shapes:
                raise Wrong(f"channel {channel} is there twice")
            shapes[channel] = (shape, place)
    return given, shapes


def existing(
    given: dict[str, str], shapes: dict[int, tuple[str, int]]
) -> tuple[Plan, list[int], int]:
    """The voltages, the triggers and the length of an existing scenario."""
    if shapes or "--csv" in given or "--trigger" in given:
        raise Wrong("--of takes a scenario as it is, without shapes, --csv and --trigger")
    plan, triggers = parsed(given["--of"])
    ticks = [tick for pairs in plan.values() for tick, _ in pairs] + triggers
    return plan, triggers, max(ticks, default=0)


def made(given: dict[str, str], shapes: dict[int, tuple[str, int]]) -> tuple[Plan, list[int], int]:
    """The voltages, the triggers and the length of the scenario that the arguments ask for."""
    if "--of" in given:
        return existing(given, shapes)
    length = milliseconds(number(given["--seconds"], "--seconds", Decimal("0.001")))
    every = whole(given["--every"], "--every", 1, 10**9)
    period = whole(given["--trigger"], "--trigger", 1, 10**9) if "--trigger" in given else every
    if length // min(every, period) > MOST:
        raise Wrong(f"there would be more than {MOST} values of a channel, or triggers")
    plan = {
        channel: changes(shape, every, length, place) for channel, (shape, place) in shapes.items()
    }
    for channel, pairs in (table(given["--csv"]) if "--csv" in given else {}).items():
        if channel in plan:
            raise Wrong(f"channel {channel} has a shape and a column")
        plan[channel] = pairs
    triggers = list(range(period, length + 1, period)) if "--trigger" in given else []
    length = max([length] + [pairs[-1][0] for pairs in plan.values() if pairs])
    if not plan and not triggers:
        raise Wrong("there is nothing to write; see --help")
    return plan, triggers, length


def main(arguments: list[str] | None = None) -> int:
    """Runs the command. Returns its status. If the reader of the output ends, so does this process (SIGPIPE)."""
    signal.signal(signal.SIGPIPE, signal.SIG_DFL)
    try:
        given, shapes = words_of(sys.argv[1:] if arguments is None else arguments)
        if "-h" in given or "--help" in given:
            print((__doc__ or "").strip())
            return 0
        if "--check" in given:
            return check(given["--check"])
        plan, triggers, length = made(given, shapes)
    except Wrong as error:
        print(f"{NAME}: {error}", file=sys.stderr)
        return 2
    print(
        "\n".join(
            picture(plan, triggers, length) if "--picture" in given else lines(plan, triggers)
        )
    )
    return 0
