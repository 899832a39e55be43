"""What would end a wait is tried, not reasoned: second programs get the same lines, and then something more happens to each. So
what is said to end a wait was seen to end it.
"""

from __future__ import annotations

import threading
from collections.abc import Callable, Iterator, Sequence
from dataclasses import dataclass

from ..program import ProgramError
from ..vxi11 import calls
from ..vxi11.calls import Call as Sent
from ..vxi11.whole import WORD
from .story import Call, Story
from .trial import MESSAGE, Seen, Trial
from .words import counted, millis, pair

LIMIT = 2.0  # seconds of real time for all tries
SCANS = 16  # scans that a measurement may have
PATIENCE = 600000  # milliseconds that pass in a try
ABORTED = 3  # calls whose abort is tried
TIME = "time alone"
HELD = -1  # the number of a write that shows when a message ends, if no call waits for that
Act = Callable[[Trial], None]


@dataclass(frozen=True)
class Outcome:
    """What was tried for a call, and if that ended its wait, when and with which reply."""

    what: str
    words: str | None = None
    clock: int = 0

    @property
    def is_end(self) -> bool:
        """Whether it ended the wait."""
        return self.words is not None

    def __str__(self) -> str:
        return f"{self.what}, it ends at {millis(self.clock)}: {self.words}"


@dataclass(frozen=True)
class Kind:
    """Something to try: its name, for which waits, how, and for calls of which link if it is only for these."""

    what: str
    fits: tuple[str, ...]
    act: Act
    link: int | None = None

    def is_for(self, call: Call) -> bool:
        """Whether it is worth trying for this call."""
        return call.waits[-1].what in self.fits and self.link in (None, call.waits[-1].link)


class Tried:
    """What was tried. `left` is what couldn't be tried: there was no time, no connection or no link for it. `logs` has the lines
    of each try.
    """

    def __init__(self) -> None:
        self.ended: dict[str, dict[int, Seen]] = {}  # by kind and call, how the call ended
        self._kinds: dict[str, Kind] = {}
        self.left: list[Kind] = []
        self.logs: dict[str, list[str]] = {}

    def of(self, call: Call) -> list[Outcome]:
        """What was tried for a call. If it timed out during a try, that isn't what ended its wait."""
        found, timeout = [], self.ended.get(TIME, {}).get(call.number)
        for what, ended in self.ended.items():
            seen = ended.get(call.number)
            if not self._kinds[what].is_for(call):
                continue
            if seen is not None and (what == TIME or timeout is None or seen[:2] != timeout[:2]):
                found.append(Outcome(seen[2], seen[1], seen[0]))
            elif what != TIME or call.waits[-1].deadline is None:
                # a timeout that is far off isn't waited for
                found.append(Outcome(what))
        return found

    def left_of(self, call: Call) -> list[str]:
        """What couldn't be tried for a call."""
        return [one.what for one in self.left if one.is_for(call)]

    def of_held(self) -> list[Outcome]:
        """What was tried for a held unit for which no call waits."""
        return [
            Outcome(seen[2], "the message ends", seen[0])
            for ended in self.ended.values()
            for number, seen in ended.items()
            if number == HELD
        ]


ALL = ("lock", "input", "response", "dial")


def tried(story: Story, program: str) -> Tried:
    """Tries what might end the waits of a session, all at the same time, for LIMIT seconds at most. A timer in a thread of its
    own watches that, since `keeping_time` may have made this thread's time that of a meter.
    """
    found = Tried()
    runs = [_Run(story, program, kind) for kind in _kinds(story)]
    timer = threading.Timer(LIMIT, _stop, (runs,))
    timer.daemon = True
    timer.start()
    for run in runs:
        run.start()
    for run in runs:
        run.join()
    timer.cancel()
    timer.join()
    for run in runs:
        if run.ended is None:
            found.left.append(run.kind)
        else:
            found.ended[run.kind.what], found._kinds[run.kind.what] = run.ended, run.kind
            found.logs[run.kind.what] = run.trial.log if run.trial is not None else []
    return found


class _Run(threading.Thread):
    """Tries one thing. `ended` is None until that is done."""

    def __init__(self, story: Story, program: str, kind: Kind) -> None:
        super().__init__(daemon=True)
        self._story, self._program, self.kind = story, program, kind
        self.trial: Trial | None = None
        self.ended: dict[int, Seen] | None = None
        self._stopped = False

    def run(self) -> None:
        try:
            self.trial = Trial(self._story, self._program)
            if self._stopped:
                return
            self.trial.begin()
            self.trial.doing = self.kind.what
            _watch_held(self.trial)
            self.kind.act(self.trial)
            self.ended = self.trial.ended
        except (ProgramError, OSError, ValueError):
            pass  # it was stopped, it can't be tried, or the program ended: then it isn't said
        finally:
            if self.trial is not None:
                self.trial.program.close()

    def stop(self) -> None:
        """Ends the program of a try that takes too long. The thread itself closes what belongs to it."""
        self._stopped = True
        if self.trial is not None and self.ended is None:
            self.trial.program.process.kill()


def _stop(runs: Sequence[_Run]) -> None:
    for run in runs:
        run.stop()


def _watch_held(trial: Trial) -> None:
    """If a unit is held and no call waits for it: starts an empty write, which is answered when the message has ended."""
    story = trial.story
    waits = any(call.waits[-1].what in MESSAGE for call in story.waiting())
    if waits or trial.value("held") == "none" or trial.value("lock") != "none":
        return
    conn = trial.fresh()
    trial.send(conn, calls.device_write(trial.link(conn), b"", WORD, 0, False), HELD)


def _kinds(story: Story) -> Iterator[Kind]:
    """What is worth trying at the end of a session."""
    waits = {call.waits[-1].what for call in story.waiting()}
    held, state, source = story.value("held") != "none", story.value("state"), story.value("source")
    if waits or held:
        yield Kind(TIME, ALL, _time)
    if held and state == "waiting" and source == "ext":
        yield Kind("EXTernal trigger", MESSAGE, _external)
    if held and state == "waiting" and source == "bus":
        yield Kind(
            "device_trigger",
            MESSAGE,
            lambda trial: _by_link(trial, "device_trigger", calls.device_trigger, SCANS),
        )
    if held:
        yield Kind(
            "device_clear",
            MESSAGE,
            lambda trial: _by_link(trial, "device_clear", calls.device_clear, 1),
        )
    if "lock" in waits and story.value("lock") != "none":
        holder = int(str(story.value("lock")))
        conn = story.owners[holder]
        yield Kind(
            f"device_unlock of link {holder}",
            ("lock",),
            lambda trial: trial.send(conn, calls.device_unlock(holder)),
        )
        yield Kind(f"the close of c{conn}", ("lock",), lambda trial: trial.close(conn))
    for call in [one for one in story.waiting() if one.waits[-1].what == "dial"][:1]:
        for how in ("ok", "failed"):
            yield Kind(f"connecting: {how}", ("dial",), _dialed(call.conn, how))
    for call in [one for one in story.waiting() if one.waits[-1].link][:ABORTED]:
        link = call.waits[-1].link or 0
        yield Kind(f"device_abort of link {link}", (call.waits[-1].what,), _abort(link), link)


def _time(trial: Trial) -> None:
    """Time alone: first what the scan under way takes, then up to each timeout."""
    (scan, scans), (place, length) = pair(trial.value("scan")), pair(trial.value("place"))
    if trial.value("state") == "scanning":
        trial.pass_time(
            length - place + (length * (scans - scan) if trial.value("source") == "imm" else 0)
        )
    deadlines = {call.waits[-1].deadline for call in trial.story.waiting()}
    for deadline in sorted(
        one for one in deadlines if one is not None and one - trial.clock <= PATIENCE
    ):
        trial.skip(deadline - 1 - trial.clock)
        trial.pass_time(deadline - trial.clock)


def _external(trial: Trial) -> None:
    """EXTernal triggers, up to as many as a measurement may have scans, each with the time that a scan takes."""
    for count in range(1, SCANS + 1):
        trial.doing = counted(count, "EXTernal trigger")
        trial.do("external\n")
        trial.pass_time(pair(trial.value("place"))[1])
        if trial.is_over():
            return


def _by_link(trial: Trial, what: str, make: Callable[[int, int], Sent[None]], most: int) -> None:
    """A call of the link that has the lock, or else of a new one, again and again if that may help."""
    holder = trial.value("lock")
    conn = trial.fresh() if holder == "none" else trial.story.owners[int(str(holder))]
    link = trial.link(conn) if holder == "none" else int(str(holder))
    done = f"{what} of any link" if holder == "none" else f"{what} of link {link}"
    for count in range(1, most + 1):
        trial.doing = done + (f", {count} times" if count > 1 else "")
        trial.send(conn, make(link, 0))
        if most > 1:
            trial.pass_time(pair(trial.value("place"))[1])
        if trial.is_over():
            return


def _dialed(conn: int, how: str) -> Act:
    return lambda trial: trial.do(f"dialed {conn} {how}\n")


def _abort(link: int) -> Act:
    """device_abort of a link, over an abort channel of its own."""

    def act(trial: Trial) -> None:
        trial.send(trial.fresh("abort"), calls.device_abort(link))

    return act
