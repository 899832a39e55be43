"""Threads that use a meter in lock step: `Meter.threads`.

One thread at a time has the turn: it makes one call, or ends one wait, and goes on until it comes to the meter again, ends,
or waits for another of the threads. Then the next turn is given, in an order that doesn't depend on the machine. Time
passes only when no thread can go on. So a call that waits does wait for what another thread is about to do.

Where a thread is that has the turn is read from its frames (`sys._current_frames`): in Thread.join, or in Condition.wait,
which Event, Queue, Barrier and Future use, it waits for another thread. If it sleeps for long in any other place, that is
told, since the threads that wait in the meter would wait for ever.
"""

from __future__ import annotations

import os
import random
import sys
import threading
import weakref
from collections.abc import Callable, Iterator
from time import monotonic  # of this machine, also within a meter's keeping_time
from types import FrameType, TracebackType
from typing import TYPE_CHECKING, Any

from .connection import NoAnswer, Pending

if TYPE_CHECKING:
    from .virtual import Meter

__tracebackhide__ = True  # pytest shows the line that calls the package, and not these frames
POLL = 0.001  # seconds after which a thread that waits looks where the others are
# seconds after which a thread that joins another one looks whether the lock step is broken
JOINS = 0.05
ASLEEP = 0.5  # seconds that a thread with the turn may sleep outside of the meter
# seconds that all threads may sleep outside of the meter, while the block's thread joins them
STUCK = 20.0
NEW, RUNS, READY, WAITS, AWAY, ENDED = "new", "runs", "ready", "waits", "away", "ended"
PACKAGE = os.path.join(os.path.dirname(__file__), "")
# its threads begin there, and are outside of the meter in what it calls
STARTER = PACKAGE + "interleaving.py"
WORKER = "concurrent/futures/thread.py"


class NotInStep(RuntimeError):
    """Threads can't go on in lock step: one is too many, never came, still runs, or sleeps outside of the meter."""


class Place:
    """A thread that takes part: its number, where it is, and for what it waits."""

    def __init__(self, thread: threading.Thread, number: int, state: str) -> None:
        self.thread, self.number, self.state = thread, number, state
        self.baton = threading.Lock()  # free when the thread is given the turn
        self.baton.acquire()
        self.depth = 0  # how deep it is in the meter
        self.end, self.seen = 0, -1  # until when it waits, and up to which change it has looked
        self.passes = False  # whether it is to let time pass
        self.expected: Pending[object] | None = None  # the call that its next wait is for
        self.pending: Pending[object] | None = None  # the call for which it waits
        # whether what it waits for elsewhere has come
        self.released: Callable[[], bool] = lambda: False
        self.fault: Exception | None = None  # what it has to raise
        # since when it sleeps, and its processor time then
        self.asleep: tuple[float, str] = (0.0, "")

    @property
    def name(self) -> str:
        """The name of the thread."""
        return self.thread.name


Pick = Callable[[list[Place]], Place]
# where each was in a meter last
PLACES: weakref.WeakKeyDictionary[threading.Thread, Place] = weakref.WeakKeyDictionary()


class LockStep:
    """The `with` block of `Meter.threads`."""

    def __init__(self, meter: Meter, count: int, pick: Pick | None = None) -> None:
        self._meter, self._count = meter, count
        self._pick = pick or self._rotating
        self._mutex, self._free = threading.Lock(), meter._guard
        self._owner = threading.current_thread()
        self._places: dict[threading.Thread, Place] = {}
        self._last = -1  # the number of the thread that made the last call
        self._version = 0  # changes that a thread that waits has to look at
        self._over = False
        self._broken: str | None = None
        self._raised: list[tuple[BaseException, threading.ExceptHookArgs]] = []  # by threads
        self._real: tuple[Any, Any, Any] = (None, None, None)

    # the block
    def __enter__(self) -> LockStep:
        if self._meter._steps is not None:
            raise RuntimeError("the meter is in a block of `threads` already")
        self._owner = threading.current_thread()
        self._meter._steps, self._free, self._meter._guard = self, self._meter._guard, _Guard(self)
        self._real = threading.Thread.start, threading.Thread.join, threading.excepthook
        setattr(threading.Thread, "start", self._starting(threading.Thread.start))
        setattr(threading.Thread, "join", self._joining(threading.Thread.join))
        threading.excepthook = self._except
        return self

    def __exit__(
        self,
        kind: type[BaseException] | None,
        fault: BaseException | None,
        trace: TracebackType | None,
    ) -> None:
        own = self._places.get(self._owner)
        left = [one for one in self._places.values() if one is not own and not self._is_done(one)]
        told = "; ".join(f"thread {one.name} {self._where(one)}" for one in left)
        with self._mutex:
            self._over = True
            setattr(threading.Thread, "start", self._real[0])
            setattr(threading.Thread, "join", self._real[1])
            threading.excepthook = self._real[2]
            self._meter._steps, self._meter._guard = None, self._free
        first = self._raised[0][0] if kind is None and self._raised else None
        shown = first or fault
        for one, given in self._raised:
            if one is shown or any(
                isinstance(one, kind) and isinstance(shown, kind) for kind in (NoAnswer, NotInStep)
            ):
                continue  # it is raised, or is of the same deadlock
            threading.excepthook(given)
        if first is not None:
            raise first
        if kind is None and (left or self._broken):
            raise NotInStep(
                self._broken
                or "threads still run at the end of the block, join them there: " + told
            )

    def _starting(
        self, real: Callable[[threading.Thread], None]
    ) -> Callable[[threading.Thread], None]:
        """What starts a thread: one that this block's thread or one of its threads starts takes part."""

        def start(thread: threading.Thread) -> None:
            here = threading.current_thread()
            place = None
            if (
                not self._over
                and (here is self._owner or here in self._places)
                and len(self._places) < self._count
            ):
                with self._mutex:
                    place = self._places[thread] = Place(thread, len(self._places), NEW)
            try:
                real(thread)
            except BaseException:
                self._places.pop(thread, None)
                raise
            if place is not None and place.state == NEW:
                place.state = RUNS

        return start

    def _joining(
        self, real: Callable[[threading.Thread, float | None], None]
    ) -> Callable[..., None]:
        """What joins a thread: the block's thread doesn't wait for ever for one that sleeps outside of the meter."""

        def join(thread: threading.Thread, timeout: float | None = None) -> None:
            if (
                timeout is not None
                or threading.current_thread() is not self._owner
                or thread not in self._places
            ):
                real(thread, timeout)
                return
            while thread.is_alive():
                if self._broken is not None:
                    raise NotInStep(self._broken)
                real(thread, JOINS)
                with self._mutex:
                    self._look()

        return join

    def _look(self) -> None:
        """Breaks the lock step if all threads that are left sleep outside of the meter; those that wait within look themselves. One
        thread alone may sleep as long as it likes, unless it waits for another one without a timeout.
        """
        alive = [one for one in self._places.values() if one.thread.is_alive()]
        if not alive or self._broken or any(one.state not in (RUNS, AWAY) for one in alive):
            return
        is_stuck = len(alive) > 1 or is_endless(
            sys._current_frames().get(alive[0].thread.ident or 0)
        )
        if all([self._sleeps(one, STUCK) for one in alive]) and is_stuck:
            told = "; ".join(f"thread {one.name} {self._where(one)}" for one in alive)
            self._break(f"no thread goes on: {told}")

    def _except(self, given: threading.ExceptHookArgs) -> None:
        """Keeps what a thread raised, for the end of the block."""
        fault = given.exc_value
        if (
            isinstance(fault, NotInStep)
            or isinstance(fault, Exception)
            and given.thread in self._places
        ):
            self._raised.append((fault, given))
        else:
            self._real[2](given)

    # the guard of the meter
    def _acquire(self) -> None:
        """Waits for the turn of this thread, unless it has it."""
        place = self._own()
        if place is not None and place.depth == 0:
            self._wait(place, READY)
            self._version += 1
        if place is None or self._over and place.depth == 0:
            self._free.__enter__()
        else:
            place.depth += 1

    def _release(self) -> None:
        """Undoes one `_acquire`. The turn ends when the thread comes to the meter again, ends, or waits elsewhere."""
        place = self._places.get(threading.current_thread())
        if place is None or place.depth == 0:
            self._free.__exit__(None, None, None)
        else:
            place.depth -= 1

    def stands_aside(self) -> bool:
        """Whether this thread takes no part, since others are enough: then it waits in real time."""
        return threading.current_thread() not in self._places and len(self._places) >= self._count

    def expects(self, pending: Pending[object]) -> None:
        """Notes for which call this thread will wait."""
        place = self._own()
        if place is not None:
            place.expected = pending

    def until(self, holds: Callable[[], bool], end: int) -> bool:
        """What Meter.until does, for a thread that takes part. One that doesn't may look at what it waits for."""
        if end <= self._meter.clock and threading.current_thread() not in self._places:
            return holds()
        place = self._own()
        if place is None:
            return self._meter.until(holds, max(0, end - self._meter.clock))
        place.seen = -1
        expected, place.expected = place.expected, None
        while True:
            place.end, place.pending = end, expected
            self._wait(place, WAITS)
            if self._over:
                break
            place.depth += 1
            try:
                if place.passes:
                    self._pass(place)
                if holds():
                    return True
                if self._meter.clock >= end:
                    return False
            finally:
                place.depth -= 1
            place.seen = self._version
        return self._meter.until(holds, max(0, end - self._meter.clock))

    def _pass(self, place: Place) -> None:
        """Lets time pass until something happens, or the first of the threads has waited for long enough."""
        place.passes = False
        ends = [one.end for one in self._places.values() if one.state == WAITS or one is place]
        self._meter._pass_most(min(ends) - self._meter.clock)
        self._version += 1

    def _own(self) -> Place | None:
        """The place of this thread. The thread of the block takes part if it uses the meter before others are enough."""
        thread = threading.current_thread()
        if self._over:
            return None
        with self._mutex:
            if thread not in self._places:
                if len(self._places) >= self._count or thread is not self._owner:
                    raise NotInStep(
                        f"threads({self._count}): thread {thread.name} uses the meter, but {self._names()} take part"
                    )
                self._places[thread] = Place(thread, len(self._places), RUNS)
            return self._places[thread]

    def _names(self) -> str:
        """The names of the threads that take part."""
        return " and ".join(one.name for one in self._places.values()) or "none"

    # turns
    def _wait(self, place: Place, state: str) -> None:
        """Waits until this thread has the turn."""
        with self._mutex:
            place.state, PLACES[place.thread] = state, place
            self._choose()
        began = monotonic()
        while not place.baton.acquire(timeout=POLL):
            with self._mutex:
                if self._over:
                    return
                self._choose()
                if (
                    len(self._places) < self._count
                    and monotonic() - began > 10 * ASLEEP
                    and not self._broken
                ):
                    self._break(f"threads({self._count}): only {self._names()} came to the meter")
        fault, place.fault = place.fault, None
        if fault is not None:
            raise fault

    def _give(self, place: Place) -> None:
        """Gives a thread the turn."""
        place.state = RUNS
        place.asleep = (0.0, "")
        place.baton.release()

    def _break(self, why: str) -> None:
        """Ends the lock step: all threads that wait raise why."""
        self._broken = why
        for one in self._places.values():
            if one.state in (READY, WAITS):
                one.fault = NotInStep(why)
                self._give(one)

    def _choose(self) -> None:
        """Gives the next turn, if no thread runs."""
        if len(self._places) < self._count and not self._broken:
            return
        for one in self._places.values():
            if one.state in (NEW, RUNS, AWAY) and self._moves(one):
                return
        waiting = [one for one in self._places.values() if one.state == WAITS]
        ready = [one for one in self._places.values() if one.state == READY]
        looking = [one for one in waiting if one.seen < self._version]
        if looking:
            self._give(looking[0])
        elif ready:
            self._give(self._pick(ready))
        elif waiting and not self._is_deadlock(waiting):
            waiting[0].passes = True
            self._give(waiting[0])

    def _rotating(self, ready: list[Place]) -> Place:
        """The first thread after the one that made the last call."""
        found = next((one for one in ready if one.number > self._last), ready[0])
        self._last = found.number
        return found

    def _is_deadlock(self, waiting: list[Place]) -> bool:
        """Whether nothing can end the waits of all threads. Then each of them raises NoAnswer."""
        reasons: list[str] = []
        for one in waiting:
            why = None if one.pending is None else self._meter._hopeless(one.pending)
            if why is None:
                return False
            reasons.append(f"thread {one.name}: {why}")
        reasons += [
            f"thread {one.name} {self._where(one)}"
            for one in self._places.values()
            if one.state == AWAY
        ]
        for one in waiting:
            one.fault = NoAnswer("\n".join(["no thread can go on:"] + reasons))
        self._give(waiting[0])
        for one in waiting[1:]:
            one.state = READY  # it raises when it has the turn
        return True

    # where the others are
    def _moves(self, place: Place) -> bool:
        """Whether a thread runs, and comes to the meter by itself. Notes where it is if it doesn't."""
        if place.state == NEW:
            return True
        if place.state == AWAY:
            if not place.released():
                return False
            place.state = RUNS
        if not place.thread.is_alive():
            place.state = ENDED
            return False
        released = self._in_another(place) or wait_of(place.thread)
        if released is not None:
            place.state, place.released = AWAY, released
            return False
        if self._sleeps(place):
            self._break(
                f"thread {place.name} {self._where(place)} for {ASLEEP:g} s, and the others can't go on"
            )
        return True

    def _in_another(self, place: Place) -> Callable[[], bool] | None:
        """If a thread waits in the lock step of another meter: a function that says whether it goes on there."""
        other = PLACES.get(place.thread, place)
        if other is place or other.state not in (READY, WAITS):
            return None
        return lambda: PLACES.get(place.thread) is not other or other.state not in (READY, WAITS)

    @staticmethod
    def _sleeps(place: Place, seconds: float = ASLEEP) -> bool:
        """Whether a thread has slept for so long outside of this package, by what the kernel tells."""
        frame = sys._current_frames().get(place.thread.ident or 0)
        told = "" if place.depth or is_inside(frame) else processor_time(place.thread)
        if not told or told != place.asleep[1]:
            place.asleep = (monotonic(), told)
            return False
        return monotonic() - place.asleep[0] > seconds

    def _is_done(self, place: Place) -> bool:
        return not place.thread.is_alive() or is_idle(
            sys._current_frames().get(place.thread.ident or 0)
        )

    @staticmethod
    def _where(place: Place) -> str:
        frame = sys._current_frames().get(place.thread.ident or 0)
        inside = [one.f_back for one in callers(frame) if is_own(one)]
        frame = inside[-1] if inside else frame  # the line that calls the package
        while frame is not None and (
            is_own(frame) or frame.f_code.co_filename == threading.__file__
        ):
            frame = frame.f_back
        if frame is None:
            return "has ended"
        if not inside:
            where = "outside of the meter"
        elif place.depth:
            where = "in the meter"
        else:
            where = "in another meter"
        file = os.path.basename(frame.f_code.co_filename)
        return f"waits {where}, at {file}:{frame.f_lineno} in {frame.f_code.co_name},"


class _Guard:
    """What guards a meter in lock step: a thread has the turn from when it comes to the meter on."""

    def __init__(self, steps: LockStep) -> None:
        self._steps = steps

    def __enter__(self) -> None:
        self._steps._acquire()

    def __exit__(self, *_: object) -> None:
        self._steps._release()


def is_inside(frame: FrameType | None) -> bool:
    """Whether a frame was called by this package, which waits for its program."""
    return any(map(is_own, callers(frame)))


def callers(frame: FrameType | None) -> Iterator[FrameType]:
    """A frame, the one that called it, and so on."""
    while frame is not None:
        yield frame
        frame = frame.f_back


def is_own(frame: FrameType) -> bool:
    """Whether a frame is one of this package, except those in which a controller begins."""
    name = frame.f_code.co_filename
    return name.startswith(PACKAGE) and name != STARTER


def is_idle(frame: FrameType | None) -> bool:
    """Whether a frame is that of a worker of an executor which has nothing to do."""
    return (
        frame is not None
        and frame.f_code.co_name == "_worker"
        and frame.f_code.co_filename.endswith(WORKER)
    )


def is_endless(frame: FrameType | None) -> bool:
    """Whether a frame is that of Condition.wait, without a timeout."""
    return (
        frame is not None
        and frame.f_code.co_filename == threading.__file__
        and frame.f_code.co_name == "wait"
        and frame.f_locals.get("timeout", "none given") is None
    )


def wait_of(thread: threading.Thread) -> Callable[[], bool] | None:
    """If a thread waits for another one: a function that says whether that has come. Else None."""
    frame = sys._current_frames().get(thread.ident or 0)
    if is_idle(frame):
        return lambda: not is_idle(sys._current_frames().get(thread.ident or 0))
    if frame is None or frame.f_code.co_filename != threading.__file__:
        return None
    name, found = frame.f_code.co_name, frame.f_locals
    if name == "wait" and "waiter" in found:
        locked: Callable[[], bool] = found["waiter"].locked
        return (lambda: not locked()) if locked() else None
    target = found.get("self") if name in ("join", "_wait_for_tstate_lock") else None
    if isinstance(target, threading.Thread):
        is_alive = target.is_alive
        return (lambda: not is_alive()) if is_alive() else None
    return None


def processor_time(thread: threading.Thread) -> str:
    """The processor time of a thread that sleeps, as the kernel tells it; empty if it runs, or isn't told."""
    folder = f"/proc/self/task/{thread.native_id}/"
    try:
        with open(folder + "stat", encoding="ascii", errors="replace") as file:
            state = file.read().rpartition(")")[2].split()[0]
        with open(folder + "schedstat", encoding="ascii") as file:
            return file.read() if state == "S" else ""
    except OSError:
        return ""


def seeded(seed: int) -> Pick:
    """Picks a thread at random, in the same way for the same seed."""
    source = random.Random(seed)
    return lambda ready: source.choice(ready)
