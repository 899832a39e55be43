"""Python's clocks and waits by the time of a meter, for the thread that enters `keeping_time`.

All else uses this through `Meter.keeping_time`. While any thread is within such a block, Python's clocks, `time.sleep`,
`threading.Condition.wait` (which Event, Semaphore and Queue use) and the selectors of asyncio's loops are replaced by
functions that go by the meter for the threads within, and by real time for all others.

Some parts that this uses are private to Python, and are alike in Python 3.9 to 3.13: of a Condition `_waiters`,
`_is_owned`, `_release_save` and `_acquire_restore`; `threading._time` and `queue.time`, by which these modules call
time.monotonic. A Python that lacks one is refused as a block begins. Of a loop it uses `_selector`, and of a frame in
threading the names `join` and `_wait_for_tstate_lock`; it does without them, too. `sys._current_frames` is documented.
"""

from __future__ import annotations

import contextlib
import functools
import math
import queue
import selectors
import sys
import threading
import time
from collections.abc import Callable, Iterator
from types import FrameType
from typing import TYPE_CHECKING, Any

if TYPE_CHECKING:
    from .virtual import Meter

__tracebackhide__ = True  # pytest shows the line that calls the package, and not these frames
# of Python's module time; each also in nanoseconds, with _ns
CLOCKS = ("time", "monotonic", "perf_counter")
SELECTORS = ("SelectSelector", "PollSelector", "EpollSelector", "DevpollSelector", "KqueueSelector")
KINDS = tuple(vars(selectors)[name] for name in SELECTORS if name in vars(selectors))
# times that a clock may be read in a row, without a call and without time that passes
READS_MOST = 10000
POLLS_MOST = 25000  # the same, with calls
# a wait without a timeout waits so often so many seconds of real time for other threads
SLICE, SLICES = 0.1, 600
# milliseconds after which a loop looks for its files: Ctrl-C writes to one, and raises nothing
STRIDE = 1000
# nanoseconds; a clock begins at a multiple, exact as a float, so that runs round alike
GRID = 10**9 // 512
ENDLESS = 2**32  # milliseconds; a longer timeout is none
HELP = "Let the loop sleep between its polls (time.sleep), or let each call take time: Meter(call_time=1)"


class NeverEnds(RuntimeError):
    """A loop or a wait in `keeping_time` that the meter's time can't end."""


def whole(seconds: float) -> int:
    """Seconds in whole milliseconds: rounded up, so that a loop that sleeps comes to an end."""
    return max(1, math.ceil(round(1000 * seconds, 3))) if seconds > 0 else 0


class _Keeper:
    """What the functions do in a thread within a block: they advance this meter, or read its clock."""

    def __init__(self, meter: Meter) -> None:
        self._meter = meter
        self._begin = meter.clock
        grid = 1 if threading.get_ident() in keepers else GRID
        self._since: dict[str, int] = {
            name: -(-getattr(time, name + "_ns")() // grid) * grid for name in CLOCKS
        }
        self._is_real = False  # whether waits are real now
        self._seen = (meter.clock, meter._sent)
        self._reads = self._polls = 0

    def read(self, name: str) -> int:
        """The clock of this name, in nanoseconds. Raises NeverEnds if it is read too often while no time passes."""
        self._idle()
        return self._since[name] + (self._meter.clock - self._begin) * 10**6

    def _idle(self) -> None:
        """Counts something that a loop does while no time passes. Raises NeverEnds if that is too often."""
        clock, sent = self._meter.clock, self._meter._sent
        if clock != self._seen[0]:
            self._reads = self._polls = 0
        elif sent != self._seen[1]:
            self._reads = 0
        self._seen = clock, sent
        self._reads += 1
        self._polls += 1
        if self._reads > READS_MOST or self._polls > POLLS_MOST:
            count, self._reads, self._polls = max(self._reads, self._polls) - 1, 0, 0
            raise NeverEnds(
                f"the clock was read {count} times at {clock} ms of the meter's clock, and no time passed: time "
                f"passes only in calls that wait. {HELP}"
            )

    def sleep(self, seconds: float) -> None:
        """Lets this much time pass."""
        if seconds < 0:
            raise ValueError("sleep length must be non-negative")
        if seconds == 0:
            self._idle()
        self._meter.advance(whole(seconds))

    def start(self, real: Callable[..., object], thread: threading.Thread) -> None:
        """Starts a thread, and waits really until it runs."""
        before, self._is_real = self._is_real, True
        try:
            real(thread)
        finally:
            self._is_real = before

    def wait(
        self, real: Callable[..., object], condition: Any, timeout: float | None = None
    ) -> object:
        """Lets time pass until the condition is notified, or its timeout is over. Returns whether it was notified."""
        steps = self._meter._steps
        if self._is_real or not condition._is_owned() or steps is not None and steps.stands_aside():
            return real(condition, timeout)
        with released(condition) as waiter:
            if timeout is None or whole(timeout) >= ENDLESS:
                return self._endless(
                    lambda: not waiter.locked(), lambda: waiter.acquire(timeout=SLICE)
                )
            if timeout <= 0:
                self._idle()
            return self._meter.until(lambda: not waiter.locked(), whole(timeout))

    def select(
        self, real: Callable[..., list[object]], selector: Any, timeout: float | None = None
    ) -> list[object]:
        """Lets time pass until a file of a loop is ready, a service request was handed on, or the timeout is over."""
        loop = loop_of(selector)
        if loop is None:
            return real(selector, timeout)
        found = real(selector, timeout if timeout and shuts_executor(loop) else 0)
        handed = self._meter._handed

        def ready() -> bool:
            found.extend(real(selector, 0))
            return bool(found) or self._meter._handed != handed

        def ready_really() -> bool:
            found.extend(real(selector, SLICE))
            return bool(found)

        if found:
            return found
        if timeout is None:
            # a loop has one file of its own
            self._endless(ready, ready_really, len(selector.get_map()) > 1)
        else:
            rest = whole(timeout)
            while not self._meter.until(ready, min(rest, STRIDE)) and rest > STRIDE:
                rest -= STRIDE
        return found

    def _endless(
        self, holds: Callable[[], bool], really: Callable[[], bool], has_files: bool = False
    ) -> bool:
        """Waits without a timeout: lets time pass if a service request may end the wait, and then waits for what
        else may end it, in real time. `really` does so for a short while. Returns true, or raises NeverEnds.
        """
        meter = self._meter
        if (meter._has_channel or meter._steps or meter._awaited) and meter.until(
            holds, meter.patience
        ):
            return True
        if meter._give_up():
            return True
        for _ in range(SLICES):
            if holds():
                return True
            if not (has_files or others()):
                break
            if really():
                return True
        raise NeverEnds(
            f"a wait without a timeout at {self._meter.clock} ms of the meter's clock: nothing ends it, neither in the "
            "meter's time nor in another thread. Give it a timeout"
        )


@contextlib.contextmanager
def released(condition: Any) -> Iterator[threading.Lock]:
    """Does what Condition.wait does around its waiting: frees the condition's lock, and takes it again at the end.
    The lock that this yields is free as soon as the condition was notified.
    """
    waiter = threading.Lock()
    waiter.acquire()
    condition._waiters.append(waiter)
    saved = condition._release_save()
    try:
        yield waiter
    finally:
        condition._acquire_restore(saved)
        with contextlib.suppress(ValueError):  # notify removed it
            condition._waiters.remove(waiter)


def others() -> bool:
    """Whether another thread runs that may end a wait of this one: one that doesn't wait for the end of this one."""
    own, frames = threading.current_thread(), sys._current_frames()
    return any(
        one is not own and not joins(frames.get(one.ident or 0), own)
        for one in threading.enumerate()
    )


def joins(frame: FrameType | None, thread: threading.Thread) -> bool:
    """Whether a frame is in Thread.join, of this thread."""
    return (
        frame is not None
        and frame.f_code.co_filename == threading.__file__
        and frame.f_code.co_name in ("join", "_wait_for_tstate_lock")
        and frame.f_locals.get("self") is thread
    )


def loop_of(selector: object) -> Any:
    """The asyncio loop that runs in this thread, if this is its selector. If the loop wraps its selectors, any that is
    used outside of tasks is taken for one; else None.
    """
    asyncio = sys.modules.get("asyncio")
    if asyncio is None:
        return None
    try:
        loop = asyncio.get_running_loop()
    except RuntimeError:
        return None
    own = getattr(loop, "_selector", None)
    wraps = not isinstance(own, KINDS) and asyncio.current_task(loop) is None
    return loop if own is selector or wraps else None


def shuts_executor(loop: Any) -> bool:
    """Whether a loop waits for the threads of its executor, as asyncio.run does at its end. They have real time."""
    coroutines = [task.get_coro() for task in sys.modules["asyncio"].all_tasks(loop)]
    return any(getattr(one, "__name__", "") == "shutdown_default_executor" for one in coroutines)


def check_python() -> None:
    """Raises RuntimeError if this Python lacks a part that is used here."""
    of_condition = "_waiters", "_is_owned", "_release_save", "_acquire_restore"
    for where, name, parts in (
        (threading, "threading", ("_time",)),
        (queue, "queue", ("time",)),
        (threading.Condition(threading.Lock()), "threading.Condition", of_condition),
    ):
        for part in parts:
            if not hasattr(where, part):
                version = f"{sys.version_info.major}.{sys.version_info.minor}"
                raise RuntimeError(
                    f"keeping_time doesn't know Python {version}: its {name} has no {part}. "
                    "Use Python 3.9 to 3.13, or a later release of scanvolt"
                )


def reads(name: str, in_seconds: bool = True) -> Callable[..., float]:
    """What reads a clock, in seconds or in nanoseconds."""

    def read(keeper: _Keeper, _real: object) -> float:
        nanoseconds = keeper.read(name)
        return nanoseconds / 10**9 if in_seconds else nanoseconds

    return read


def replaced() -> Iterator[tuple[object, str, Callable[..., object]]]:
    """What is replaced: where, by which name, and what does it for the threads within a block."""
    for name in CLOCKS:
        yield time, name, reads(name)
        yield time, name + "_ns", reads(name, False)
    yield time, "sleep", lambda keeper, _real, seconds: keeper.sleep(seconds)
    yield threading.Condition, "wait", _Keeper.wait
    yield threading.Thread, "start", _Keeper.start
    # these modules imported time.monotonic by another name
    yield threading, "_time", reads("monotonic")
    yield queue, "time", reads("monotonic")
    for kind in {next(one for one in kind.__mro__ if "select" in vars(one)) for kind in KINDS}:
        yield kind, "select", _Keeper.select


# of each thread that is within blocks; the last is of the innermost
keepers: dict[int, list[_Keeper]] = {}
guard = threading.Lock()
put_back = contextlib.ExitStack()


def choosing(real: Callable[..., object], virtual: Callable[..., object]) -> Callable[..., object]:
    """A function that is virtual for the threads within a block."""

    @functools.wraps(real)
    def chosen(*given: object, **named: object) -> object:
        own = keepers.get(threading.get_ident())
        return virtual(own[-1], real, *given, **named) if own else real(*given, **named)

    return chosen


def replace() -> None:
    """Replaces the functions."""
    check_python()
    for where, name, virtual in replaced():
        real = getattr(where, name)
        put_back.callback(setattr, where, name, real)
        setattr(where, name, choosing(real, virtual))


@contextlib.contextmanager
def keeping_time(meter: Meter) -> Iterator[Meter]:
    """Within this block, the time of the thread that enters it is the meter's: see Meter.keeping_time."""
    thread, keeper = threading.get_ident(), _Keeper(meter)
    with guard:
        if not keepers:
            replace()
        keepers.setdefault(thread, []).append(keeper)
    try:
        yield meter
    finally:
        with guard:
            keepers[thread].remove(keeper)
            if not keepers[thread]:
                del keepers[thread]
            if not keepers:
                put_back.close()
