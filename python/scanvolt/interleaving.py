"""Controllers of one instrument in every order of their calls: `Meter.interleavings`."""

from __future__ import annotations

import threading
from collections.abc import Callable, Sequence
from typing import TYPE_CHECKING

from .lockstep import LockStep, Pick, Place, seeded

if TYPE_CHECKING:
    from .virtual import Meter

__tracebackhide__ = True  # pytest shows the line that calls the package, and not these frames
Controller = Callable[["Meter"], object]
LETTERS = "ABCDEFGHIJKLMNOP"
MOST = 10000  # orders that are tried, unless a number is given
SHOWN = 12  # lines of the timeline that a failure shows
Taken = tuple[list[int], int]  # at a turn: the controllers that could go on, and the one that did


class OrderFails(AssertionError):
    """Controllers fail in an order of their calls. `order` repeats it, `fault` is what was raised, and `tried` is how many
    orders were tried.
    """

    def __init__(self, order: str, fault: BaseException, tried: int, told: Sequence[str]) -> None:
        self.order, self.fault, self.tried = order, fault, tried
        how = "" if order else ", each as far as it can go, A first"
        said = str(fault).split("\n")[0]
        what = type(fault).__name__ + (": " + said if said else "")
        super().__init__(
            "\n".join(
                [
                    f"in the order {order!r} of their calls{how}, the {ordinal(tried)} that was tried: {what}",
                    f"interleavings(.., order={order!r}) repeats it. What the instrument saw:",
                    *told,
                ]
            )
        )


class _Run:
    """One run of the controllers: they start in the given order, and go on with the first that can, or by `pick`."""

    def __init__(
        self,
        meter: Meter,
        controllers: Sequence[Controller],
        start: Sequence[int],
        pick: Pick | None = None,
    ) -> None:
        self._start, self._then = start, pick
        self._taken: list[Taken] = []
        self._until = 0  # turns that were taken when the first controller failed
        self.fault: BaseException | None = None
        self.told: list[str] = []
        twin = meter.fork()
        with twin:
            self._run(twin, controllers)
            if self.fault is not None:
                self.told = twin.explain().lines(SHOWN)

    def _run(self, twin: Meter, controllers: Sequence[Controller]) -> None:
        """Runs the controllers, each in a thread. Keeps the first fault."""
        threads = [
            threading.Thread(
                target=self._controlled, args=(one, twin), name=LETTERS[place], daemon=True
            )
            for place, one in enumerate(controllers)
        ]
        try:
            with LockStep(twin, len(threads), self._pick):
                for thread in threads:
                    thread.start()
                for thread in threads:
                    thread.join()
        except Exception as fault:
            self._failed(fault)

    def _controlled(self, controller: Controller, twin: Meter) -> None:
        try:
            controller(twin)
        except Exception as fault:
            self._failed(fault)

    def _failed(self, fault: BaseException) -> None:
        if self.fault is None:
            self.fault, self._until = fault, len(self._taken)

    def _pick(self, ready: list[Place]) -> Place:
        """The controller whose turn it is."""
        numbers = sorted(one.number for one in ready)
        place = len(self._taken)
        if place < len(self._start):
            wanted = self._start[place]
            if wanted not in numbers:
                others = " and ".join(LETTERS[one] for one in numbers)
                raise ValueError(
                    f"{LETTERS[wanted]} can't go on at turn {place + 1} of this order, only {others}"
                )
            found = wanted
        else:
            if self._then:
                found = self._then(sorted(ready, key=lambda one: one.number)).number
            else:
                found = numbers[0]
        self._taken.append((numbers, found))
        return next(one for one in ready if one.number == found)

    @property
    def order(self) -> str:
        """The turns up to the fault, without those at the end that come by themselves."""
        taken = self._taken[: self._until]
        while taken and taken[-1][1] == taken[-1][0][0]:
            taken.pop()
        return "".join(LETTERS[number] for _, number in taken)

    def next(self) -> list[int] | None:
        """The start of the next order, if this one was the first with its start; None if it was the last."""
        for place in range(len(self._taken) - 1, -1, -1):
            numbers, found = self._taken[place]
            if found != numbers[-1]:
                return [one for _, one in self._taken[:place]] + [numbers[numbers.index(found) + 1]]
        return None


def interleavings(
    meter: Meter,
    controllers: Sequence[Controller],
    count: int | None = None,
    seed: int = 0,
    order: str | None = None,
) -> int:
    """Runs controllers in the orders of their calls: see Meter.interleavings."""
    if not 2 <= len(controllers) <= len(LETTERS):
        raise ValueError(
            f"interleavings wants 2 to {len(LETTERS)} controllers, and not {len(controllers)}"
        )
    if order is not None:
        _check(_Run(meter, controllers, _numbers(order, len(controllers))), 1)
        return 1
    if count is not None:
        for tried in range(1, count + 1):
            _check(_Run(meter, controllers, (), seeded(seed + tried - 1)), tried)
        return count
    start: list[int] | None = []
    tried = 0
    while start is not None:
        if tried == MOST:
            raise RuntimeError(
                f"there are more than {MOST} orders: let interleavings(.., count=1000) try some at random"
            )
        run = _Run(meter, controllers, start)
        tried += 1
        _check(run, tried)
        start = run.next()
    return tried


def _check(run: _Run, tried: int) -> None:
    if run.fault is not None:
        raise OrderFails(run.order, run.fault, tried, run.told) from run.fault


def _numbers(order: str, count: int) -> list[int]:
    """The controllers of an order such as ABBA."""
    for letter in order:
        if letter not in LETTERS[:count]:
            raise ValueError(
                f"an order has letters from A to {LETTERS[count - 1]}, and not {letter!r}"
            )
    return [LETTERS.index(letter) for letter in order]


def ordinal(number: int) -> str:
    if number % 100 in (11, 12, 13):
        ending = "th"
    else:
        ending = {1: "st", 2: "nd", 3: "rd"}.get(number % 10, "th")
    return f"{number}{ending}"
