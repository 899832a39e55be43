"""Python's clocks and waits in `keeping_time`: they go by the meter, never hang, and are put back."""

from __future__ import annotations

import asyncio
import queue
import selectors
import signal
import sys
import threading
import time
import unittest
from collections.abc import Callable
from typing import TypeVar, cast
from unittest import mock

from scanvolt import keeping_time
from scanvolt.keeping_time import NeverEnds
from scanvolt.virtual import Connection, Meter
from scanvolt.vxi11 import Link, ServiceRequest

from .processes import ctrl_c

Value = TypeVar("Value")
CLOCKS: tuple[Callable[[], float], ...] = (
    lambda: time.time(),
    lambda: time.monotonic(),
    lambda: time.perf_counter(),
    lambda: time.time_ns() / 1e9,
    lambda: time.monotonic_ns() / 1e9,
    lambda: time.perf_counter_ns() / 1e9,
)
PATIENCE = 20  # seconds of real time within which each test ends


def functions() -> dict[str, object]:
    """The functions that may be replaced."""
    found: dict[str, object] = dict(vars(time))
    for where in (
        threading,
        queue,
        asyncio,
        threading.Condition,
        threading.Thread,
        selectors.DefaultSelector,
    ):
        found.update({f"{where}.{name}": value for name, value in vars(where).items()})
    return found


class WithMeter(unittest.TestCase):
    """Each test has a meter whose scan of three channels requests service at its end."""

    def setUp(self) -> None:
        self.meter, self.connection, self.link = self.made()
        self.before = functions()

    def tearDown(self) -> None:
        """Everything was put back."""
        self.assertEqual(functions(), self.before)

    def made(self, call_time: int = 0) -> tuple[Meter, Connection, Link]:
        meter = Meter()
        self.addCleanup(meter.close)
        meter.set_input(3, 7)
        connection = meter.connect()
        link = connection.create_link()
        link.write("*CLS;:CONF:VOLT (@1:3);:CALC:LIM:UPP 5;STAT ON;:STAT:QUES:ENAB 512;*SRE 8")
        link.enable_srq(b"handle")
        meter.call_time = call_time
        return meter, connection, link

    def within(self, body: Callable[[], Value], meter: Meter | None = None) -> Value:
        """What a body returns or raises, within a block, in a thread of its own, which has to end."""
        found: list[Value] = []
        faults: list[BaseException] = []

        def run() -> None:
            try:
                with (self.meter if meter is None else meter).keeping_time():
                    found.append(body())
            except BaseException as fault:
                faults.append(fault)

        thread = threading.Thread(target=run, daemon=True)
        thread.start()
        thread.join(PATIENCE)
        self.assertFalse(thread.is_alive(), "it hangs")
        if faults:
            raise faults[0]
        return found[0]

    def takes(self, milliseconds: int, body: Callable[[], Value]) -> Value:
        """What a body returns, which takes this much of the meter's time, and each clock says so."""

        def timed() -> Value:
            began, clocks = self.meter.clock, [clock() for clock in CLOCKS]
            found = body()
            self.assertEqual(self.meter.clock - began, milliseconds)
            for clock, since in zip(CLOCKS, clocks):
                self.assertAlmostEqual(clock() - since, milliseconds / 1000, 5)
            return found

        return self.within(timed)


class Waits(WithMeter):
    """Waits advance the meter, and end when a callback of a service request ends them."""

    def test_sleeps(self) -> None:
        self.takes(51, lambda: time.sleep(0.0501))
        self.takes(1, lambda: time.sleep(1e-9))
        self.takes(0, lambda: time.sleep(0))
        self.assertRaises(ValueError, self.within, lambda: time.sleep(-1))

    def test_timeouts(self) -> None:
        self.assertFalse(self.takes(2500, lambda: threading.Event().wait(2.5)))
        self.assertFalse(self.takes(0, lambda: threading.Event().wait(-1)))
        self.assertFalse(self.takes(30, lambda: threading.Semaphore(0).acquire(timeout=0.03)))
        condition = threading.Condition()
        with condition:
            pass

        def wait_for() -> bool:
            with condition:
                return condition.wait_for(lambda: False, 0.07)

        self.assertFalse(self.takes(70, wait_for))
        self.assertRaises(queue.Empty, self.within, lambda: queue.Queue[int]().get(timeout=9))
        # its lock isn't taken
        self.assertRaises(RuntimeError, self.within, lambda: condition.wait(1))
        with condition:
            self.assertEqual(len(vars(condition)["_waiters"]), 0)

    def test_an_event(self) -> None:
        event = threading.Event()
        self.connection.listen(lambda _: event.set())
        self.link.write("INIT")
        self.assertTrue(self.takes(3, lambda: event.wait(10)))
        self.assertTrue(self.takes(0, lambda: event.wait(10)))

    def test_a_queue(self) -> None:
        requests: queue.Queue[ServiceRequest] = queue.Queue()
        self.connection.listen(requests.put)
        self.link.write("INIT")
        self.assertEqual(
            self.takes(3, lambda: requests.get(timeout=10)), ServiceRequest(b"handle", 1, 3)
        )
        self.link.write("*CLS;:INIT")
        self.assertEqual(self.takes(3, requests.get), ServiceRequest(b"handle", 2, 6))
        full: queue.Queue[int] = queue.Queue(1)
        full.put(1)
        self.assertRaises(queue.Full, self.takes, 20, lambda: full.put(2, timeout=0.02))

    def test_the_meter_s_own_queue(self) -> None:
        requests = self.connection.listen()
        self.link.write("INIT")
        self.assertEqual(
            self.takes(3, lambda: requests.queue.get(timeout=10)), ServiceRequest(b"handle", 1, 3)
        )

    def test_a_condition(self) -> None:
        condition = threading.Condition()
        found: list[object] = []

        def came(request: ServiceRequest) -> None:
            with condition:
                found.append(request)
                condition.notify()

        def wait() -> bool:
            with condition:
                return condition.wait_for(lambda: bool(found), 10)

        self.connection.listen(came)
        self.link.write("INIT")
        self.assertTrue(self.takes(3, wait))

    def test_other_threads(self) -> None:
        """A wait without a timeout is ended by another thread, in real time; starting that takes no time."""
        done = threading.Event()
        other = threading.Timer(0.1, done.set)

        def wait() -> bool:
            other.start()
            return done.wait()

        self.assertTrue(self.takes(0, wait))
        other.join()

    def test_threads_outside(self) -> None:
        """They have real time."""
        inside, outside = threading.Event(), threading.Event()

        def body() -> None:
            inside.set()
            outside.wait()

        def wait() -> None:
            inside.wait()
            began = time.monotonic(), time.time_ns()
            time.sleep(0.05)
            threading.Event().wait(0.05)
            asyncio.run(asyncio.sleep(0.05))
            self.assertGreaterEqual(time.monotonic() - began[0], 0.15)
            self.assertGreaterEqual(time.time_ns() - began[1], 0.14e9)
            outside.set()

        thread = threading.Thread(target=wait)
        thread.start()
        self.takes(0, body)
        thread.join()

    def test_each_run_is_the_same(self) -> None:
        """A loop up to a deadline takes the same time, whatever the machine's clock is at its start."""
        found = set()
        for start in range(70001234567891, 130001234567891, 3001234567891):
            with mock.patch("time.monotonic_ns", return_value=start), self.meter.keeping_time():
                began, end = self.meter.clock, time.monotonic() + 0.02
                self.assertLess(time.monotonic() - start / 1e9, 0.002)
                while time.monotonic() < end:
                    time.sleep(0.001)
            found.add(self.meter.clock - began)
        self.assertEqual(found, {20})


class Loops(WithMeter):
    """Loops of asyncio."""

    def test_sleeps(self) -> None:
        async def body() -> list[int]:
            found: list[int] = []

            async def sleep(milliseconds: int) -> None:
                await asyncio.sleep(milliseconds / 1000)
                found.append(self.meter.clock)

            await asyncio.gather(*(sleep(one) for one in (3000, 1000, 2000)))
            return found

        self.assertEqual(self.takes(3000, lambda: asyncio.run(body())), [1000, 2000, 3000])

    def test_a_timeout(self) -> None:
        async def body() -> None:
            with self.assertRaises(asyncio.TimeoutError):
                await asyncio.wait_for(asyncio.Event().wait(), 1.5)

        self.takes(1500, lambda: asyncio.run(body()))

    def test_a_service_request(self) -> None:
        async def body(timeout: float | None) -> None:
            event = asyncio.Event()
            self.connection.on_service_request(lambda _: event.set())
            await asyncio.wait_for(event.wait(), timeout)

        self.connection.listen()
        for timeout in (10, None):
            self.link.write("*CLS;:INIT")
            self.takes(3, lambda: asyncio.run(body(timeout)))
            self.link.readstb()

    def test_a_loop_that_wraps_its_selector(self) -> None:
        """As some do that serve a window's events, too."""

        class Wrapper:
            def __init__(self) -> None:
                self.inner = selectors.DefaultSelector()

            def __getattr__(self, name: str) -> object:
                return getattr(self.inner, name)

        def body() -> None:
            loop = asyncio.SelectorEventLoop(cast(selectors.BaseSelector, Wrapper()))
            try:
                loop.run_until_complete(asyncio.sleep(2))
            finally:
                loop.close()

        self.takes(2000, body)

    def test_ctrl_c(self) -> None:
        """It ends a long wait soon, though asyncio.run lets it raise nothing meanwhile. A second one raises."""
        second = threading.Timer(9, signal.pthread_kill, (threading.get_ident(), signal.SIGINT))
        self.addCleanup(second.join)
        self.addCleanup(second.cancel)
        second.start()
        with ctrl_c(), self.assertRaises(KeyboardInterrupt), self.meter.keeping_time():
            asyncio.run(asyncio.sleep(10**6))
        self.assertFalse(second.finished.is_set())

    def test_a_block_within_a_coroutine(self) -> None:
        async def body() -> int:
            with self.meter.keeping_time():
                await asyncio.sleep(9)
                return self.meter.clock

        self.assertEqual(asyncio.run(body()), 9000)

    def test_what_never_ends(self) -> None:
        async def spin() -> None:
            while True:
                await asyncio.sleep(0)

        async def wait() -> None:
            await asyncio.Event().wait()

        self.assertRaises(NeverEnds, self.within, lambda: asyncio.run(wait()))
        self.assertRaises(NeverEnds, self.within, lambda: asyncio.run(spin()))

    def test_an_executor(self) -> None:
        """Its threads have real time."""

        async def body() -> object:
            return await asyncio.get_running_loop().run_in_executor(
                None, threading.Event().wait, 0.1
            )

        self.assertIs(self.takes(0, lambda: asyncio.run(body())), False)

    def test_the_end_of_an_executor(self) -> None:
        """A loop waits for its threads in real time: asyncio.run does so at its end, with a timeout."""

        async def body() -> bool:
            loop = asyncio.get_running_loop()
            loop.run_in_executor(None, time.sleep, 0.3)
            end = loop.create_task(loop.shutdown_default_executor())
            return end in (await asyncio.wait({end}, timeout=10))[0]

        self.assertTrue(self.takes(0, lambda: asyncio.run(body())))


class NoHang(WithMeter):
    """What the meter's time can't end raises an error that says what helps."""

    def test_a_clock(self) -> None:
        for clock in CLOCKS:

            def loop() -> None:
                end = clock() + 1
                while clock() < end:
                    pass

            told = "read 10000 times at 0 ms .*time passes only in calls that wait.*time.sleep.*call_time=1"
            with self.subTest(clock), self.assertRaisesRegex(NeverEnds, told):
                self.within(loop)

    def test_polls_without_time(self) -> None:
        def poll() -> None:
            end = time.monotonic() + 1
            while time.monotonic() < end:
                self.link.readstb()

        with mock.patch.object(keeping_time, "POLLS_MOST", 300), mock.patch.object(
            keeping_time, "READS_MOST", 30
        ):
            self.assertRaisesRegex(NeverEnds, "read 300 times.*call_time=1", self.within, poll)

    def test_polls_that_take_time(self) -> None:
        """A call_time lets them end: each poll takes 2 ms, as does each call."""
        meter, _, link = self.made(2)

        def poll() -> int:
            polls, end = 0, time.monotonic() + 0.1
            while time.monotonic() < end:
                link.readstb()
                polls += 1
            return polls

        self.assertEqual((self.within(poll, meter), meter.clock), (50, 100))
        self.assertEqual(
            (link.query("READ?"), meter.clock), ("+0.000000,+0.000000,+7.000000", 100 + 2 + 1 + 2)
        )
        meter.call_time = 0
        self.assertEqual((link.readstb(), meter.clock), (72, 105))

    def test_reads_between_calls(self) -> None:
        """Calls in between show that it isn't a loop that only waits."""

        def body() -> None:
            for _ in range(100):
                time.monotonic()
                self.link.readstb()

        with mock.patch.object(keeping_time, "READS_MOST", 30):
            self.within(body)

    def test_time_goes_on_after_it(self) -> None:
        def body() -> None:
            with self.assertRaises(NeverEnds):
                while True:
                    time.sleep(0)
            with self.assertRaises(NeverEnds):
                while not threading.Event().wait(0):
                    pass
            time.sleep(1)

        self.takes(1000, body)

    def test_waits_without_a_timeout(self) -> None:
        """Where no interrupt channel is, they raise at once; else after the meter's patience."""
        waits: tuple[Callable[[], object], ...] = (
            lambda: threading.Event().wait(),
            lambda: queue.Queue[int]().get(),
            lambda: threading.Semaphore(0).acquire(),
            lambda: threading.Event().wait(threading.TIMEOUT_MAX),
        )
        for wait in waits:
            with self.subTest(wait), self.assertRaisesRegex(
                NeverEnds, "at 0 ms.*Give it a timeout"
            ):
                self.within(wait)
        self.connection.listen(print)
        self.meter.patience = 5000
        self.assertRaises(NeverEnds, self.within, waits[0])
        self.assertEqual(self.meter.clock, 5000)


class Unknown(WithMeter):
    """A Python whose modules lack what the block uses: it raises, and changes nothing."""

    def test_modules(self) -> None:
        for where, name in (
            (threading, "_time"),
            (queue, "time"),
            (threading.Condition, "_is_owned"),
        ):
            with self.subTest(name), mock.patch.object(where, name):
                delattr(where, name)
                with self.assertRaisesRegex(RuntimeError, f"no {name}"), self.meter.keeping_time():
                    pass
                told = f"Python {sys.version_info.major}.{sys.version_info.minor}: "
                with self.assertRaisesRegex(RuntimeError, told), self.meter.keeping_time():
                    pass


class PutBack(WithMeter):
    """`tearDown` checks that all functions are the real ones again."""

    def test_an_exception(self) -> None:
        with self.assertRaises(LookupError), self.meter.keeping_time():
            self.assertNotEqual(functions(), self.before)
            raise LookupError

    def test_nested(self) -> None:
        other = self.made()[0]
        with self.meter.keeping_time():
            began = time.monotonic()
            with self.assertRaises(
                LookupError
            ), other.keeping_time(), self.meter.keeping_time(), other.keeping_time():
                time.sleep(5)
                raise LookupError
            self.assertEqual((self.meter.clock, other.clock), (0, 5000))
            time.sleep(1)
            self.assertAlmostEqual(time.monotonic() - began, 1)
        self.assertEqual((self.meter.clock, other.clock), (1000, 5000))

    def test_threads_whose_blocks_overlap(self) -> None:
        """The block that began first ends first: the other goes on."""
        other = self.made()[0]
        began, ended = threading.Event(), threading.Event()

        def second() -> None:
            with other.keeping_time():
                began.set()
                ended.wait()
                time.sleep(9)

        thread = threading.Thread(target=second)
        with self.meter.keeping_time():
            thread.start()
            began.wait()
        ended.set()
        thread.join()
        self.assertEqual((self.meter.clock, other.clock), (0, 9000))


if __name__ == "__main__":
    unittest.main()
