"""Threads in lock step: what waits is granted by another thread, each run is the same, and nothing hangs."""

from __future__ import annotations

import concurrent.futures
import contextlib
import io
import threading
import time
import unittest
from collections.abc import Callable
from unittest import mock

from scanvolt.lockstep import NotInStep
from scanvolt.virtual import Meter, NoAnswer
from scanvolt.vxi11 import DeviceError, Link, ServiceRequest

from .limits import within

LONG = 2**32 - 1
Told = list[tuple[str, object, int]]


def run(meter: Meter, *controllers: Callable[[], object], seed: int | None = None) -> None:
    """Runs each in a thread, in lock step."""
    threads = [threading.Thread(target=one, name=one.__name__) for one in controllers]
    with meter.threads(len(threads), seed):
        for thread in threads:
            thread.start()
        for thread in threads:
            thread.join(30)


class Case(unittest.TestCase):
    """A meter."""

    def setUp(self) -> None:
        self.meter = Meter()
        self.addCleanup(self.meter.close)
        self.told: Told = []

    def link(self, lock_timeout: int = 5000, io_timeout: int = 5000) -> Link:
        return self.meter.connect().create_link(lock_timeout=lock_timeout, io_timeout=io_timeout)

    def tell(self, who: str, what: object) -> None:
        self.told.append((who, what, self.meter.clock))


class Waits(Case):
    """What one thread waits for, and another one does."""

    def test_a_lock_that_waits_and_is_granted(self) -> None:
        def first() -> None:
            link = self.link()
            link.lock()
            self.tell("first", link.query("CONF:VOLT (@1:5);:READ?").count(","))
            link.unlock()

        def second() -> None:
            link = self.link()
            link.lock()
            self.tell("second", "locked")
            link.unlock()

        run(self.meter, first, second)
        self.assertEqual(self.told, [("first", 4, 5), ("second", "locked", 5)])

    def test_time_passes_only_while_all_wait(self) -> None:
        """A thread that sleeps 30 ms of the meter sees what another one did after 10 ms, and not later."""

        def waits() -> None:
            link = self.link()
            link.write("TRIG:SOUR EXT;:INIT;*OPC?")
            self.tell("waits", link.read())

        def acts() -> None:
            self.meter.advance(10)
            self.tell("acts", "triggers")
            self.meter.external()
            self.meter.advance(20)
            self.tell("acts", "ends")

        run(self.meter, waits, acts)
        self.assertEqual(
            self.told, [("acts", "triggers", 10), ("waits", b"1\n", 11), ("acts", "ends", 30)]
        )

    def test_a_service_request(self) -> None:
        def waits() -> None:
            connection = self.meter.connect()
            requests = connection.listen()
            connection.create_link().enable_srq(b"waits")
            self.tell("waits", requests.wait(5000).handle)

        def causes() -> None:
            link = self.link()
            self.meter.advance(7)
            link.write("*SRE 4;UNKNOWN")

        run(self.meter, waits, causes)
        self.assertEqual(self.told, [("waits", b"waits", 7)])

    def test_turns(self) -> None:
        """Each makes one call, in the order in which they were started."""

        def controller(name: str) -> Callable[[], None]:
            def control() -> None:
                link = self.link()
                for _ in range(3):
                    link.readstb()
                    self.tell(name, "polls")

            return control

        run(self.meter, *map(controller, "abc"))
        self.assertEqual("".join(name for name, _, _ in self.told), "abcabcabc")

    def test_the_thread_of_the_block(self) -> None:
        """It takes part if it uses the meter and a thread fewer was started; it may join the others."""

        def other() -> None:
            link = self.link()
            link.lock()
            self.meter.advance(20)
            link.destroy()

        with self.meter.threads(2):
            thread = threading.Thread(target=other)
            thread.start()
            link = self.link()
            self.meter.advance(1)
            link.lock()
            thread.join()
            self.assertEqual(self.meter.clock, 20)

    def test_events_between_the_threads(self) -> None:
        """A thread that waits for another one, and not in the meter, hinders nobody."""
        is_ready = threading.Event()

        def waits() -> None:
            is_ready.wait()
            self.tell("waits", self.link().query("*OPC?"))

        def sets() -> None:
            self.link().query("CONF:VOLT (@1:9);:READ?")
            is_ready.set()
            self.meter.advance(1)
            self.tell("sets", "ends")

        run(self.meter, waits, sets)
        self.assertEqual(self.told, [("waits", "1", 9), ("sets", "ends", 10)])

    def test_an_executor(self) -> None:
        with self.meter.threads(2), concurrent.futures.ThreadPoolExecutor(2) as executor:
            found = [executor.submit(lambda: self.link().readstb()) for _ in range(2)]
            self.assertEqual([one.result() for one in found], [0, 0])

    def test_an_executor_in_keeping_time(self) -> None:
        """The thread of the block takes no part, and waits in real time for those that do."""
        with self.meter.keeping_time(), self.meter.threads(
            2
        ), concurrent.futures.ThreadPoolExecutor(2) as executor:
            found = [executor.submit(lambda: self.meter.advance(30)) for _ in range(2)]
            self.assertEqual([one.result() for one in found], [None, None])
        self.assertEqual(self.meter.clock, 30)

    def test_keeping_time(self) -> None:
        """Python's sleep is the meter's, so both threads sleep at the same time."""

        def sleeps() -> None:
            with self.meter.keeping_time():
                time.sleep(2)
                self.tell("sleeps", "woke")

        run(self.meter, sleeps, sleeps)
        self.assertEqual(self.told, [("sleeps", "woke", 2000)] * 2)


class Alike(Case):
    """The order of replies."""

    def contest(self, seed: int | None = None) -> Told:
        """Two threads that both want the lock twice. Returns who had it when, in order."""
        self.told, start = [], self.meter.clock

        def controller(name: str) -> Callable[[], None]:
            def control() -> None:
                with self.meter.connect() as connection:
                    link = connection.create_link(lock_timeout=100)
                    for number in range(2):
                        link.lock()
                        self.told.append((name, number, self.meter.clock - start))
                        link.unlock()

            return control

        run(self.meter, controller("a"), controller("b"), seed=seed)
        return self.told

    def test_a_thousand_runs(self) -> None:
        first = self.contest()
        self.assertEqual({name for name, _, _ in first}, {"a", "b"})
        for _ in range(999):
            self.assertEqual(self.contest(), first)

    def test_seeds(self) -> None:
        """A seed gives the same order each time, and seeds give several orders."""
        orders = [self.contest(seed) for seed in range(8)]
        self.assertEqual([self.contest(seed) for seed in range(8)], orders)
        self.assertGreater(len({tuple(one) for one in orders}), 1)


class Ends(Case):
    """Threads that raise, end, or wait where nobody can help: that is told, and nothing hangs."""

    def test_what_a_thread_raises(self) -> None:
        def fails() -> None:
            raise ValueError("on purpose")

        def goes_on() -> None:
            self.tell("goes on", self.link().query("*OPC?"))

        with self.assertRaisesRegex(ValueError, "on purpose"):
            run(self.meter, fails, goes_on)
        self.assertEqual(self.told, [("goes on", "1", 0)])

    def test_a_deadlock(self) -> None:
        """Two threads that each have the lock of one instrument, and wait for that of the other. That is told within a second."""
        self.assertLess(min(self.deadlock() for _ in range(3)), within(1))

    def deadlock(self) -> float:
        """A deadlock on purpose. Returns after how many seconds it is told."""
        with Meter() as meter, Meter() as other:

            def control(first: Meter, second: Meter) -> None:
                with first.connect() as one, second.connect() as two:
                    one.create_link(lock=True)
                    here.wait(10)
                    two.create_link(lock=True, lock_timeout=LONG)

            here = threading.Barrier(2)
            threads = [
                threading.Thread(target=control, args=pair)
                for pair in ((meter, other), (other, meter))
            ]
            began = time.monotonic()
            with self.assertRaisesRegex(
                NoAnswer,
                "no thread can go on:\nthread .*can't be answered(.|\n)*has held the lock(.|\n)*"
                r"thread .* waits in another meter, at test_lockstep.py:\d+ in control",
            ):
                with meter.threads(2), other.threads(2):
                    for thread in threads:
                        thread.start()
                    for thread in threads:
                        thread.join(20)
            return time.monotonic() - began

    def test_one_waits_for_what_the_other_never_does(self) -> None:
        def holds() -> None:
            self.link().lock()

        def waits() -> None:
            self.link(LONG).lock()

        with self.assertRaisesRegex(NoAnswer, "thread waits: device_lock .*can't be answered"):
            run(self.meter, holds, waits)

    def test_a_wait_after_one_that_nothing_ends(self) -> None:
        """A call that can't be answered still waits on its connection; another wait of its thread has an end of its own."""

        def holds() -> None:
            self.link().lock()

        def waits() -> None:
            self.assertRaises(NoAnswer, self.link(LONG).lock)
            self.meter.advance(50)
            self.tell("waits", "ends")

        run(self.meter, holds, waits)
        self.assertEqual(self.told, [("waits", "ends", 50)])

    def test_a_lock_that_times_out(self) -> None:
        def holds() -> None:
            self.link().lock()

        def waits() -> None:
            self.link(30).lock()

        with self.assertRaisesRegex(DeviceError, "locked by another link .11., after 30 ms"):
            run(self.meter, holds, waits)

    def test_a_thread_that_sleeps_outside(self) -> None:
        outside = threading.Lock()

        def sleeps() -> None:
            self.link()
            with outside:
                pass

        def waits() -> None:
            self.link().readstb()
            self.link().readstb()

        with outside, self.assertRaisesRegex(
            NotInStep,
            r"thread sleeps waits outside of the meter, at test_lockstep.py:\d+ in "
            "sleeps, for 0.5 s, and the others can't go on",
        ):
            threads = [threading.Thread(target=one, name=one.__name__) for one in (sleeps, waits)]
            with self.meter.threads(2):
                for thread in threads:
                    thread.start()
                for thread in threads:
                    thread.join()
        threads[0].join()

    def test_threads_that_wait_for_each_other_outside(self) -> None:
        """Python's locks, crosswise: none of them looks where the other one is, but the thread that joins them does."""
        one, other, both = threading.Lock(), threading.Lock(), threading.Barrier(2)

        def crosses(first: threading.Lock, second: threading.Lock) -> None:
            self.link()
            with first:
                both.wait(10)
                if second.acquire(timeout=3):
                    second.release()

        threads = [
            threading.Thread(target=crosses, args=pair) for pair in ((one, other), (other, one))
        ]
        with mock.patch("scanvolt.lockstep.STUCK", 0.5):
            with self.assertRaisesRegex(
                NotInStep,
                "^no thread goes on: thread .* waits outside of the meter, .*; thread .* waits",
            ):
                with self.meter.threads(2):
                    for thread in threads:
                        thread.start()
                    for thread in threads:
                        thread.join()
        for thread in threads:
            thread.join()

    def test_a_thread_that_is_left_alone(self) -> None:
        """It waits for what no other thread is there to do. A thread that waits with a timeout, or computes, is left to that."""
        never = threading.Event()

        def waits() -> None:
            self.link()
            never.wait(None if is_endless else 1.5)

        def ends() -> None:
            self.link()

        for is_endless in False, True:
            threads = [threading.Thread(target=one, name=one.__name__) for one in (waits, ends)]
            with mock.patch("scanvolt.lockstep.STUCK", 0.5), contextlib.ExitStack() as stack:
                if is_endless:
                    stack.enter_context(
                        self.assertRaisesRegex(
                            NotInStep,
                            "^no thread goes on: thread waits waits outside of the "
                            r"meter, at test_lockstep.py:\d+ in waits,$",
                        )
                    )
                with self.meter.threads(2):
                    for thread in threads:
                        thread.start()
                    for thread in threads:
                        thread.join()
        never.set()

    def test_two_that_raise(self) -> None:
        """The block raises what came first; the rest is shown as Python does, with the thread's name."""

        def one() -> None:
            self.link()
            raise ValueError("the first")

        def other() -> None:
            self.link()
            self.meter.advance(1)
            raise KeyError("the second")

        with contextlib.redirect_stderr(io.StringIO()) as told, self.assertRaisesRegex(
            ValueError, "the first"
        ):
            run(self.meter, one, other)
        self.assertRegex(told.getvalue(), "Exception in thread other:(.|\n)*KeyError: 'the second'")

    def test_a_program_that_takes_long(self) -> None:
        """A thread that waits for the program is in the meter, and isn't told to sleep elsewhere."""
        real = self.meter._replay.do

        def slow(lines: bytes) -> bytes:
            time.sleep(0.7)
            return real(lines)

        def polls() -> None:
            self.link().readstb()

        with mock.patch.object(self.meter._replay, "do", slow):
            run(self.meter, polls, polls)

    def test_a_callback_that_waits(self) -> None:
        """It is called while its thread waits, and waits itself; then the thread goes on waiting, until its own time."""

        def came(request: ServiceRequest) -> None:
            self.meter.advance(5)
            self.tell("callback", request.clock)

        def waits() -> None:
            connection = self.meter.connect()
            link = connection.create_link()
            connection.listen(came)
            link.enable_srq(b"")
            link.write("*SRE 16;:CONF:VOLT (@1:10);:INIT;*OPC?")
            self.meter.advance(30)
            self.tell("waits", "ends")

        run(self.meter, waits)
        self.assertEqual(self.told, [("callback", 10, 15), ("waits", "ends", 30)])

    def test_one_too_many(self) -> None:
        def polls() -> None:
            self.link().readstb()

        with self.assertRaisesRegex(
            NotInStep, r"threads\(2\): thread polls uses the meter, but polls and polls take part"
        ):
            with self.meter.threads(2):
                threads = [threading.Thread(target=polls, name="polls") for _ in range(3)]
                for thread in threads:
                    thread.start()
                for thread in threads:
                    thread.join()

    def test_one_that_never_comes(self) -> None:
        with self.assertRaisesRegex(NotInStep, r"threads\(2\): only alone came to the meter"):
            with self.meter.threads(2):
                thread = threading.Thread(target=self.link, name="alone")
                thread.start()
                thread.join()

    def test_one_that_still_runs(self) -> None:
        is_ready, stop = threading.Event(), threading.Event()

        def runs() -> None:
            self.link()
            is_ready.set()
            stop.wait()

        thread = threading.Thread(target=runs, name="runs")
        with self.assertRaisesRegex(
            NotInStep,
            "still run at the end of the block, join them there: thread runs waits outside",
        ):
            with self.meter.threads(1):
                thread.start()
                is_ready.wait(20)
        stop.set()
        thread.join()
        self.assertEqual(self.link().readstb(), 0)

    def test_a_block_within_a_block(self) -> None:
        with self.meter.threads(1), self.assertRaisesRegex(
            RuntimeError, "in a block of `threads` already"
        ):
            with self.meter.threads(1):
                pass

    def test_what_cannot_be_a_number(self) -> None:
        self.assertRaisesRegex(
            ValueError, "threads wants a number of threads", self.meter.threads, 0
        )


if __name__ == "__main__":
    unittest.main()
