"""Controllers in every order of their calls: faults that only some orders show are found, told and repeated."""

from __future__ import annotations

import threading
import time
import unittest

from scanvolt.virtual import Meter, NoAnswer, NotInStep, OrderFails

from .limits import within

LONG = 2**32 - 1


def locks(meter: Meter) -> None:
    """A driver that locks the instrument for a query."""
    with meter.connect() as connection:
        link = connection.create_link(lock_timeout=5000)
        link.lock()
        assert link.query("CALC:LIM:UPP?") == "+5.000000"
        link.unlock()


def forgets(meter: Meter) -> None:
    """One that doesn't. Its query and its read are two calls, between which another session may come."""
    with meter.connect() as connection:
        link = connection.create_link(lock_timeout=5000)
        answer = link.query("CALC:LIM:LOW?")
        assert answer == "-5.000000", "read another session's response: " + answer


def polls(meter: Meter) -> None:
    with meter.connect() as connection:
        connection.create_link().readstb()


class Orders(unittest.TestCase):
    """A meter with two limits."""

    def setUp(self) -> None:
        self.meter = Meter()
        self.addCleanup(self.meter.close)
        with self.meter.connect() as connection, connection.create_link() as link:
            link.write("CALC:LIM:UPP 5;LOW -5")

    def test_how_many(self) -> None:
        """Two controllers with four turns each, to connect, two calls and to close: 8! / (4! 4!)."""
        self.assertEqual(self.meter.interleavings(polls, polls), 70)

    def test_those_that_lock_never_fail(self) -> None:
        self.assertGreater(self.meter.interleavings(locks, locks, count=15), 1)

    def test_another_sessions_response(self) -> None:
        """Neither has the lock: one reads what the other one asked for."""

        def other(meter: Meter) -> None:
            with meter.connect() as connection:
                connection.create_link().write("CALC:LIM:UPP?")

        with self.assertRaisesRegex(
            OrderFails, "AssertionError: read another session's response: [+]5.000000"
        ):
            self.meter.interleavings(forgets, other)

    def test_the_planted_fault(self) -> None:
        """Of two sessions one has no lock. The order is told, is short, and repeats the fault; the one before it is well."""
        began = time.monotonic()
        with self.assertRaises(OrderFails) as caught:
            self.meter.interleavings(locks, forgets)
        self.assertLess(time.monotonic() - began, within(60))
        failed = caught.exception
        self.assertRegex(
            str(failed), f"^in the order '{failed.order}' of their calls, the .* that was tried: "
        )
        self.assertIn("What the instrument saw:\n", str(failed))
        self.assertLess(len(failed.order), 12)
        with self.assertRaises(OrderFails) as again:
            self.meter.interleavings(locks, forgets, order=failed.order)
        self.assertEqual(
            (again.exception.order, str(again.exception.fault)), (failed.order, str(failed.fault))
        )
        self.assertEqual(self.meter.interleavings(locks, forgets, order="B" * 5), 1)

    def test_by_seed(self) -> None:
        found: list[str] = []
        for _ in range(2):
            with self.assertRaises(OrderFails) as caught:
                self.meter.interleavings(locks, forgets, count=200, seed=7)
            found.append(f"{caught.exception.tried} {caught.exception.order}")
        self.assertEqual(found[0], found[1])

    def test_a_deadlock_in_some_orders(self) -> None:
        """Each takes the lock and keeps it."""

        def keeps(meter: Meter) -> None:
            meter.connect().create_link(lock=True, lock_timeout=LONG)
            meter.advance(1)

        with self.assertRaises(OrderFails) as caught:
            self.meter.interleavings(keeps, keeps)
        self.assertIsInstance(caught.exception.fault, NoAnswer)
        self.assertRegex(
            str(caught.exception),
            "^in the order '' of their calls, each as far as it can go, A first, the 1st that ",
        )

    def test_a_controller_that_waits_elsewhere(self) -> None:
        """It is told, and nothing hangs."""
        outside = threading.Lock()

        def waits(meter: Meter) -> None:
            polls(meter)
            with outside:
                pass

        with outside, self.assertRaises(OrderFails) as caught:
            self.meter.interleavings(waits, polls)
        self.assertIsInstance(caught.exception.fault, NotInStep)
        self.assertRegex(
            str(caught.exception.fault),
            r"thread A waits outside of the meter, at test_interleavings.py:\d+ in waits",
        )

    def test_the_meter_itself_is_left_alone(self) -> None:
        before = list(self.meter._replay.script())
        self.meter.interleavings(polls, polls, order="AB")
        self.assertEqual((list(self.meter._replay.script()), self.meter.connections), (before, {}))

    def test_what_cannot_be(self) -> None:
        self.assertRaisesRegex(
            ValueError, "2 to 16 controllers, and not 1", self.meter.interleavings, polls
        )
        self.assertRaisesRegex(
            ValueError,
            "from A to B, and not 'C'",
            self.meter.interleavings,
            polls,
            polls,
            order="AC",
        )
        with self.assertRaises(OrderFails) as caught:
            self.meter.interleavings(polls, polls, order="AAAAAAAA")
        self.assertRegex(
            str(caught.exception.fault), "A can't go on at turn 5 of this order, only B"
        )


if __name__ == "__main__":
    unittest.main()
