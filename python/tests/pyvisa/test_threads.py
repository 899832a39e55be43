"""PyVISA in threads that go in lock step: what waits in one thread is ended by another."""

from __future__ import annotations

import contextlib
import threading
import unittest
from collections.abc import Callable
from typing import Any

import pyvisa
from pyvisa.constants import EventMechanism, EventType
from pyvisa_scanvolt import meter_of, resource_of
from scanvolt.virtual import Meter, OrderFails


class Threads(unittest.TestCase):
    """Two sessions to one instrument, each in a thread."""

    def setUp(self) -> None:
        manager = pyvisa.ResourceManager("@scanvolt")
        self.addCleanup(manager.close)
        self.one, self.other = (
            manager.open_resource("TCPIP::scanvolt::INSTR", read_termination="\n", timeout=5000)
            for _ in range(2)
        )
        self.meter = meter_of(self.one)
        self.told: list[Any] = []

    def run_both(self, *controllers: Callable[[], None]) -> None:
        threads = [threading.Thread(target=one) for one in controllers]
        with self.meter.threads(2):
            for thread in threads:
                thread.start()
            for thread in threads:
                thread.join(30)

    def test_lock_excl(self) -> None:
        one: Any = self.one
        other: Any = self.other

        def has_it() -> None:
            one.lock_excl()
            one.write("CONF:VOLT (@1:20);:READ?")
            self.told.append(one.read().count(","))
            one.unlock()

        def waits() -> None:
            with contextlib.closing(other):
                other.lock_excl(timeout=3000)
                self.told.append(self.meter.clock)

        self.run_both(has_it, waits)
        self.assertEqual(self.told, [19, 20])

    def test_wait_on_event(self) -> None:
        one: Any = self.one
        other: Any = self.other

        def waits() -> None:
            one.enable_event(EventType.service_request, EventMechanism.queue)
            one.wait_on_event(EventType.service_request, 5000)
            self.told.append((self.meter.clock, one.read_stb()))

        def causes() -> None:
            other.write("*SRE 4")
            self.meter.advance(40)
            other.write("UNKNOWN")

        self.run_both(waits, causes)
        self.assertEqual(self.told, [(40, 68)])


class Orders(unittest.TestCase):
    """Drivers over PyVISA in every order of their calls."""

    def setUp(self) -> None:
        self.meter = Meter()
        self.addCleanup(self.meter.close)
        self.addCleanup(pyvisa.ResourceManager("@scanvolt").close)

    @staticmethod
    def locks(meter: Meter) -> None:
        """A controller that locks the instrument for its query."""
        with resource_of(meter, read_termination="\n", timeout=5000) as one:
            one.lock_excl()
            one.query("*IDN?")
            one.unlock()

    @staticmethod
    def forgets(meter: Meter) -> None:
        """One that doesn't."""
        with resource_of(meter, read_termination="\n", timeout=5000) as one:
            assert one.query("SYST:VERS?") == "1999.0"

    def test_a_query_without_a_lock(self) -> None:
        with self.assertRaises(OrderFails) as caught:
            self.meter.interleavings(self.locks, self.forgets)
        with self.assertRaisesRegex(OrderFails, "repeats it"):
            self.meter.interleavings(self.locks, self.forgets, order=caught.exception.order)
        self.assertEqual(self.meter.interleavings(self.locks, self.locks, count=10), 10)
        library: Any = pyvisa.ResourceManager("@scanvolt").visalib
        self.assertLess(len(library._meters), 3)

    def test_the_meter_of_a_resource(self) -> None:
        with resource_of(self.meter) as one, resource_of(self.meter) as other:
            self.assertIs(meter_of(one), self.meter)
            self.assertIs(meter_of(other), self.meter)
            pyvisa.ResourceManager("@scanvolt").close()
        self.assertTrue(self.meter.is_open)
        self.assertEqual(self.meter.connections, {})


if __name__ == "__main__":
    unittest.main()
