"""The same instrument twice: a fork goes on from the same moment, and neither touches the other."""

from __future__ import annotations

import pathlib
import tempfile
import unittest

from scanvolt.virtual import Meter
from scanvolt.vxi11 import DeviceError, ServiceRequest


class Fork(unittest.TestCase):
    """A meter whose read waits for a trigger."""

    def setUp(self) -> None:
        self.meter = Meter()
        self.addCleanup(self.meter.close)
        self.connection = self.meter.connect()
        self.link = self.connection.create_link()

    def test_both_ways(self) -> None:
        """A read that waits: here the trigger comes, there a clear."""
        self.meter.set_input(1, 2.5)
        self.link.write("TRIG:SOUR EXT;:INIT;*OPC?")
        pending = self.connection.start(self.link.calls.read())
        self.meter.advance(20)
        with self.meter.fork() as twin:
            self.assertEqual(twin.clock, 20)
            there = twin.twin_of(pending)
            self.meter.external()
            self.assertEqual((pending.result().data, pending.clock), (b"1\n", 21))
            self.assertFalse(there.done)
            twin.connect().create_link().clear()
            with self.assertRaises(DeviceError) as caught:
                there.result()
            self.assertEqual((caught.exception.number, caught.exception.clock), (15, 20))
        self.assertEqual(self.link.query("FETC?"), "+2.500000")

    def test_links_and_settings(self) -> None:
        self.link.lock()
        self.link.write("CALC:LIM:UPP 5")
        with self.meter.fork() as twin:
            link = twin.twin_of(self.link)
            link.write("CALC:LIM:UPP 7")
            self.assertEqual(
                (link.query("CALC:LIM:UPP?"), self.link.query("CALC:LIM:UPP?")),
                ("+7.000000", "+5.000000"),
            )
            self.assertRaises(DeviceError, twin.connect().create_link().readstb)
            link.unlock()
        self.assertRaises(DeviceError, self.meter.connect().create_link().readstb)

    def test_a_fork_of_a_fork_is_the_same(self) -> None:
        """Both answer the same to the same calls, byte by byte, and their sessions are told alike."""
        self.link.write("CONF:VOLT (@1:3);:INIT;:UNKNOWN")
        self.meter.advance(2)
        with self.meter.fork() as twin, twin.fork() as third:
            link = third.twin_of(twin.twin_of(self.link))
            for one in self.link, link:
                one.write("*OPC?")
            self.assertEqual(
                (link.query("FETC?;:SYST:ERR?"), third.clock),
                (self.link.query("FETC?;:SYST:ERR?"), self.meter.clock),
            )
            self.assertEqual(third.explain().text(), self.meter.explain().text())
            self.assertEqual(third._replay.script(), self.meter._replay.script())

    def test_options(self) -> None:
        with Meter(patience=700, call_time=2) as meter, meter.fork() as twin:
            self.assertEqual((twin.patience, twin.call_time), (700, 2))

    def test_the_scenario_goes_on(self) -> None:
        with tempfile.TemporaryDirectory() as folder:
            path = pathlib.Path(folder, "scenario")
            path.write_text("5 input 1 1000000\n10 input 1 2000000\n")
            with Meter(scenario=path) as meter:
                meter.advance(6)
                with meter.fork() as twin:
                    twin.advance(6)
                    link = twin.connect().create_link()
                    self.assertEqual((link.query("MEAS:VOLT? (@1)"), meter.clock), ("+2.000000", 6))

    def test_service_requests(self) -> None:
        """Those of the fork go into its own queue, also if the first has a callback."""
        found: list[ServiceRequest] = []
        self.connection.listen(found.append)
        self.link.enable_srq(b"meter 1")
        self.link.write("*SRE 4")
        with self.meter.fork() as twin:
            twin.twin_of(self.link).write("UNKNOWN")
            self.assertEqual(twin.twin_of(self.connection).requests.wait(10).handle, b"meter 1")
        self.assertEqual(found, [])

    def test_service_requests_that_came_and_that_come(self) -> None:
        """One that wasn't taken is in the queue of the fork too; one that comes there comes at its millisecond."""
        requests = self.connection.listen()
        self.link.enable_srq(b"meter 1")
        self.link.write("*SRE 20;UNKNOWN")
        with self.meter.fork() as twin:
            there = twin.twin_of(self.connection).requests
            self.assertEqual([one.wait(0).xid for one in (requests, there)], [1, 1])
            link = twin.twin_of(self.link)
            link.write("*CLS;:CONF:VOLT (@1:9);:INIT;*OPC?")
            self.assertEqual((there.wait(100).clock, self.meter.clock), (9, 0))

    def test_faults_on_order(self) -> None:
        self.meter.faults.delay(30)
        pending = self.connection.start(self.link.calls.readstb())
        self.meter.faults.next("device_clear", connection=self.connection)
        with self.meter.fork() as twin:
            self.assertEqual(
                (twin.twin_of(pending).result(), twin.clock, self.meter.clock), (0, 30, 0)
            )
            self.assertRaises(DeviceError, twin.twin_of(self.link).clear)
        self.assertRaises(DeviceError, self.link.clear)

    def test_what_has_no_twin(self) -> None:
        with self.meter.fork() as twin:
            self.assertRaisesRegex(
                ValueError,
                "wasn't open, or didn't wait, at the fork",
                twin.twin_of,
                self.meter.connect(),
            )
            self.assertRaisesRegex(ValueError, "at the fork", self.meter.twin_of, self.link)

    def test_a_closed_meter(self) -> None:
        self.meter.close()
        with self.meter.fork() as twin:  # its history is still known
            self.assertEqual((twin.clock, twin.connections), (0, {}))


if __name__ == "__main__":
    unittest.main()
