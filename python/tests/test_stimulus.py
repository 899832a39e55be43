"""Scenarios in virtual time, as docs/INSTRUMENT.md describes them."""

from __future__ import annotations

import pathlib
import tempfile
import unittest

from scanvolt.stimulus import Entry, read_scenario
from scanvolt.virtual import Meter
from scanvolt.vxi11 import calls


class Scenarios(unittest.TestCase):
    """Files of voltages and triggers."""

    def setUp(self) -> None:
        folder = tempfile.TemporaryDirectory()
        self.addCleanup(folder.cleanup)
        self.path = pathlib.Path(folder.name, "scenario")

    def meter(self, text: str) -> Meter:
        self.path.write_text(text)
        meter = Meter(scenario=self.path)
        self.addCleanup(meter.close)
        return meter

    def test_entries(self) -> None:
        self.path.write_bytes(b"0 input 1 1250000\n\n0000 input 128 -1000000000\n5000 external")
        self.assertEqual(
            read_scenario(self.path),
            [
                Entry(0, b"input 1 1250000\n", 1, 1250000),
                Entry(0, b"input 128 -1000000000\n", 128, -1000000000),
                Entry(5000, b"external\n"),
            ],
        )

    def test_bad_lines(self) -> None:
        for line in (
            "input 1 0",
            "0 input 0 0",
            "0 input 129 0",
            "0 input 01 0",
            "0 input 1 1000000001",
            "0  external",
            "0 external ",
            "0 trigger",
            "-1 external",
            "0 input 1 1.5",
            "0 input 1 +5",
            "0\texternal",
            "1000000000000000000 external",
            "0 input 1 0000000000000000000",
            "4 external",
        ):
            self.path.write_text("5 external\n" + line + "\n")
            with self.subTest(line), self.assertRaisesRegex(
                ValueError, "bad line 2 of the scenario /"
            ):
                Meter(scenario=self.path)
        self.assertRaises(OSError, Meter, scenario="/nonexistent")

    def test_their_milliseconds(self) -> None:
        """The reading at millisecond 10 has the voltage from before it: an entry for millisecond 10 comes after it."""
        meter = self.meter("0 input 1 1000000\n10 input 1 2000000\n11 input 1 3000000\n")
        link = meter.connect().create_link()
        self.assertEqual(link.query("MEAS:VOLT? (@1)"), "+1.000000")
        meter.advance(8)
        self.assertEqual((link.query("READ?"), meter.clock), ("+1.000000", 10))
        self.assertEqual((link.query("READ?"), meter.clock), ("+2.000000", 11))
        self.assertEqual((link.query("READ?"), meter.clock), ("+3.000000", 12))

    def test_triggers_while_a_call_waits(self) -> None:
        meter = self.meter("".join(f"{clock} external\n" for clock in (100, 105, 2000)))
        link = meter.connect().create_link()
        link.write("ROUT:SCAN (@1:3);:TRIG:SOUR EXT;COUN 3;:INIT;*OPC?")
        self.assertEqual((link.read(), meter.clock), (b"1\n", 2003))

    def test_a_request_by_the_scenario(self) -> None:
        meter = self.meter("7000 input 3 7500000\n")
        connection = meter.connect()
        link = connection.create_link()
        link.write("ROUT:MON (@3);:CALC:LIM:UPP 5;STAT ON;:STAT:QUES:ENAB 512;*SRE 8")
        link.enable_srq()
        self.assertEqual(connection.listen().wait(10000).clock, 7000)
        self.assertEqual(connection.do(calls.device_readstb(link.number, 0)), 72)
        meter.advance(1)
        self.assertEqual(meter.clock, 7001)


if __name__ == "__main__":
    unittest.main()
