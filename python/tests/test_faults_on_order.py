"""Faults on order in virtual time: what the driver sees, what the instrument saw, and what the traces say."""

from __future__ import annotations

import unittest
from collections.abc import Callable
from typing import cast

from scanvolt.virtual import Meter, Pending
from scanvolt.vxi11 import DeviceError, calls

# What is ordered, which call it strikes, and what the trace says then: from VXI-11's table of errors.
ERRORS = (
    ("device_read", 17, "I/O error"),
    ("device_write", 15, "I/O timeout"),
    ("device_readstb", 11, "device locked"),
    ("device_lock", 23, "abort"),
    ("device_trigger", 4, "invalid link identifier"),
)


class Case(unittest.TestCase):
    """A meter with a link."""

    def setUp(self) -> None:
        self.meter = Meter()
        self.addCleanup(self.meter.close)
        self.connection = self.meter.connect()
        self.link = self.connection.create_link()


class Errors(Case):
    """Calls that are answered with an error."""

    def test_each_strikes_once(self) -> None:
        self.link.write("*IDN?")
        self.meter.faults.next("device_read", error=17)
        with self.assertRaises(DeviceError) as caught:
            self.link.read()
        self.assertEqual(caught.exception.number, 17)
        self.assertEqual(
            caught.exception.__notes__,
            [
                "device_read was answered with error 17, I/O error; the instrument wasn't asked: on order of meter.faults"
            ],
        )
        self.assertEqual(self.link.read(), b"SCANVOLT,SV32,0,1.0\n")

    def test_the_instrument_is_not_asked(self) -> None:
        """A trigger that fails on order triggers nothing, and the script doesn't have it."""
        before = len(self.meter._replay.script())
        self.meter.faults.next("device_trigger", error=8)
        self.assertRaises(DeviceError, self.link.trigger)
        self.assertEqual(len(self.meter._replay.script()), before)
        self.assertEqual(self.link.query("SYST:ERR?"), '0,"No error"')

    def test_which_call(self) -> None:
        for name, number, words in ERRORS:
            with self.subTest(name):
                self.meter.faults.next(name, error=number)
                make: dict[str, Callable[[], object]] = {
                    "device_read": self.link.read,
                    "device_write": lambda: self.link.write("*CLS"),
                    "device_readstb": self.link.readstb,
                    "device_lock": self.link.lock,
                    "device_trigger": self.link.trigger,
                }
                with self.assertRaises(DeviceError) as caught:
                    make[name]()
                self.assertEqual(caught.exception.number, number)
                self.assertIn(
                    f"{name} was answered with error {number}, {words}", self.meter.explain().end()
                )

    def test_one_connection(self) -> None:
        other = self.meter.connect().create_link()
        self.meter.faults.next("device_readstb", connection=self.connection)
        self.assertEqual(other.readstb(), 0)
        self.assertRaises(DeviceError, self.link.readstb)

    def test_behind_a_call_that_waits(self) -> None:
        """Replies of a connection come in the order of its calls, whoever makes them."""
        self.link.write("CONF:VOLT (@1:3);:INIT;*OPC?")
        first = self.connection.start(self.link.calls.read())
        self.meter.faults.next("device_readstb")
        second = self.connection.start(self.link.calls.readstb())
        third = self.connection.start(self.link.calls.write(b"*CLS"))
        self.assertFalse(second.done)
        self.assertEqual((first.result().data, first.clock), (b"1\n", 3))
        self.assertRaises(DeviceError, second.result)
        self.assertEqual((third.result(), second.clock, third.clock), (4, 3, 3))

    def test_what_cannot_be_ordered(self) -> None:
        faults = self.meter.faults
        self.assertRaisesRegex(
            ValueError,
            "no call of VXI-11: 'read'; there are create_intr_chan, ",
            faults.next,
            "read",
        )
        self.assertRaisesRegex(
            ValueError, "number of an error, a whole number from 1", faults.next, "device_read", 0
        )
        self.assertRaisesRegex(
            TypeError, "drop_after wants a number of bytes", faults.drop_after, "3"
        )
        self.assertRaisesRegex(ValueError, "delay wants milliseconds", faults.delay, -1)
        self.assertEqual(faults.ordered, [])

    def test_withdrawn(self) -> None:
        self.meter.faults.close()
        self.meter.faults.withdraw()
        self.assertEqual((self.link.readstb(), self.meter.faults.told), (0, []))


class Replies(Case):
    """Replies that come late or are cut off, and connections that end."""

    def test_late(self) -> None:
        """The instrument has done the call at once; the client sees that later."""
        self.meter.faults.delay(30, call="device_write")
        self.link.write("CONF:VOLT (@1:2);:INIT")
        self.assertEqual(self.meter.clock, 30)
        self.assertEqual((self.link.query("STAT:OPER:COND?"), self.meter.clock), ("0", 30))
        self.assertIn("30 ms", str(self.meter.faults.told[0].words))

    def test_none_overtakes_a_late_reply(self) -> None:
        self.meter.faults.delay(30)
        first, second = (self.connection.start(self.link.calls.readstb()) for _ in range(2))
        self.meter.advance(29)
        self.assertEqual((first.done, second.done), (False, False))
        self.meter.advance(1)
        self.assertEqual((first.clock, second.clock), (30, 30))

    def test_no_error_on_order_overtakes_a_late_reply(self) -> None:
        self.meter.faults.delay(30)
        self.meter.faults.next("device_trigger", error=8)
        first = self.connection.start(self.link.calls.readstb())
        second = self.connection.start(self.link.calls.trigger())
        third = self.connection.start(self.link.calls.readstb())
        self.assertRaises(DeviceError, second.result)
        self.assertEqual((first.clock, second.clock, third.clock), (30, 30, 30))

    def test_the_connection_ends_before_it_comes(self) -> None:
        self.meter.faults.delay(30)
        pending = self.connection.start(self.link.calls.readstb())
        self.connection.close()
        self.assertRaisesRegex(ConnectionError, "the connection was closed", pending.result)

    def test_cut_off(self) -> None:
        """The call was done, but its reply isn't whole: the connection ended, and its lock is free."""
        self.link.lock()
        self.meter.faults.drop_after(bytes=3, call="device_write")
        with self.assertRaisesRegex(
            ConnectionError, "ended after 3 of 36 bytes of the reply to device_write: on order"
        ):
            self.link.write("CALC:LIM:UPP 5")
        self.assertRaisesRegex(ConnectionError, "is closed", self.link.readstb)
        other = self.meter.connect().create_link(lock=True)
        self.assertEqual(other.query("CALC:LIM:UPP?"), "+5.000000")

    def test_cut_off_behind_a_reply(self) -> None:
        self.meter.faults.drop_after(bytes=1000)
        self.assertEqual(self.link.readstb(), 0)
        self.assertFalse(self.connection.is_open)

    def test_calls_behind_it(self) -> None:
        self.meter.faults.drop_after(bytes=0, call="device_read")
        self.link.write("CONF:VOLT (@1:3);:INIT;*OPC?")
        first = cast("Pending[object]", self.connection.start(self.link.calls.read()))
        second = cast("Pending[object]", self.connection.start(self.link.calls.readstb()))
        for one in first, second:
            self.assertRaisesRegex(ConnectionError, "after 0 of ", one.result)

    def test_closed_before_the_call(self) -> None:
        self.meter.faults.close("device_write")
        with self.assertRaisesRegex(
            ConnectionError, "ended before device_write came to the instrument: on order"
        ):
            self.link.write("CALC:LIM:UPP 5")
        self.assertEqual(self.meter.connect().create_link().query("CALC:LIM:UPP?"), "+1000.000000")

    def test_a_lost_service_request(self) -> None:
        requests = self.connection.listen()
        self.link.enable_srq(b"meter 1")
        self.meter.faults.lose_request()
        self.link.write("*SRE 4;UNKNOWN")
        self.assertRaises(TimeoutError, requests.wait, 100)
        self.assertEqual(self.link.readstb(), 68)
        self.link.write("*CLS;UNKNOWN")
        self.assertEqual(requests.wait(100).xid, 2)


class Traces(Case):
    """The timeline, the end and the page say what was ordered, where it happened."""

    def test_the_timeline(self) -> None:
        self.meter.advance(5)
        self.meter.faults.next("device_readstb")
        self.assertRaises(DeviceError, self.link.readstb)
        self.meter.advance(5)
        self.connection.start(calls.null())
        lines = self.meter.explain().lines()
        place = next(
            number for number, line in enumerate(lines) if "fault on order: device_readstb" in line
        )
        self.assertEqual(lines[place].split()[:3], ["5", "c0", "link"])
        self.assertIn("create_link", lines[place - 1])
        self.assertIn("the null procedure", lines[place + 1])

    def test_the_last_thing_that_happened(self) -> None:
        self.meter.faults.next("device_trigger")
        self.assertRaises(DeviceError, self.link.trigger)
        self.assertIn(
            "fault on order: device_trigger was answered with error 17",
            self.meter.explain().lines()[-1],
        )

    def test_the_page_and_the_end(self) -> None:
        self.meter.faults.close("device_lock")
        self.assertRaises(ConnectionError, self.link.lock)
        found = self.meter.explain()
        self.assertIn(
            "on order  0 ms, c0 link 1: the connection ended before device_lock", found.end()
        )
        self.assertEqual(
            found.page().count("the connection ended before device_lock came to the instrument"), 2
        )

    def test_nothing_is_said_without_faults(self) -> None:
        self.assertNotIn("on order", self.meter.explain().text())


if __name__ == "__main__":
    unittest.main()
