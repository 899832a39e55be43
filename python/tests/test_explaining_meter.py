"""Meter.explain, NoAnswer at once, and the notes of errors."""

from __future__ import annotations

import pickle
import time
import traceback
import unittest
from unittest import mock

from scanvolt import replay
from scanvolt.explaining import meters, tries
from scanvolt.explaining.explanation import Explanation
from scanvolt.program import ProgramError
from scanvolt.virtual import Meter, NoAnswer
from scanvolt.vxi11 import DeviceError, Link

from .limits import within
from .random_sessions import Session

LONG = 4294967295  # milliseconds, the longest timeout


def notes_of(fault: BaseException) -> list[str]:
    found: list[str] = getattr(fault, "__notes__")
    return found


class WithMeter(unittest.TestCase):
    def setUp(self) -> None:
        patch = mock.patch.object(tries, "LIMIT", 60)
        patch.start()
        self.addCleanup(patch.stop)
        self.meter = Meter()
        self.addCleanup(self.meter.close)
        self.link = self.meter.connect().create_link()

    def hang(self, source: str = "EXT") -> None:
        """A unit waits for three triggers."""
        self.link.write("CONF:VOLT (@1:8);:TRIG:COUN 3")
        self.link.write(f"TRIG:SOUR {source};:INIT;*OPC?")


class Explaining(WithMeter):
    def test_a_meter(self) -> None:
        self.link.write("*SRE 4;FOO")
        self.meter.advance(7)
        found = self.meter.explain()
        self.assertIn('error -113 "Undefined header"', found.text())
        self.assertIn("at the end, 7 ms", found.text(3))
        self.assertTrue(found.why("RQS").startswith("STB.RQS has been set since 0 ms"))
        self.assertEqual((str(found), found.end()), (found.end(), "\n".join(found.end_lines())))
        self.assertIn("status    STB 68 (RQS, EAV)", found.end())
        self.assertIn("<title>mine", found.page("mine"))
        self.assertTrue(found._repr_html_().startswith("<iframe"))
        self.assertNotIn("<script", found._repr_html_())
        self.assertEqual((self.meter.clock, self.link.readstb()), (7, 68))  # it isn't disturbed

    def test_its_script(self) -> None:
        """A script that repeats the session, with the time that passed after it."""
        self.link.write("CONF:VOLT (@1:128);:READ?")
        self.link.read()
        self.meter.advance(5)
        script = self.meter._replay.script()
        self.assertEqual(script[-1], f"tick {128 + 5}")
        with Meter() as other:
            other._replay.do(("\n".join(script) + "\n").encode())
            self.assertEqual(other._replay.checksum, self.meter._replay.checksum)

    def test_a_session_that_is_too_long(self) -> None:
        with mock.patch.object(replay, "LOG_MOST", -1):
            self.link.write("*CLS")
        self.assertRaisesRegex(ProgramError, "too long to be told", self.meter.explain)


class AtOnce(WithMeter):
    """A call that nothing due can answer raises NoAnswer at once, and the clock stands."""

    def asked(self, link: Link, told: str) -> None:
        began = time.monotonic()
        with self.assertRaisesRegex(NoAnswer, told):
            link.read()
        self.assertLess(time.monotonic() - began, within(15))
        self.assertEqual(self.meter.clock, 0)

    def test_a_trigger_that_is_missing(self) -> None:
        self.hang()
        self.link.io_timeout = LONG
        self.asked(
            self.link,
            r"(?s)device_read \(c0 link 1\) can't be answered.*EXTernal trigger \(scan 1 of 3\)"
            r".*3 EXTernal triggers, it ends at 24 ms: \"1",
        )

    def test_behind_another(self) -> None:
        """The call in the way is named."""
        self.hang("BUS")
        self.link.io_timeout = LONG
        self.asked(self.link, "device_trigger")
        with self.assertRaisesRegex(
            NoAnswer, r"device_readstb of c0 isn't taken: it is behind device_read \(c0 link 1\)"
        ):
            self.link.readstb()

    def test_the_lock(self) -> None:
        self.link.lock()
        other = self.meter.connect().create_link(lock_timeout=LONG)
        self.asked(
            other,
            r"(?s)device_read \(c1 link 2\) can't be answered.*link 1 \(c0\) has held the lock.*device_unlock of link 1",
        )

    def test_something_is_due(self) -> None:
        """Then the call is waited for: a scan, an entry of the scenario, or a timeout of another call."""
        self.link.io_timeout = LONG
        self.assertEqual(self.link.query("CONF:VOLT (@1:128);:READ?").count(","), 127)
        self.assertEqual(self.meter.clock, 128)

    def test_as_time_shows(self) -> None:
        """In random sessions: if it is said that nothing answers, then time alone answers nothing."""
        said = 0
        for seed in 13, 15, 20, 25, 26, 33, 38, 40:  # some leave calls that wait for ever
            session = Session(seed, 20)
            with Meter() as meter:
                meter._replay.do(("\n".join(session.script) + "\n").encode())
                found = Explanation(session.script, meter._replay.path)
                for call in found.story.waiting():
                    hopeless = (
                        meters._hopeless(found, call.conn, call.message.xid, 1000) is not None
                    )
                    if hopeless:
                        printed = b"c%d " % call.conn in meter._replay.pass_time(1000)
                    else:
                        printed = False
                    said += hopeless
                    self.assertFalse(printed, (seed, call.words))
        self.assertGreater(said, 3)


class Notes(WithMeter):
    """An error of a meter says what the call waited for, and why."""

    def test_a_timeout(self) -> None:
        self.hang()
        self.link.io_timeout = 50
        with self.assertRaises(DeviceError) as caught:
            self.link.read()
        self.meter.external()
        self.meter.advance(100)
        first, second = notes_of(caught.exception)  # as of the moment of the error
        self.assertEqual(first, "c0 link 1: device_read had waited since 0 ms for a response")
        self.assertIn("the scan waits for an EXTernal trigger (scan 1 of 3)", second)

    def test_without_a_wait(self) -> None:
        """The first lines of the end."""
        self.link.lock()
        other = self.meter.connect().create_link()
        with self.assertRaises(DeviceError) as caught:
            other.readstb()
        self.assertEqual(notes_of(caught.exception)[0], "no call waits")

    def test_they_cost_nothing_until_they_are_asked_for(self) -> None:
        with mock.patch.object(meters, "of_meter") as asked:
            for _ in range(3):
                self.assertRaises(DeviceError, self.link.unlock)
        asked.assert_not_called()

    def test_in_a_traceback(self) -> None:
        self.hang()
        self.link.io_timeout = 50
        try:
            self.link.read()
        except DeviceError as fault:
            shown = "".join(traceback.format_exception(type(fault), fault, None))
            # since Python 3.11
            self.assertEqual("had waited since 0 ms" in shown, hasattr(BaseException, "add_note"))
            again = pickle.loads(pickle.dumps(fault))
            self.assertEqual((again.number, str(again)), (fault.number, str(fault)))

    def test_an_earlier_program(self) -> None:
        """It has no notes, and no error of its own."""
        with mock.patch.object(meters, "Explanation", side_effect=ProgramError("old")):
            with self.assertRaises(DeviceError) as caught:
                self.link.unlock()
            self.assertEqual(notes_of(caught.exception), [])


if __name__ == "__main__":
    unittest.main()
