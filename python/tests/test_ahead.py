"""Random sessions: trying time ahead leads to the same as passing it in single milliseconds."""

from __future__ import annotations

import random
import unittest
from unittest import mock

from scanvolt import replay
from scanvolt.virtual import Connection, Meter, NoAnswer, Pending
from scanvolt.vxi11 import DeviceError, Link

MESSAGES = (
    "READ?",
    "*IDN?",
    "INIT;*OPC?",
    "*SRE 255;:STAT:QUES:ENAB 512;:CALC:LIM:UPP 3;STAT ON",
    "*CLS",
    "INIT",
    "FETC?;*OPC?",
    "MEAS:VOLT? (@1:5)",
    "TRIG:SOUR EXT",
    "ABOR;:STAT:OPER:ENAB 304;NTR 304",
    "READ?;READ?",
)
SESSIONS = 8


class Session:
    """A session of three connections, whose steps are random. `told` has all results."""

    def __init__(self, meter: Meter, chance: random.Random) -> None:
        self.meter = meter
        self.chance = chance
        self.told: list[object] = []
        self.pending: list[Pending[object]] = []
        self.links = [self.link(number) for number in range(3)]

    def link(self, number: int) -> Link:
        connection = self.meter.connect()
        link = connection.create_link(io_timeout=self.chance.choice((0, 50, 200, 700)))
        link.lock_timeout = self.chance.choice((0, 0, 100))
        link.enable_srq(b"%d" % number)
        connection.listen(lambda request: self.told.append((request, self.meter.clock)))
        return link

    def step(self) -> None:
        """Makes one step of a link."""
        link = self.chance.choice(self.links)
        kind = self.chance.randrange(9)
        if kind < 3:
            channels, scans = self.chance.randrange(1, 129), self.chance.randrange(1, 6)
            settings = f"CONF:VOLT (@1:{channels});:TRIG:COUN {scans}"
            self.told.append(link.write(self.chance.choice((settings, settings, *MESSAGES))))
        elif kind == 3:
            self.told.append(link.read_piece(self.chance.choice((5, 8192))))
        elif kind == 4:
            self.told.append(link.readstb())
        elif kind == 5:
            self.meter.advance(self.chance.choice((0, 1, 7, 63, 64, 65, 500, 1000)))
        elif kind == 6:
            self.meter.set_input(self.chance.randrange(1, 129), self.chance.randrange(-6, 7))
        elif kind == 7:
            self.meter.external()
        else:
            self.begin(link)

    def begin(self, link: Link) -> None:
        """Sends a call without waiting for its reply."""
        connection = link.carrier
        assert isinstance(connection, Connection)
        ahead = link.calls
        call = self.chance.choice(
            (ahead.read(100), ahead.lock(), ahead.unlock(), ahead.write(b"READ?"))
        )
        self.pending.append(connection.start(call))

    def run(self) -> list[object]:
        for _ in range(20):
            try:
                self.step()
            except DeviceError as fault:
                self.told.append(fault.number)
            except NoAnswer:
                self.told.append("no answer")
            self.told.append(self.meter.clock)
        self.meter.advance(3000)
        return self.told + [(one.clock, one._body) for one in self.pending]


def told(seed: int) -> list[object]:
    with Meter(patience=2000) as meter:
        return Session(meter, random.Random(seed)).run()


class Ahead(unittest.TestCase):
    """Runs each session twice: as it is, and without a second program."""

    def test_sessions(self) -> None:
        begin_again = replay.Replay._begin_again
        with mock.patch.object(
            replay.Replay, "_begin_again", autospec=True, side_effect=begin_again
        ) as seconds:
            usual = [told(seed) for seed in range(SESSIONS)]
        self.assertGreater(seconds.call_count, 0)
        for seed, expected in enumerate(usual):
            with self.subTest(seed=seed):
                with mock.patch.object(replay, "LOG_MOST", -1):
                    self.assertEqual(told(seed), expected)


if __name__ == "__main__":
    unittest.main()
