"""Random sessions, for the tests: each seed gives the same lines of a replay script."""

from __future__ import annotations

import random
from collections.abc import Callable, Sequence

from scanvolt.virtual import Connection, Meter
from scanvolt.vxi11 import DeviceError, Link

UNITS = (
    "*CLS",
    "*ESR?",
    "*SRE 36",
    "*SRE 191",
    "*SRE 0",
    "*ESE 255",
    "*ESE 1",
    "*OPC",
    "*OPC?",
    "*WAI",
    "FOO",
    "SYST:ERR?",
    "*STB?",
    "*RST",
    ":INIT",
    ":ABOR",
    "READ?",
    "FETC?",
    "CONF:VOLT (@1:3)",
    ":TRIG:COUN 2",
    "TRIG:SOUR BUS",
    "TRIG:SOUR IMM",
    "TRIG:SOUR EXT",
    "*TRG",
    "VOLT:RANG 1",
    "CALC:LIM:UPP 1;STAT ON",
    "CALC:LIM:STAT OFF",
    "STAT:QUES:ENAB 513",
    "STAT:OPER:ENAB 304",
    "STAT:QUES?",
    "STAT:QUES:LIM?",
    "STAT:OPER?",
    "STAT:PRES",
    "STAT:QUES:NTR 512",
    "STAT:OPER:NTR 256",
    "MEAS:VOLT? (@1:2)",
    "*IDN?",
    "*ESE 256",
    "CALC:LIM:LOW 2",
    "ROUT:MON (@2)",
    "\n",
    "A" * 13,
)


class Session:
    """A session of several links that write, read, poll, lock, trigger, clear and wait."""

    def __init__(self, seed: int, count: int = 120) -> None:
        self.chance = random.Random(seed)
        with Meter() as self.meter:
            self.conns = [self.meter.connect() for _ in range(2)]
            self.links = [conn.create_link() for conn in (*self.conns, self.conns[0])]
            for place, conn in enumerate(self.conns):
                conn.listen(lambda request: None)
                self.links[place].enable_srq(b"<script>%d" % place)
            for link in self.links:
                link.io_timeout = 20
            for _ in range(count):
                self.act()
            self.leave()
            self.script: Sequence[str] = self.meter._replay.script()

    def act(self) -> None:
        """Does something. An error of the instrument is part of the session."""
        link = self.chance.choice(self.links)
        if self.chance.random() < 0.15:
            link.lock_timeout = self.chance.choice([0, 10])
        acts: list[Callable[[Link], object]] = (
            [self.write] * 6
            + [Link.read] * 3
            + [Link.readstb] * 2
            + [
                lambda one: one.lock(self.chance.choice([0, 15])),
                Link.unlock,
                self.rare,
                self.wait,
                self.stimulate,
            ]
        )
        try:
            self.chance.choice(acts)(link)
        except DeviceError:
            pass

    def write(self, link: Link) -> None:
        units = ";".join(self.chance.choice(UNITS) for _ in range(self.chance.choice([1, 1, 2, 3])))
        carrier = link.carrier
        assert isinstance(carrier, Connection)
        if self.chance.random() < 0.9:
            link.write(units)
        else:  # a part of a message
            carrier.do(link.calls.write(units.encode(), False))

    def rare(self, link: Link) -> None:
        self.chance.choice([Link.clear, Link.trigger])(link)

    def wait(self, _link: Link) -> None:
        self.meter.advance(self.chance.choice([1, 3, 17]))

    def stimulate(self, _link: Link) -> None:
        if self.chance.random() < 0.5:
            self.meter.external()
        else:
            self.meter.set_input(
                self.chance.randrange(1, 4), self.chance.choice(["0.5", "2", "-20", "0"])
            )

    def leave(self) -> None:
        """Leaves calls that wait, on some connections."""
        for link in self.links[: self.chance.randrange(3)]:
            carrier = link.carrier
            assert isinstance(carrier, Connection)
            link.io_timeout = link.lock_timeout = self.chance.choice([40, 300, 10**6])
            carrier.start(
                self.chance.choice(
                    [link.calls.read(1000), link.calls.write(b"*OPC?"), link.calls.readstb()]
                )
            )
