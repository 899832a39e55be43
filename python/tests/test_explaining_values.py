"""The values that the program explains are what a second instrument with the same history answers, in random sessions."""

from __future__ import annotations

import collections
import re
import unittest
from collections import Counter
from collections.abc import Callable, Sequence
from typing import TypeVar

from scanvolt.explaining.explanation import Explanation
from scanvolt.explaining.lines import Value, as_number
from scanvolt.program import find_program
from scanvolt.virtual import Meter
from scanvolt.vxi11 import Call, DeviceError, calls

from .random_sessions import Session

SEEDS = 60  # random sessions
ERRORS = 64  # places of the error queue
LONGEST = 10000  # milliseconds for which the timeout of a call is awaited
NEW, XID = 15, 7  # a connection that no session has; the number of its calls
LOCKED, TIMEOUT, RQS = 11, 15, 64
ENDS = {"lock": LOCKED, "input": TIMEOUT, "response": TIMEOUT}  # the error that ends each wait
MARK, MESSAGE = 4, 28  # bytes of a reply before its message, and before the number of its error

Answer = TypeVar("Answer")


def microvolts(text: str) -> Value:
    return int(text.replace(".", ""))


def channels(text: str) -> Value:
    return tuple(int(one) for one in text.strip("(@)").split(","))


def channel(text: str) -> Value:
    return int(text.strip("(@)"))


# For each value: the query, and how its response is read.
QUERIES: dict[str, tuple[str, Callable[[str], Value]]] = {
    "esr": ("*ESR?", int),
    "ese": ("*ESE?", int),
    "sre": ("*SRE?", int),
    **{
        f"{register}.{name}": (f"{header}{node}?", int)
        for register, header in (
            ("oper", "STAT:OPER"),
            ("ques", "STAT:QUES"),
            ("lim", "STAT:QUES:LIM"),
        )
        for name, node in (
            ("cond", ":COND"),
            ("event", ""),
            ("enable", ":ENAB"),
            ("ptr", ":PTR"),
            ("ntr", ":NTR"),
        )
    },
    "source": ("TRIG:SOUR?", str.lower),
    "count": ("TRIG:COUN?", int),
    "range": ("VOLT:RANG?", microvolts),
    "list": ("ROUT:SCAN?", channels),
    "monitor": ("ROUT:MON?", channel),
    "upper": ("CALC:LIM:UPP?", microvolts),
    "lower": ("CALC:LIM:LOW?", microvolts),
    "limits": ("CALC:LIM:STAT?", int),
}


class Second:
    """What a second instrument answers, each time with the history of the script."""

    def __init__(self, script: Sequence[str]) -> None:
        story = Explanation(script, find_program()).story
        self.script = ("\n".join(script) + "\n").encode()
        self.value, self.clock, self.calls = story.value, story.clock, story.waiting()

    def again(self, meter: Meter) -> Meter:
        """A meter with this history."""
        meter._replay.do(self.script)
        return meter

    def alone(self, meter: Meter) -> Meter:
        """The same, but all connections are closed, in an order in which none lets the call of another go on: that with the lock last, and
        first those whose calls wait for it.
        """
        waits = {call.conn: self.value(f"c{call.conn}.wait") for call in self.calls}
        holder = self.value(f"link.{self.value('lock')}")

        def order(conn: int) -> tuple[bool, bool]:
            return f"c{conn}" == holder, not str(waits.get(conn, "")).startswith("lock")

        opened = [n for n in range(16) if self.value(f"c{n}.role") != "closed"]
        closes = "".join(f"close c{conn}\n" for conn in sorted(opened, key=order))
        self.again(meter)._replay.do(closes.encode())
        return meter

    def values(self) -> dict[str, Value]:
        """What queries return."""
        with Meter() as meter:
            link = self.alone(meter).connect().create_link()
            link.clear()
            asked = ";:".join(query for query, _read in QUERIES.values()).replace(":*", "*")
            texts = link.query(asked).split(";")
            return {name: read(text) for (name, (_, read)), text in zip(QUERIES.items(), texts)}

    def errors(self) -> tuple[int, ...]:
        """The error queue."""
        with Meter() as meter:
            link = self.alone(meter).connect().create_link()
            link.clear()
            told = link.query(";".join([":SYST:ERR?"] * (ERRORS + 1)))
            numbers = [int(one) for one in re.findall(r'(-?\d+),"[^"]*"', told)]
            return tuple(numbers[: numbers.index(0)])

    def link(self, meter: Meter) -> int:
        """A new link of a new connection."""
        self.again(meter)._replay.do(b"open %d core\n" % NEW)
        return ask(meter, calls.create_link()).link

    def locks(self) -> bool:
        """Whether the new link finds the lock taken."""
        with Meter() as meter:
            try:
                ask(meter, calls.device_lock(self.link(meter)))
            except DeviceError as fault:
                return fault.number == LOCKED
            return False

    def poll(self) -> int:
        """The status byte that the new link reads."""
        with Meter() as meter:
            return ask(meter, calls.device_readstb(self.link(meter), 0))

    def ends(self, conn: int, milliseconds: int) -> tuple[bool, int]:
        """Whether a call that waits is answered before so many milliseconds are over, and the error with which it is then."""
        mark = b"c%d " % conn
        with Meter() as meter:
            early = mark in self.again(meter)._replay.pass_time(milliseconds - 1)
            reply = meter._replay.pass_time(1).partition(mark)[2].partition(b"\n")[0]
            return early, int.from_bytes(bytes.fromhex(reply.decode())[MESSAGE:][:4], "big")


def ask(meter: Meter, call: Call[Answer]) -> Answer:
    """What a call of the new connection answers at once."""
    asked = call.encode(XID).hex().encode()
    told = meter._replay.do(b"bytes %d %s\nturn %d\n" % (NEW, asked, NEW))
    reply = told.partition(b"c%d " % NEW)[2].partition(b"\n")[0]
    return call.answer(bytes.fromhex(reply.decode())[MARK:], XID)


class Values(unittest.TestCase):
    """Each value beside what the second instrument answers."""

    def test_random_sessions(self) -> None:
        ended: Counter[str] = collections.Counter()
        for seed in range(SEEDS):
            with self.subTest(seed):
                ended += self.same(Second(Session(seed).script))
        self.assertGreater(ended["lock"], 9)

    def same(self, second: Second) -> Counter[str]:
        """Compares all values. Returns how many calls of each kind were seen to time out."""
        value = second.value
        self.assertEqual(second.values(), {name: value(name) for name in QUERIES})
        self.assertEqual(second.errors(), value("errors"))
        self.assertEqual(second.locks(), value("lock") != "none")
        if value("lock") == "none":
            status = as_number(value("stb")) & ~RQS | RQS * as_number(value("rqs"))
            self.assertEqual(second.poll(), status)
        ended: Counter[str] = collections.Counter()
        for call in second.calls:
            kind, _link, until = str(value(f"c{call.conn}.wait")).split()
            left = int(until) - second.clock
            if left <= LONGEST and (kind == "lock" or value("state") != "scanning"):
                self.assertEqual(second.ends(call.conn, left), (False, ENDS[kind]))
                ended[kind] += 1
        return ended
