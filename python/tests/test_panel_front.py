"""What the panel shows is what the explanation of the same lines says, after each part of random sessions."""

from __future__ import annotations

import json
import subprocess
import unittest
from collections.abc import Sequence

from scanvolt.explaining.explanation import Explanation
from scanvolt.explaining.lines import as_number
from scanvolt.explaining.words import known
from scanvolt.panel.front import Front
from scanvolt.panel.state import BYTES, State, state_of
from scanvolt.program import find_program
from scanvolt.virtual import Meter

from .explained_sessions import explained, start
from .random_sessions import Session


class Telling:
    """Gives a Front what the program prints about a script."""

    def __init__(self, script: Sequence[str]) -> None:
        self.front = Front()
        self.script = script
        self.front.settle(self._all())

    def _all(self) -> int:
        done = subprocess.run(
            [find_program(), "explain"],
            input="\n".join(self.script) + "\n",
            capture_output=True,
            text=True,
            check=True,
            timeout=60,
        )
        for line in done.stdout.splitlines():
            if line.startswith("@ end"):
                return int(line.split()[2])
            words = self.script[int(line.split()[1]) - 1].split(" ") if line.startswith("@") else []
            self.front.take(line, words)
        raise AssertionError("no end")


def told(script: Sequence[str]) -> State:
    """The state after a script, as a machine reads it."""
    found: State = json.loads(json.dumps(state_of(Telling(script).front)))
    return found


class Same(unittest.TestCase):
    """The front and the explanation."""

    def same(self, script: Sequence[str]) -> State:
        found, story = told(script), Explanation(script, find_program()).story
        value = story.value
        for label, name in BYTES:
            self.assertEqual(found["registers"][label]["value"], value(name), label)
        for register in ("oper", "ques", "lim"):
            for part, word in (
                ("cond", "condition"),
                ("event", "event"),
                ("enable", "enable"),
                ("ptr", "ptr"),
                ("ntr", "ntr"),
            ):
                self.assertEqual(
                    found["registers"][register.upper()][word]["value"], value(f"{register}.{part}")
                )
        errors = value("errors")
        self.assertEqual(
            [one["number"] for one in found["errors"]],
            list(errors if isinstance(errors, tuple) else ()),
        )
        self.assertEqual(found["scan"]["state"], value("state"))
        self.assertEqual(found["scan"]["readings"], value("readings"))
        self.assertEqual(found["lost"], value("lost"))
        self.assertEqual(found["lock"]["link"] if found["lock"] else "none", value("lock"))
        self.assertEqual(
            [
                (one["connection"], one["link"], one["call"], one["since"], one["until"])
                for one in found["waits"]
            ],
            sorted(
                (
                    (
                        call.conn,
                        call.waits[-1].link,
                        call.words,
                        call.waits[-1].begin.moment.clock,
                        call.waits[-1].deadline,
                    )
                    for call in story.waiting()
                ),
                key=lambda one: (one[3], one[0]),
            ),
        )
        links = {
            int(name[5:]): int(str(change[-1].new)[1:])
            for name, change in story.lines.history.items()
            if name.startswith("link.") and change[-1].new != "none"
        }
        self.assertEqual({one["link"]: one["connection"] for one in found["links"]}, links)
        if story.lines.steps and value("held") != "none":
            held = story.held_at(story.lines.steps[-1])
        else:
            held = None
        self.assertEqual(found["message"]["held"], None if held is None else held.text.decode())
        for name in (
            "poll",
            "esr",
            "oper.event",
            "ques.event",
            "lim.event",
            "oper.cond",
            "ques.cond",
            "lim.cond",
        ):
            where, _, part = name.partition(".")
            told_of = found["registers"][{"poll": "STB"}.get(where, where.upper())]
            told_of = told_of[{"cond": "condition"}.get(part, part)] if part else told_of
            rises = {
                bit: sum(
                    1
                    for change in story.lines.history.get(name, ())
                    if as_number(change.new) & ~as_number(change.old) & 1 << bit
                )
                for bit in range(16)
            }
            self.assertEqual(
                sorted(told_of["rises"].values()),
                sorted(count for bit, count in rises.items() if count),
                name,
            )
            self.assertEqual(
                len(told_of["bits"]), bin(known(name, as_number(value(name)))).count("1")
            )
        self.assertEqual(
            found["happened"],
            sum(1 for one in story.calls if one.ended)
            + sum(
                1
                for one in story.moments
                if one.kind in ("input", "external") and one.refused is None
            ),
        )
        return found

    def test_random_sessions(self) -> None:
        for seed in range(4):
            script = Session(seed).script
            for count in range(len(script), 0, -max(1, len(script) // 12)):
                with self.subTest(seed=seed, lines=count):
                    self.same(script[:count])

    def test_known_sessions(self) -> None:
        for name in ("session", "hang", "lock", "requests", "scan"):
            with self.subTest(name):
                self.same(explained(name).script)

    def test_why_it_waits(self) -> None:
        found = self.same(explained("hang").script)
        self.assertEqual([one["for"] for one in found["waits"]], ["a response"])
        self.assertEqual(
            found["waits"][0]["because"],
            [
                "unit `*OPC?` of c0 has waited since 0 ms for the scan to be idle",
                "the scan waits for an EXTernal trigger, scan 2 of 4",
            ],
        )

    def test_who_holds_the_lock(self) -> None:
        with Meter() as meter:
            one, other = meter.connect().create_link(), meter.connect().create_link()
            meter.advance(5)
            one.lock()
            other.lock_timeout = 100
            start(other, other.calls.write(b"*IDN?"))
            script = meter._replay.script()
        wait = self.same(script)["waits"][0]
        self.assertEqual(
            wait,
            {
                "connection": 1,
                "link": 2,
                "call": 'device_write "*IDN?"',
                "for": "the lock",
                "since": 5,
                "until": 105,
                "because": ["link 1 (c0) has held it since 5 ms"],
            },
        )


class Shown(unittest.TestCase):
    """What explanations don't have."""

    def state(self, script: Sequence[str]) -> State:
        return told(script)

    def test_inputs_and_readings(self) -> None:
        with Meter() as meter:
            for channel, volts in ((1, "1.25"), (2, "-7.5"), (3, "12"), (4, "-0.000001")):
                meter.set_input(channel, volts)
            link = meter.connect().create_link()
            link.write("CONF:VOLT (@1:4);:CALC:LIM:UPP 5;LOW -5;STAT ON;:READ?")
            meter.advance(4)
            meter.set_input(2, 1)
            script: list[str] = [*meter._replay.script(), "input 129 5", "input 5 1000000001"]
        found = {one["channel"]: one for one in self.state(script)["channels"]}
        keys = ("input", "reading", "is", "listed", "clock")
        self.assertEqual(
            [(number, *(one[key] for key in keys)) for number, one in found.items()],
            [
                (1, 1.25, 1.25, "inside", True, 1),
                (2, 1, -7.5, "below", True, 2),
                (3, 12, "+over", "overload", True, 3),
                (4, -0.000001, -0.000001, "inside", True, 4),
            ],
        )

    def test_what_happened(self) -> None:
        with Meter() as meter:
            link = meter.connect().create_link()
            for _ in range(5):
                link.readstb()
            link.write("FOO")
            meter.set_input(7, "-0.25")
            meter.external()
            script = meter._replay.script()
        log = self.state(script)["log"]
        self.assertEqual(
            [(one["who"], one["what"], one["reply"], one["times"]) for one in log],
            [
                ("input", "EXTernal trigger", "", 1),
                ("input", "input 7 = -0.25 V", "", 1),
                ("c0 link 1", 'device_write "FOO"', "3 bytes", 1),
                ("c0 link 1", "device_readstb", "0", 5),
                ("c0", 'create_link "inst0"', "link 1", 1),
            ],
        )

    def test_a_session_of_any_length(self) -> None:
        with Meter() as meter:
            link = meter.connect().create_link()
            for _ in range(300):
                link.query("*IDN?")
            front = Telling(meter._replay.script()).front
        self.assertLess(len(json.dumps(state_of(front))), 12000)
        self.assertLess(len(front.log), 100)

    def test_due(self) -> None:
        def is_due(*messages: str, milliseconds: int = 0) -> bool:
            with Meter() as meter:
                link = meter.connect().create_link()
                for message in messages:
                    link.write(message)
                meter.advance(milliseconds)
                return Telling(meter._replay.script()).front.is_due()

        self.assertFalse(is_due("*IDN?"))
        self.assertTrue(is_due("CONF:VOLT (@1:3);:INIT"))
        self.assertTrue(is_due("CONF:VOLT (@1:3);:INIT", milliseconds=2))
        self.assertFalse(is_due("CONF:VOLT (@1:3);:INIT", milliseconds=3))
        self.assertFalse(is_due("TRIG:SOUR EXT;:INIT"))
        self.assertTrue(Telling(explained("hang").script).front.is_due())  # the read's timeout


if __name__ == "__main__":
    unittest.main()
