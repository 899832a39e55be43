"""What `scanvolt-explain` prints: whole texts of sessions, and what must hold of any session.

`python3 -m tests.test_explaining --write` writes the texts anew; they are to be read before they are kept.
"""

from __future__ import annotations

import collections
import concurrent.futures
import contextlib
import pathlib
import subprocess
import sys
import threading
import time
import unittest
from collections import Counter
from unittest import mock

from scanvolt.explaining import tries
from scanvolt.explaining.blocks import Blocks
from scanvolt.explaining.doers import Doers
from scanvolt.explaining.explanation import Explanation
from scanvolt.explaining.reasons import Reasons
from scanvolt.explaining.tables import ERRORS
from scanvolt.explaining.telling import Telling
from scanvolt.explaining.trial import Trial
from scanvolt.program import find_program
from scanvolt.virtual import Meter
from scanvolt.vxi11 import calls

from .explained_sessions import SESSIONS, explained, script_of, start
from .explaining_checks import Checks
from .limits import within
from .random_sessions import Session

FOLDER = pathlib.Path(__file__).resolve().parent / "explained"
TABLES = FOLDER.parents[2] / "tools" / "explaining"
STORED = "hang"
ASKED = {
    "session": ("RQS@line 17", "RQS", "MAV", "ESR", "reading@3", "lock", "held@4", "held", "error"),
    "hang": ("wait c0", "RQS", "error", "trigger", "held", "source"),
    "hung": ("wait c0",),
    "lock": ("wait c1", "wait c0", "lock", "lock@85", "ESR.QYE"),
    "requests": ("RQS@line 33", "RQS@8", "stb", "error", "ESR.OPC@line 27", "ESR.OPC", "srq.2"),
    "scan": ("RQS", "OPER", "ques.VOLT", "ques.cond.VOLT", "oper.cond.BUSY@2", "stb.3"),
}
# Values that are noise, or that go back to what they are at rest.
LEFT_OUT = (
    r"^(stb|rqs|oper\.cond|oper\.event|answers|scan|place|readings|text|response|opc|c\d+\.(wait|role|output|faulted)"
    r"|i\d+\.output|link\.\d+)$"
)
SEEDS = 100  # random sessions
TRIED = 10  # of so many, one has its ends tried again
AT_ONCE = 4  # sessions that are checked at the same time


def text_of(name: str) -> str:
    """What is printed about a session."""
    found = explained(name)
    with mock.patch.object(tries, "LIMIT", 60):  # what is tried may take long on a busy machine
        parts = [found.text()] + [f"$ --why {one}\n{found.why(one)}" for one in ASKED.get(name, ())]
    return "\n".join(parts) + "\n"


def lasts(trial: Trial) -> None:
    """A try that goes on until its program is ended, but at most a minute."""
    with contextlib.suppress(subprocess.TimeoutExpired):
        trial.program.process.wait(60)
    trial.do("tick\n")


def checked(seed: int) -> Checks:
    """The checks of a random session."""
    checks = Checks(Explanation(Session(seed, 40).script, find_program()))
    if seed % TRIED == 0:
        checks.faults += checks.ends()
    return checks


class Texts(unittest.TestCase):
    """The texts of the sessions, byte by byte."""

    maxDiff = None

    def test_each(self) -> None:
        self.assertEqual(sorted(SESSIONS), sorted(path.stem for path in FOLDER.glob("*.txt")))
        for name in SESSIONS:
            with self.subTest(name):
                self.assertEqual(
                    text_of(name), FOLDER.joinpath(name + ".txt").read_text(encoding="utf-8")
                )

    def test_each_error_and_each_reply(self) -> None:
        """The texts have each error of the queue, each error that a call may return, and each way to refuse a call."""
        text = FOLDER.joinpath("errors.txt").read_text(encoding="utf-8")
        for number, words in ERRORS.items():
            self.assertTrue(f'error {number} "{words}"' in text, number)
        text = FOLDER.joinpath("replies.txt").read_text(encoding="utf-8")
        for number in 3, 4, 5, 6, 8, 9, 11, 12, 15, 21, 23, 29:  # docs/INSTRUMENT.md
            self.assertTrue(f"-> error {number}, " in text, number)
        for words in (
            "versions 1 to 1 of the program",
            "no such program",
            "no such procedure",
            "arguments can't be read",
            "versions 2 to 2 of RPC",
        ):
            self.assertTrue(words in text, words)
        for names in calls.NAMES[calls.CORE].values():
            self.assertTrue(f" {names}" in text, names)

    def test_the_stored_session(self) -> None:
        """The one that docs/EXPLAIN.md shows."""
        self.assertEqual(
            FOLDER.joinpath(STORED + ".replay").read_text(encoding="utf-8").splitlines(),
            list(script_of(STORED)),
        )

    @unittest.skipUnless(TABLES.exists(), "only in a checkout")
    def test_tables(self) -> None:
        """Bits, errors and reasons are those of the documents."""
        told = subprocess.run([str(TABLES), "--check"], capture_output=True, text=True, check=False)
        self.assertEqual((told.returncode, told.stdout, told.stderr), (0, "", ""))

    def test_what_is_left_out(self) -> None:
        """What a plain text tells, `--all` tells in the same words; and only what is said otherwise is left out."""
        for name in SESSIONS:
            story = explained(name).story
            plain, everything = Telling(story), Telling(story, True)
            for step in story.lines.steps:
                for change in step.changes:
                    told = plain.change(change)
                    with self.subTest(name, change=change.name, line=step.moment.line):
                        self.assertIn(told, (None, everything.change(change)))
                        if told is None:
                            self.assertRegex(change.name, LEFT_OUT)

    def test_what_was_sent(self) -> None:
        """Bytes that wait to be sent are none before each reply."""
        text = explained("hang").text(everything=True)
        self.assertIn("c0.output 0 -> 36", text)
        self.assertNotRegex(text, r"c0\.output [1-9]")

    def test_what_is_folded(self) -> None:
        """Only readings, and calls that are equal and change nothing. Each of them counts."""
        found = explained("scan")
        plain = Blocks(found.reasons).all()
        everything = Blocks(Reasons(Doers(Telling(found.story, True)))).all()
        for block in plain:
            if block.times > 1:
                self.assertTrue(block.kind == "reading" or block.kind == "call" and not block.rows)
        for kind in "call", "reading":
            self.assertEqual(
                sum(one.times for one in plain if one.kind == kind and one.head != "bytes"),
                len([one for one in everything if one.kind == kind]),
                kind,
            )
        self.assertTrue(any(block.times > 1 for block in plain if block.kind == "call"))

    def test_the_last_lines(self) -> None:
        found = explained("session")
        self.assertEqual(found.lines(5)[1:], found.lines()[-5:])
        self.assertIn(f"{len(found.lines()) - 5} lines before", found.lines(5)[0])


class Limits(unittest.TestCase):
    """What would end a wait is tried for 2 s at most."""

    def test_a_long_session(self) -> None:
        """With a timeout that is far off."""
        with Meter() as meter, meter.connect() as connection, connection.create_link(
            io_timeout=500000
        ) as link:
            for number in range(150):
                link.write(f"*SRE {number % 32}")
                link.readstb()
            link.write("TRIG:SOUR EXT;:INIT;*OPC?")
            connection.start(link.calls.read())
            found = meter.explain()
            began = time.monotonic()
            end = found.end()
            self.assertLess(time.monotonic() - began, within(2 + 1))
            self.assertIn("due           its timeout at 500,000 ms, in 500,000 ms", end)
            self.assertNotRegex(end, "would not .*time alone")
            connection.close()

    def test_nothing_is_left(self) -> None:
        """A try that takes too long ends with its program and its thread."""
        with Meter() as meter, meter.connect() as connection, connection.create_link(
            io_timeout=500000
        ) as link:
            link.write("TRIG:SOUR EXT;:INIT;*OPC?")
            connection.start(link.calls.read())
            found = meter.explain()
            threads = threading.active_count()
            with mock.patch.object(tries, "LIMIT", 0.01), mock.patch.object(tries, "_time", lasts):
                self.assertRegex(found.end(), "not tried +.*time alone")
            self.assertEqual(threading.active_count(), threads)
            connection.close()


class WhatWasTried(unittest.TestCase):
    """Only what was tried is said to end a wait, or not to."""

    def setUp(self) -> None:
        patch = mock.patch.object(tries, "LIMIT", 60)
        patch.start()
        self.addCleanup(patch.stop)
        self.meter = Meter()
        self.addCleanup(self.meter.close)

    def test_without_a_connection(self) -> None:
        """No device_abort can be tried while all sixteen are taken."""
        links = [self.meter.connect().create_link(lock_timeout=50) for _ in range(16)]
        links[0].lock()
        start(links[1], links[1].calls.readstb())
        end = self.meter.explain().end()
        self.assertRegex(end, "not tried +device_abort of link 2\n")
        self.assertNotIn("would not", end)

    def test_a_timeout_meanwhile(self) -> None:
        """Triggers whose scans take longer than the timeout don't end the wait."""
        link = self.meter.connect().create_link(io_timeout=10)
        link.write("CONF:VOLT (@1:8);:TRIG:COUN 4")
        link.write("TRIG:SOUR EXT;:INIT;*OPC?")
        start(link, link.calls.read())
        self.assertRegex(self.meter.explain().end(), "would not +EXTernal trigger\n")


class Random(unittest.TestCase):
    """Random sessions: what is derived is what the program says, and whatever is said to end a wait does."""

    def test_each(self) -> None:
        counts: Counter[str] = collections.Counter()
        with concurrent.futures.ThreadPoolExecutor(AT_ONCE) as pool:
            for seed, checks in enumerate(pool.map(checked, range(SEEDS))):
                with self.subTest(seed):
                    self.assertEqual(checks.faults, [])
                    counts += checks.counts
        self.assertGreater(min(counts[one] for one in ("waits", "flips", "polls", "tries")), 9)


if __name__ == "__main__":
    if sys.argv[1:] == ["--write"]:
        FOLDER.mkdir(exist_ok=True)
        for one in SESSIONS:
            FOLDER.joinpath(one + ".txt").write_text(text_of(one), encoding="utf-8")
        FOLDER.joinpath(STORED + ".replay").write_text(
            "\n".join(script_of(STORED)) + "\n", encoding="utf-8"
        )
    else:
        unittest.main()
