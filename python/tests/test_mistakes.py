"""A driver's first mistakes: each is told at once, in clear words, and the instrument goes on after it."""

from __future__ import annotations

import fractions
import subprocess
import sys
import unittest
from collections.abc import Callable
from typing import Any

from scanvolt.program import ProgramError, Server
from scanvolt.stimulus import microvolts
from scanvolt.virtual import Meter
from scanvolt.vxi11 import Client, ProgramUnavailable

from .processes import TOP

Mistake = tuple[Callable[[], object], type[Exception], str]
IDENTITY = "SCANVOLT,SV32,0,1.0"
# Each child says what it finds; the parent goes on with its meter after that.
FORKS = """
import os, sys
from scanvolt.virtual import Meter
meter = Meter()
link = meter.connect().create_link()
child = os.fork()
if child == 0:
    try:
        with meter:
            link.query("*IDN?")
    except Exception as fault:
        print("%s: %s" % (type(fault).__name__, fault), flush=True)
    sys.exit(5)
print(os.waitstatus_to_exitcode(os.waitpid(child, 0)[1]), link.query("*IDN?"))
meter.close()
"""


def of_link(link: Any) -> dict[str, Mistake]:
    """Wrong arguments of a link's methods."""
    return {
        "a number as a message": (
            lambda: link.write(5),
            TypeError,
            "a message is text or bytes, and not 5",
        ),
        "no message": (
            lambda: link.query(None),
            TypeError,
            "a message is text or bytes, and not None",
        ),
        "a list": (
            lambda: link.write([42]),
            TypeError,
            r"a message is text or bytes, and not \[42\]",
        ),
        "a size in words": (
            lambda: link.read("5"),
            TypeError,
            "a read wants a number of bytes, .* and not '5'",
        ),
        "a size below 0": (
            lambda: link.read(-1),
            ValueError,
            "a read wants a number of bytes, .* and not -1",
        ),
        "a piece below 0": (
            lambda: link.read_piece(-1),
            ValueError,
            "a read wants a number of bytes, .* and not -1",
        ),
        "a terminator in words": (
            lambda: link.read(5, "5"),
            TypeError,
            "a read wants a termination character, .* from 0 to 255, and not '5'",
        ),
        "a great terminator": (
            lambda: link.read(5, 256),
            ValueError,
            "termination character, .* and not 256",
        ),
        "a handle in words": (
            lambda: link.enable_srq("5"),
            TypeError,
            "a handle is bytes, .* and not '5'",
        ),
    }


def of_core(core: Any) -> dict[str, Mistake]:
    """Wrong arguments of a connection's methods."""
    return {
        "a device in bytes": (
            lambda: core.create_link(b"inst0"),
            TypeError,
            "a device is text, .* and not b'inst0'",
        ),
        "a device's number": (
            lambda: core.create_link(0),
            TypeError,
            "a device is text, .* and not 0",
        ),
        "no function": (
            lambda: core.listen("print"),
            TypeError,
            "callback of .* is a function, and not 'print'",
        ),
    }


class Mistakes(unittest.TestCase):
    """In virtual time and over sockets."""

    def told(self, mistakes: dict[str, Mistake]) -> None:
        for name, (mistake, kind, text) in mistakes.items():
            with self.subTest(name), self.assertRaisesRegex(kind, text):
                mistake()

    def test_virtual_time(self) -> None:
        word: Any = "*IDN?"
        with Meter() as meter, meter.connect() as connection, connection.create_link() as link:
            self.told({**of_link(link), **of_core(connection)})
            self.told(
                {
                    "no call": (
                        lambda: connection.start(word),
                        TypeError,
                        "start wants a call, .* not '.IDN.'",
                    )
                }
            )
            self.assertEqual(
                (link.query("*IDN?"), link.query(bytearray(b"SYST:ERR?"))),
                (IDENTITY, '0,"No error"'),
            )
            self.assertFalse(connection.has_channel)
            self.assertEqual(meter.clock, 0)

    def test_sockets(self) -> None:
        with Server() as server, Client(port=server.core) as client, client.create_link() as link:
            self.told({**of_link(link), **of_core(client)})
            self.assertEqual(
                (link.query("*IDN?"), link.query("SYST:ERR?")), (IDENTITY, '0,"No error"')
            )

    def test_ports(self) -> None:
        """A port that can't be one, and that of another channel."""
        word: Any = "4096"
        for port, kind in ((word, TypeError), (99999, ValueError), (0, ValueError)):
            with self.subTest(port=port), self.assertRaisesRegex(
                kind, f"a connection wants a port, .* not {port!r}"
            ):
                Client(port=port)
        with Server() as server, Client(port=server.abort) as client:
            with self.assertRaisesRegex(
                ProgramUnavailable, "create_link: .*Is it that of the core channel"
            ):
                client.create_link()
            with self.assertRaisesRegex(
                ProgramUnavailable, "GETPORT: .*Is it that of the port mapper"
            ):
                Client(port_mapper=server.core)


class Inputs(unittest.TestCase):
    """Channels and voltages."""

    def test_channels(self) -> None:
        with Meter() as meter, meter.connect() as connection, connection.create_link() as link:
            wrong: Any
            for wrong in "1", 1.0, 1.5, None, True, 0, 129, -1:
                kind = ValueError if type(wrong) is int else TypeError
                text = f"an input wants a channel, a whole number from 1 to 128, and not {wrong!r}$"
                with self.subTest(wrong), self.assertRaisesRegex(kind, text):
                    meter.set_input(wrong, 5)
            self.assertEqual(link.query("MEAS:VOLT? (@1)"), "+0.000000")

    def test_numbers_of_numpy(self) -> None:
        """They aren't written as Python's numbers, or aren't floats."""

        class Double(float):
            def __repr__(self) -> str:
                return f"np.float64({float(self)!r})"

        class Single:
            def __float__(self) -> float:
                return 1.2500000001

        class Whole:
            def __index__(self) -> int:
                return 5

        number: Any
        for number, found in (
            (Double(1.25), 1250000),
            (Single(), 1250000),
            (Whole(), 5000000),
            (fractions.Fraction(1, 3), 333333),
        ):
            self.assertEqual(microvolts(number), found)

    def test_what_is_no_voltage(self) -> None:
        wrong: Any
        for wrong in b"1", [1], (0, (1,), 0), None, 1j, "1 V":
            with self.subTest(wrong), self.assertRaisesRegex(ValueError, "no voltage: "):
                microvolts(wrong)


class Off(unittest.TestCase):
    """A meter that was closed, ended or forked."""

    def test_after_its_block(self) -> None:
        """As README.md says, each call raises ConnectionError. That holds for a second block, too."""
        with Meter() as meter:
            connection = meter.connect()
        uses: tuple[Callable[[], object], ...] = (
            meter.connect,
            meter.external,
            lambda: meter.advance(1),
            lambda: meter.set_input(1, 1),
        )
        for use in uses:
            with self.subTest(use), self.assertRaisesRegex(
                ConnectionError, "is closed: its `with` block ended"
            ):
                use()
        with self.assertRaisesRegex(ConnectionError, "the meter is closed"), meter:
            meter.connect()
        self.assertRaisesRegex(ConnectionError, "the connection is closed", connection.create_link)

    def test_after_its_program(self) -> None:
        """The first reason is kept."""
        with Meter() as meter:
            meter._replay.program.process.kill()
            self.assertRaisesRegex(ProgramError, "^the program ended by signal 9", meter.connect)
        self.assertRaisesRegex(
            ProgramError, "ended before: the program ended by signal 9", meter.connect
        )

    def test_a_fork(self) -> None:
        """It is told at once, warns of nothing, and leaves the meter to the process that made it."""
        done = subprocess.run(
            [sys.executable, "-W", "always", "-c", FORKS],
            cwd=TOP,
            stdout=subprocess.PIPE,
            stderr=subprocess.STDOUT,
            text=True,
            timeout=60,
        )
        self.assertRegex(
            done.stdout,
            "^ProgramError: this process was forked from .*; make a meter in each process "
            f"that uses one\n5 {IDENTITY}\n$",
        )


if __name__ == "__main__":
    unittest.main()
