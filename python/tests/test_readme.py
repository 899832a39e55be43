"""The pieces of Python in README.md that need only the standard library do what README.md says.

tests/pyvisa/test_scripts.py has the piece with PyVISA, tests/pytest_plugin/test_plugin.py the one with pytest.
"""

from __future__ import annotations

import pathlib
import re
import unittest
from unittest import mock

from scanvolt.program import Server
from scanvolt.virtual import Meter
from scanvolt.vxi11 import Client, DeviceError

TEXT = pathlib.Path(__file__).resolve().parent.parent.joinpath("README.md").read_text()
PIECES = re.findall(r"```python\n(.*?)```", TEXT, re.DOTALL)
# What each piece has, in their order.
TYPED = (
    "meter.clock == 2048",
    "import pyvisa",
    "import pytest",
    "meter.faults.next",
    "meter.threads(2)",
    'with Client("127',
    "with Server(",
)


class Readme(unittest.TestCase):
    """The pieces in their order."""

    def test_each_piece_is_typed(self) -> None:
        """A new piece needs a test that types it. Each piece of Python is marked as such."""
        self.assertEqual(len(PIECES), len(TYPED))
        for piece, words in zip(PIECES, TYPED):
            self.assertIn(words, piece)
        fenced = re.findall(r"^[ >]*```(.*?)\n(.*?)```", TEXT, re.DOTALL | re.MULTILINE)
        self.assertEqual(
            [mark for mark, piece in fenced if mark or "import" in piece], ["python"] * len(TYPED)
        )

    def test_virtual_time(self) -> None:
        exec(compile(PIECES[0], "README.md", "exec"), {})

    def test_a_call_that_waits(self) -> None:
        """The call that the table names waits for the lock, and is then granted."""
        call = re.search(r"`connection.start\(call\)` \| starts a call such as `(.*?)`;", TEXT)
        assert call is not None
        with Meter() as meter, meter.connect() as connection, connection.create_link() as link:
            other = meter.connect().create_link(lock=True)
            started = connection.start(eval(call[1], {"link": link}))
            meter.advance(4999)
            self.assertFalse(started.done)
            other.unlock()
            self.assertEqual((started.result(), started.clock), (None, 4999))
            self.assertRaises(DeviceError, other.lock)

    def test_a_fault_on_order(self) -> None:
        self.assertEqual(self.printed(self.piece("meter.faults.next")), [(17,)])

    def test_two_controllers(self) -> None:
        self.assertEqual(self.printed(self.piece("meter.threads(2)")), [(20,)])

    @staticmethod
    def piece(words: str) -> str:
        """The piece that has these words."""
        return str(next(piece for piece in PIECES if words in piece))

    @staticmethod
    def printed(piece: str) -> list[tuple[object, ...]]:
        """What a piece prints."""
        with mock.patch("builtins.print") as printed:
            exec(compile(piece, "README.md", "exec"), {})
        return [call[0] for call in printed.call_args_list]

    def test_length(self) -> None:
        """It is for someone who has ten minutes."""
        self.assertLessEqual(len(TEXT.split()), 1200)

    def test_sockets(self) -> None:
        """Also after a client that died while a unit of its message waited."""
        with Server() as server:
            with Client(port=server.core) as died:
                died.create_link().write("TRIG:SOUR EXT;:INIT;*OPC?")
            piece = self.piece('with Client("127').replace("4111", str(server.port_mapper))
            self.assertEqual(self.printed(piece), [(b"meter 1", 68)])

    def test_a_server_whose_inputs_change(self) -> None:
        self.assertIn("input 3 = 2.5 V", str(self.printed(self.piece("with Server("))[0][0]))


if __name__ == "__main__":
    unittest.main()
