"""Scripts with PyVISA, each run to its end: they print what they should, and nothing besides."""

from __future__ import annotations

import pathlib
import re
import subprocess
import sys
import tempfile
import unittest

TOP = pathlib.Path(__file__).resolve().parents[2]
PIECES = re.findall(r"```python\n(.*?)```", TOP.joinpath("README.md").read_text(), re.DOTALL)
OPENED = """\
import os
import signal
import pyvisa
from pyvisa.constants import EventMechanism, EventType
manager = pyvisa.ResourceManager("@scanvolt")
resource = manager.open_resource("TCPIP::scanvolt::INSTR", read_termination="\\n")
resource.enable_event(EventType.service_request, EventMechanism.queue)
other = manager.open_resource("TCPIP::scanvolt2::INSTR")
process = manager.visalib.meter(resource)._replay.program.process
"""
KILLED = OPENED + "process.kill()\nprocess.wait()\n"


class Scripts(unittest.TestCase):
    """A script is written to a file, and run by a Python of its own, which makes each warning an error."""

    def prints(self, text: str, expected: str) -> None:
        with tempfile.TemporaryDirectory() as folder:
            path = pathlib.Path(folder, "script.py")
            path.write_text(f"import sys\nsys.path.insert(0, {str(TOP)!r})\n" + text)
            done = subprocess.run(
                [sys.executable, "-W", "error", str(path)],
                stdin=subprocess.DEVNULL,
                capture_output=True,
                text=True,
                timeout=60,
            )
        self.assertEqual((done.stdout, done.stderr, done.returncode), (expected, "", 0))

    def test_the_readme(self) -> None:
        """The piece with PyVISA in README.md, as it stands there."""
        (piece,) = (piece for piece in PIECES if "import pyvisa\n" in piece)
        self.prints(piece, "+1.250000\n")

    def test_nothing_is_closed(self) -> None:
        self.prints(OPENED + "print(resource.query('*IDN?'))", "SCANVOLT,SV32,0,1.0\n")

    def test_a_program_that_was_killed(self) -> None:
        for closings in (
            "",
            "resource.close()",
            "manager.close()",
            "resource.close(); manager.close()",
            "resource.disable_event(EventType.service_request, EventMechanism.queue)",
        ):
            with self.subTest(closings):
                self.prints(KILLED + closings, "")


if __name__ == "__main__":
    unittest.main()
