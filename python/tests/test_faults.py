"""Programs that are missing, end, are killed, or print what they shouldn't. No process remains after any of that."""

from __future__ import annotations

import gc
import os
import pathlib
import signal
import subprocess
import sys
import tempfile
import threading
import time
import unittest
from unittest import mock

from scanvolt import program, replay
from scanvolt.program import ProgramError, Server, find_program
from scanvolt.virtual import Meter

from .limits import within
from .processes import TOP, goes, is_there, kill, script, stop


class Missing(unittest.TestCase):
    """The program is missing."""

    def test_what_is_named(self) -> None:
        for path in ("/nonexistent/scanvolt", TOP, __file__):
            with self.subTest(path), mock.patch.dict(os.environ, SCANVOLT=path):
                self.assertRaisesRegex(ProgramError, "SCANVOLT names no program: /", Meter)
                self.assertRaisesRegex(ProgramError, "SCANVOLT names no program: /", Server)

    def test_nothing_found(self) -> None:
        nowhere = mock.patch.dict(os.environ, {"SCANVOLT": "", "PATH": ""})
        with nowhere, mock.patch.object(program, "BUILT", ()):
            self.assertRaisesRegex(
                ProgramError, "^scanvolt isn't found: set SCANVOLT .*BUILD=1`$", Meter
            )

    def test_the_path_and_a_checkout(self) -> None:
        with tempfile.TemporaryDirectory() as folder:
            built = pathlib.Path(folder, "crates/scanvolt/out/scanvolt")
            built.parent.mkdir(parents=True)
            built.symlink_to("/bin/true")
            below = pathlib.Path(folder, "examples/driver")
            with mock.patch.dict(os.environ, {"SCANVOLT": "", "PATH": ""}):
                found = find_program(below)
                self.assertEqual(found, os.path.join(os.path.realpath(folder), program.BUILT[0]))
            with mock.patch.dict(os.environ, {"SCANVOLT": "", "PATH": str(built.parent)}):
                self.assertEqual(find_program(), str(built))

    def test_the_wheel(self) -> None:
        """Its program comes after what SCANVOLT names, and before PATH and a checkout."""
        with script("exit 0") as inside, script("exit 0") as named, mock.patch.object(
            program, "IN_WHEEL", inside
        ):
            with mock.patch.dict(os.environ, {"SCANVOLT": ""}):
                self.assertEqual(program.found(), (inside, "the wheel"))
            with mock.patch.dict(os.environ, {"SCANVOLT": named}):
                self.assertEqual(program.found(), (named, "SCANVOLT"))
            on_path = os.path.join(os.path.dirname(named), "scanvolt")
            os.rename(named, on_path)
            os.chmod(inside, 0o644)
            with mock.patch.dict(os.environ, {"SCANVOLT": "", "PATH": os.path.dirname(on_path)}):
                self.assertEqual(program.found(), (on_path, "PATH"))

    def test_what_cannot_be_run(self) -> None:
        with self.assertRaisesRegex(ProgramError, "can't be run: /nonexistent: No such file"):
            Meter("/nonexistent")
        self.assertRaisesRegex(ProgramError, "can't be run", Server, None, "/nonexistent")


class Ends(unittest.TestCase):
    """Programs that end, or print something else than expected."""

    def test_other_programs(self) -> None:
        for text, told in (
            ("exit 0", "ended with status 0$"),
            ("echo fault >&2; exit 3", "status 3: fault$"),
            ("kill -9 $$", "ended by signal 9$"),
            ("exec >&-; exec sleep 60", "ended by signal 9$"),
        ):
            with self.subTest(text), script(text) as path:
                self.assertRaisesRegex(ProgramError, told, Meter, path)
        with script("echo fault >&2; exit 3") as path:
            self.assertRaisesRegex(ProgramError, "with status 3: fault$", Server, None, path)

    def test_a_program_that_says_nothing(self) -> None:
        for text in "exec sleep 60", "exec cat":
            with script(text) as path, mock.patch.object(
                replay, "PATIENCE", 0.2
            ), mock.patch.object(replay, "check_fits"):
                self.assertRaisesRegex(ProgramError, "says nothing for 0.2 s", Meter, path)

    def test_a_bad_line(self) -> None:
        meter = Meter()
        with self.assertRaisesRegex(ProgramError, "with status 2: scanvolt: bad line 2$"):
            meter._replay.do(b"nonsense\n")
        self.assertRaisesRegex(ProgramError, "ended before", meter.set_input, 1, 1)

    def test_killed_between_calls(self) -> None:
        with Meter() as meter, meter.connect() as connection:
            link = connection.create_link()
            meter._replay.program.process.kill()
            self.assertRaisesRegex(ProgramError, "ended by signal 9", link.readstb)
            self.assertRaises(ConnectionError, link.readstb)
            self.assertRaises(ProgramError, meter.connect)

    def test_killed_within_a_call(self) -> None:
        with Meter(patience=10**9) as meter, meter.connect() as connection:
            link = connection.create_link(io_timeout=10**9)
            link.write("TRIG:SOUR EXT;:INIT;*OPC?")
            other = meter.connect()
            reading = other.start(other.create_link(io_timeout=10**9).calls.read())
            killer = threading.Timer(0.3, lambda: meter._replay.program.process.kill())
            killer.start()
            self.addCleanup(killer.join)
            self.assertRaisesRegex(ProgramError, "ended by signal 9", link.read)
            self.assertRaisesRegex(ProgramError, "ended by signal 9", reading.result)

    def test_another_program_in_its_place(self) -> None:
        """A second program that prints something else isn't accepted in place of the first."""
        with Meter() as meter, meter.connect() as connection, connection.create_link() as link:
            link.write("CONF:VOLT (@1:128)")
            meter._replay.checksum += 1
            self.assertRaisesRegex(ProgramError, "prints otherwise", link.query, "READ?")

    def test_closed(self) -> None:
        meter = Meter()
        connection = meter.connect()
        link = connection.create_link()
        meter.close()
        meter.close()
        self.assertRaises(ConnectionError, link.readstb)
        self.assertRaises(ConnectionError, meter.advance, 1)
        connection.close()


class NothingLeft(unittest.TestCase):
    """No process remains."""

    def test_garbage(self) -> None:
        meter = Meter()
        meter.connect().create_link()
        number = meter._replay.program.process.pid
        self.assertTrue(is_there(number))
        del meter
        gc.collect()
        self.assertFalse(is_there(number))

    def test_an_exception(self) -> None:
        with self.assertRaises(LookupError), Meter() as meter:
            number = meter._replay.program.process.pid
            raise LookupError
        self.assertFalse(is_there(number))

    def test_python_ends(self) -> None:
        """No process remains when Python comes to its end, gets Ctrl-C during a call, or is killed."""
        for how in (None, signal.SIGINT, signal.SIGTERM, signal.SIGKILL):
            with self.subTest(how):
                self.leaves(how)

    def test_a_program_that_is_stopped(self) -> None:
        """It ends with the process that started it, even if that is killed, and it closes without waiting."""
        self.leaves(signal.SIGKILL, stopped=True)
        meter = Meter()
        number = meter._replay.program.process.pid
        stop(number)
        began = time.monotonic()
        meter.close()
        self.assertLess(time.monotonic() - began, within(0.8))
        self.assertFalse(is_there(number))

    def leaves(self, how: signal.Signals | None, stopped: bool = False) -> None:
        # If these tests were started in the background, Ctrl-C may still be ignored.
        text = (
            "import signal\nsignal.signal(signal.SIGINT, signal.default_int_handler)\n"
            "from scanvolt.virtual import Meter\nmeter = Meter()\n"
            "print(meter._replay.program.process.pid, flush=True)\n"
        ) + ("meter.connect()\nmeter.advance(2 ** 32 - 1)\n" if how else "")
        child = subprocess.Popen(
            [sys.executable, "-c", text],
            stdout=subprocess.PIPE,
            stderr=subprocess.DEVNULL,
            cwd=TOP,
            text=True,
        )
        assert child.stdout is not None
        number = int(child.stdout.readline())
        if how is not None:
            self.assertTrue(is_there(number))
            if stopped:
                stop(number)
            child.send_signal(how)
        try:
            child.communicate(timeout=20)
            self.assertTrue(goes(number))
        finally:
            child.kill()
            child.communicate()
            kill(number)


if __name__ == "__main__":
    unittest.main()
