"""scanvolt-serve: ports, voltages, what it tells, and how it ends."""

from __future__ import annotations

import os
import pathlib
import re
import select
import signal
import socket
import subprocess
import sys
import tempfile
import time
import unittest

from scanvolt.explaining.explanation import Explanation
from scanvolt.program import find_program
from scanvolt.vxi11 import Client

from .processes import TOP, goes, is_there, script

COMMAND = [sys.executable, "-m", "scanvolt.serving"]


class Serving(unittest.TestCase):
    """Each test starts the command."""

    def start(self, *words: str) -> subprocess.Popen[str]:
        started = subprocess.Popen(
            COMMAND + list(words),
            cwd=TOP,
            stdout=subprocess.PIPE,
            stderr=subprocess.PIPE,
            text=True,
        )
        self.addCleanup(self.end, started)
        return started

    @staticmethod
    def end(started: subprocess.Popen[str]) -> None:
        started.kill()
        started.communicate(timeout=20)

    def ports(self, started: subprocess.Popen[str]) -> list[int]:
        """The ports in the line that says that it is ready."""
        assert started.stdout is not None
        self.assertTrue(select.select([started.stdout], [], [], 60)[0])
        line = started.stdout.readline()
        self.assertRegex(line, r"^ready( \d+){3,4}$")
        return [int(one) for one in line.split()[1:]]

    def refused(self, *words: str) -> tuple[int, str]:
        done = subprocess.run(
            COMMAND + list(words), cwd=TOP, capture_output=True, text=True, timeout=60
        )
        return done.returncode, done.stderr

    def test_without_any_option(self) -> None:
        started = self.start()
        core, _, mapper = self.ports(started)
        with Client(port_mapper=mapper) as client, client.create_link() as link:
            self.assertEqual(link.query("*IDN?"), "SCANVOLT,SV32,0,1.0")
        started.terminate()
        _, told = started.communicate(timeout=20)
        self.assertEqual(started.returncode, -signal.SIGTERM)
        self.assertIn(f"scanvolt-serve: vxi11: scanvolt.vxi11.Client(port={core})\n", told)
        self.assertIn(f"PMAP_PORT = {mapper}, then open TCPIP::127.0.0.1::inst0::INSTR\n", told)
        self.assertRegex(told, r"scanvolt-serve: ready at \d+\.\d{6}, in seconds since 1970\n")

    def test_voltages(self) -> None:
        before = set(pathlib.Path(tempfile.gettempdir()).glob("scanvolt-*.scenario"))
        core, _, _ = self.ports(self.start("1=1.25", "2:3=sine:0:5:10"))
        with Client(port=core) as client, client.create_link() as link:
            self.assertEqual(link.query("MEAS:VOLT? (@1)"), "+1.250000")
            self.assertNotEqual(link.query("MEAS:VOLT? (@2)"), "+1.250000")
        self.assertEqual(
            set(pathlib.Path(tempfile.gettempdir()).glob("scanvolt-*.scenario")) - before, set()
        )

    def test_a_port_that_is_in_use(self) -> None:
        with socket.create_server(("127.0.0.1", 0)) as taken:
            number = taken.getsockname()[1]
            status, told = self.refused("--core", str(number))
        name = pathlib.Path("/proc/self/comm").read_text().strip()
        self.assertEqual(
            (status, told),
            (2, f"scanvolt-serve: port {number} is in use by process {os.getpid()}, {name}\n"),
        )

    def test_a_port_that_is_given_twice(self) -> None:
        with socket.create_server(("127.0.0.1", 0)) as free:
            number = free.getsockname()[1]
        self.assertEqual(
            self.refused("--core", str(number), "--abort", str(number)),
            (2, f"scanvolt-serve: port {number} is given twice\n"),
        )

    def test_a_named_port(self) -> None:
        with socket.create_server(("127.0.0.1", 0)) as free:
            number = free.getsockname()[1]
        self.assertEqual(self.ports(self.start("--abort", str(number)))[1], number)

    def test_the_record_and_the_control_port(self) -> None:
        """Both are the program's. The record has the voltage that the control port set, and explains the session."""
        with tempfile.TemporaryDirectory() as folder:
            path = os.path.join(folder, "session.replay")
            started = self.start("--control", "0", "--record", path)
            core, abort, _, control = self.ports(started)
            with socket.create_connection(("127.0.0.1", control), 20) as one, one.makefile(
                "rb"
            ) as answers:
                one.sendall(b"input 3 2500000\n")
                self.assertEqual(answers.readline(), b"ok\n")
            with Client(port=core) as client, client.create_link() as link:
                self.assertEqual(link.query("MEAS:VOLT? (@3)"), "+2.500000")
            started.terminate()
            told = started.communicate(timeout=20)[1]
            self.assertIn(
                f"scanvolt-serve: port {control} of 127.0.0.1 sets inputs, by lines such as", told
            )
            self.assertIn(
                f"scanvolt-serve: record: scanvolt-explain {path} --core {core} --abort {abort}\n",
                told,
            )
            self.assertIn("input 3 2500000\n", pathlib.Path(path).read_text())
            self.assertIn(
                "MEAS:VOLT",
                "".join(
                    Explanation(pathlib.Path(path).read_text().splitlines(), find_program()).lines()
                ),
            )

    def test_it_ends_with_who_started_it(self) -> None:
        """A shell starts it and is killed; with --stay it goes on."""
        for more, stays in ((), False), (("--stay",), True):
            with self.subTest(more):
                shell = subprocess.Popen(
                    ["sh", "-c", '"$@" & echo $!; wait', "sh", *COMMAND, *more],
                    cwd=TOP,
                    stdout=subprocess.PIPE,
                    stderr=subprocess.DEVNULL,
                    text=True,
                )
                assert shell.stdout is not None
                number = int(shell.stdout.readline())
                self.assertRegex(shell.stdout.readline(), "^ready ")
                shell.kill()
                shell.wait()
                if stays:
                    time.sleep(1)
                    self.assertTrue(is_there(number))
                    os.kill(number, signal.SIGTERM)
                self.assertTrue(goes(number))
                shell.stdout.close()

    def test_what_cannot_be_taken(self) -> None:
        for given, told in (
            (("--core", "70000"), "not a port, 1 to 65535, or 0 for a free one: 70000"),
            (("--control", "x"), "not a port, 1 to 65535, or 0 for a free one: x"),
            (("1=x",), "is no number, or too large a one: x"),
            (("nonsense",), "neither an option nor"),
            (("--seconds", "5"), "--seconds is for shapes"),
            (("1=1", "--scenario", "x"), "and not from both"),
        ):
            with self.subTest(given):
                status, text = self.refused(*given)
                self.assertEqual(status, 2)
                self.assertRegex(text, f"^scanvolt-serve: [^\n]*{re.escape(told)}[^\n]*\n$")

    def test_programs(self) -> None:
        self.assertEqual(self.refused("--program", "/nonexistent/scanvolt")[0], 3)
        with script("exit 4") as path:
            status, told = self.refused("--program", path)
        self.assertEqual(status, 3)
        self.assertIn("doesn't fit this package", told)
        status, told = self.refused("--sweeps", "none")
        self.assertEqual(status, 2)
        self.assertTrue(
            told.endswith(
                "scanvolt: bad words\nscanvolt-serve: `man scanvolt`, in a checkout `man docs/scanvolt.1`, "
                "has the words that the program takes\n"
            )
        )
        self.assertEqual(self.refused("--sweeps", "10")[0], 0)
        self.assertEqual(self.refused("--scenario", "/nonexistent")[0], 3)

    def test_a_record_that_cannot_be_made(self) -> None:
        """The scenario that shapes made is gone. With a bad shape, there is no record either."""
        before = set(pathlib.Path(tempfile.gettempdir()).glob("scanvolt-*.scenario"))
        told = "scanvolt-serve: /no/file: No such file or directory\n"
        self.assertEqual(self.refused("--record", "/no/file", "1=1"), (3, told))
        self.assertEqual(
            set(pathlib.Path(tempfile.gettempdir()).glob("scanvolt-*.scenario")) - before, set()
        )
        with tempfile.TemporaryDirectory() as folder:
            self.assertEqual(
                self.refused("--record", os.path.join(folder, "session.replay"), "1=x")[0], 2
            )
            self.assertEqual(os.listdir(folder), [])


if __name__ == "__main__":
    unittest.main()
