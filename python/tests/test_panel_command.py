"""The command `scanvolt-panel`."""

from __future__ import annotations

import pathlib
import re
import signal
import subprocess
import sys
import tempfile
import time
import unittest
import urllib.request

from scanvolt.live import Control
from scanvolt.program import free_ports
from scanvolt.vxi11 import Client

from .processes import TOP, goes, is_there, kill

PANEL = [sys.executable, "-m", "scanvolt.panel"]


def children_of(number: int) -> list[int]:
    """The processes that a process started."""
    return [
        int(one)
        for one in pathlib.Path(f"/proc/{number}/task/{number}/children").read_text().split()
    ]


class Command(unittest.TestCase):
    """Runs the command."""

    def setUp(self) -> None:
        folder = tempfile.TemporaryDirectory()
        self.addCleanup(folder.cleanup)
        self.folder = pathlib.Path(folder.name)

    def start(self, *words: str) -> subprocess.Popen[str]:
        """Starts a panel."""
        found = subprocess.Popen(
            [*PANEL, *words], cwd=TOP, stdout=subprocess.PIPE, stderr=subprocess.PIPE, text=True
        )
        self.addCleanup(found.communicate)
        self.addCleanup(kill, found.pid)
        return found

    def told(self, panel: subprocess.Popen[str]) -> tuple[str, list[int]]:
        """What a panel prints: the address of the page, and the ports of the instrument."""
        assert panel.stdout is not None
        address, ready = panel.stdout.readline(), panel.stdout.readline()
        self.assertRegex(address, r"^panel http://127\.0\.0\.1:[0-9]+/\?token=[\w-]{20,}\n$")
        self.assertRegex(ready, "^ready [0-9]+ [0-9]+ [0-9]+ [0-9]+\n$")
        return address.split()[1], [int(one) for one in ready.split()[1:]]

    def fault(self, *words: str) -> str:
        """The line that says why the command can't be done."""
        done = subprocess.run([*PANEL, *words], cwd=TOP, capture_output=True, text=True, timeout=60)
        self.assertEqual((done.returncode, done.stdout), (2, ""))
        return done.stderr.strip().splitlines()[-1]

    def test_it_serves_until_a_signal(self) -> None:
        for how in (signal.SIGINT, signal.SIGTERM, signal.SIGHUP):
            with self.subTest(how):
                panel = self.start()
                address, ports = self.told(panel)
                self.assertIn(b"scanvolt panel", urllib.request.urlopen(address).read())
                control = Control(ports[3])
                control.pass_by()
                children = children_of(panel.pid)
                self.assertTrue(children)
                panel.send_signal(how)
                self.assertEqual(panel.wait(10), 0)
                self.assertEqual(panel.stderr.read() if panel.stderr else "", "")
                self.assertTrue(all(goes(one) for one in children))
                control.close()

    def test_killed_it_leaves_no_server(self) -> None:
        panel = self.start()
        self.told(panel)
        children = children_of(panel.pid)
        kill(panel.pid)
        self.assertTrue(all(goes(one) for one in children))

    def test_ports_scenario_and_record(self) -> None:
        scenario, record = self.folder / "stand.scenario", self.folder / "session.replay"
        scenario.write_text("0 input 3 2500000\n20 external\n")
        port, core, abort = free_ports(3)
        panel = self.start(
            "--port",
            str(port),
            "--core",
            str(core),
            "--abort",
            str(abort),
            "--scenario",
            str(scenario),
            "--record",
            str(record),
        )
        address, ports = self.told(panel)
        self.assertEqual(
            (ports[:2], address.partition("/?")[0]), ([core, abort], f"http://127.0.0.1:{port}")
        )
        control = Control(ports[3])
        control.set_input(4, 1)
        control.close()
        time.sleep(0.3)
        panel.send_signal(signal.SIGTERM)
        self.assertEqual(panel.wait(10), 0)
        text = re.sub("tick [0-9]+\n", "", record.read_text())
        self.assertEqual(
            sorted(text.splitlines()), ["external", "input 3 2500000", "input 4 1000000"]
        )

    def test_bad_words(self) -> None:
        for words in (
            ["--port", "65536"],
            ["--core", "x"],
            ["--abort", "-1"],
            ["--control", "\u0662"],
            ["--portmap", "4.0"],
        ):
            told = self.fault(*words).replace("\\u0662", "\u0662")
            self.assertEqual(
                told,
                f"python3 -m scanvolt.panel: not a port, 1 to 65535, or 0 for a free one: {words[1]}",
            )
        self.assertIn("neither an option nor CHANNELS=SHAPE: file", self.fault("file"))
        self.assertIn("and not from both", self.fault("1=1", "--scenario", "x"))

    def test_voltages(self) -> None:
        """As scanvolt-serve takes them. The scenario that they make is gone."""
        before = set(pathlib.Path(tempfile.gettempdir()).glob("scanvolt-*.scenario"))
        ports = self.told(self.start("1=1.25", "2:3=-0.5", "--port", "0"))[1]
        with Client(port=ports[0]) as client, client.create_link() as link:
            self.assertEqual(link.query("MEAS:VOLT? (@1:3)"), "+1.250000,-0.500000,-0.500000")
        self.assertEqual(
            set(pathlib.Path(tempfile.gettempdir()).glob("scanvolt-*.scenario")) - before, set()
        )

    def test_what_can_not_be_done(self) -> None:
        bad = self.folder / "bad.scenario"
        bad.write_text("0 input 1 1.5\n")
        self.assertRegex(
            self.fault("--scenario", str(bad)),
            "^python3 -m scanvolt.panel: bad line 1 of the scenario",
        )
        self.assertEqual(
            self.fault("--scenario", "none"),
            "python3 -m scanvolt.panel: none: No such file or directory",
        )
        self.assertEqual(
            self.fault("--record", "/no/file"),
            "python3 -m scanvolt.panel: /no/file: No such file or directory",
        )
        self.assertRegex(self.fault("--program", "/bin/false"), "/bin/false isn't scanvolt")
        panel = self.start()
        address, ports = self.told(panel)
        told = self.fault("--core", str(ports[0]))
        self.assertRegex(
            told, f"^python3 -m scanvolt.panel: port {ports[0]} is in use by process [0-9]+, "
        )
        self.assertRegex(
            self.fault("--port", re.findall(":([0-9]+)/", address)[0]),
            "port [0-9]+: Address already in use$",
        )
        self.assertTrue(is_there(panel.pid))

    def test_help(self) -> None:
        done = subprocess.run(
            [*PANEL, "--help"], cwd=TOP, capture_output=True, text=True, timeout=60
        )
        self.assertEqual(done.returncode, 0)
        for word in (
            "--record FILE",
            "GET /state",
            "POST /inputs/3",
            "POST /external",
            "Status: 0; or 2",
        ):
            self.assertIn(word, done.stdout)


if __name__ == "__main__":
    unittest.main()
