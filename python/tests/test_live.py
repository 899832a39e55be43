"""A server whose inputs change while it runs, and which records what happens."""

from __future__ import annotations

import os
import pathlib
import re
import socket
import subprocess
import tempfile
import threading
import time
import unittest
from typing import Any
from unittest import mock

from scanvolt import live
from scanvolt.explaining import command
from scanvolt.explaining.explanation import Explanation
from scanvolt.live import Control, ControlError
from scanvolt.program import ProgramError, Server, find_program
from scanvolt.stimulus import Volts
from scanvolt.vxi11 import Client, DeviceError, Link

from .processes import TOP, kill


def replayed(server: Server, script: list[str]) -> list[str]:
    """What a replay of a record prints, by the server's own ports."""
    done = subprocess.run(
        [server.program, "replay", "--core", str(server.core), "--abort", str(server.abort)],
        input="\n".join(script) + "\n",
        capture_output=True,
        text=True,
        check=True,
        timeout=60,
    )
    return done.stdout.splitlines()


class Relay:
    """A control port that answers one line as it is told, or hangs up; for one client."""

    def __init__(self, answer: bytes) -> None:
        self.listener = socket.create_server(("127.0.0.1", 0))
        self.port = self.listener.getsockname()[1]
        self.lines: list[bytes] = []
        self.thread = threading.Thread(target=self._serve, args=(answer,))
        self.thread.start()

    def _serve(self, answer: bytes) -> None:
        connection, _ = self.listener.accept()
        with self.listener, connection:
            while True:
                line = connection.recv(100)
                if line:
                    self.lines.append(line)
                if not line or not answer:
                    return
                connection.sendall(answer)


class Inputs(unittest.TestCase):
    """Voltages and triggers, while links are open."""

    def setUp(self) -> None:
        self.server = Server(record=True, control=True)
        self.addCleanup(self.server.close)
        client = Client(port=self.server.core)
        self.addCleanup(client.close)
        self.link: Link = client.create_link()

    def test_the_next_reading(self) -> None:
        known: list[tuple[Volts, str]] = [
            (2.5, "+2.500000"),
            ("-0.000001", "-0.000001"),
            (9, "+9.000000"),
            (0.1 + 0.2, "+0.300000"),
        ]
        for volts, read in known:
            self.server.set_input(3, volts)
            self.assertEqual(self.link.query("MEAS:VOLT? (@3)"), read)
        self.assertEqual(self.link.query("MEAS:VOLT? (@4)"), "+0.000000")

    def test_a_reading_under_way(self) -> None:
        self.link.write("CONF:VOLT (@1:128);:TRIG:SOUR EXT;COUN 16;:INIT")
        self.server.set_input(128, 7)
        for _ in range(16):
            self.server.external()
            time.sleep(0.15)
        readings = self.link.query("FETC?").split(",")
        self.assertEqual(
            (len(readings), readings[127], readings[126]), (2048, "+7.000000", "+0.000000")
        )

    def test_the_external_trigger(self) -> None:
        self.link.write("TRIG:SOUR EXT;:INIT")
        self.link.write("FETC?;:SYST:ERR?")
        self.assertEqual(self.link.read(), b'-230,"Data corrupt or stale"\n')
        self.server.set_input(1, 1)
        self.server.external()
        time.sleep(0.02)
        self.assertEqual(self.link.query("FETC?"), "+1.000000")

    def test_bad_arguments_send_nothing(self) -> None:
        bad: list[tuple[Any, Any, type[Exception]]] = [
            (0, 1, ValueError),
            (129, 1, ValueError),
            ("3", 1, TypeError),
            (3, 1000.1, ValueError),
            (3, "much", ValueError),
            (3, float("nan"), ValueError),
            (3, "0.0000001", ValueError),
            (3, None, ValueError),
        ]
        for channel, volts, fault in bad:
            with self.subTest(channel=channel, volts=volts), self.assertRaises(fault):
                self.server.set_input(channel, volts)
        self.assertEqual(
            [line for line in self.server.explain().script if line.startswith("input")], []
        )

    def test_a_record_replays(self) -> None:
        self.server.set_input(3, 2.5)
        self.link.query("MEAS:VOLT? (@3)")
        self.server.external()
        script = self.server.explain().script
        self.assertIn("input 3 2500000", script)
        self.assertIn("external", script)
        printed = replayed(self.server, list(script))
        # +2.500000 and NL
        self.assertTrue(any("2b322e3530303030300a" in line for line in printed), printed)
        self.assertFalse([line for line in printed if line.startswith("refused")])
        # create_link returned the server's own abort port.
        self.assertTrue(any(f"{self.server.abort:08x}" in line for line in printed), printed)

    def test_the_command_explains_a_record(self) -> None:
        assert self.server.record is not None
        self.server.explain()
        words = ["--core", str(self.server.core), "--abort", str(self.server.abort)]
        given: list[tuple[list[str], bool]] = [([], False), (words, True)]
        for more, ending in given:
            with tempfile.NamedTemporaryFile("r") as page, mock.patch(
                "scanvolt.explaining.command.Explanation", wraps=Explanation
            ) as made:
                self.assertEqual(command.main([self.server.record, "--html", page.name, *more]), 0)
                self.assertEqual(
                    made.call_args[1]["ports"],
                    (self.server.core, self.server.abort) if ending else None,
                )
                self.assertIn("create_link", page.read())

    def test_explain(self) -> None:
        self.server.set_input(3, 2.5)
        self.link.write("FOO")
        found = self.server.explain()
        self.assertIn("input 3 = 2.5 V", found.text())
        self.assertIn('error -113 "Undefined header"', found.why("CME"))
        self.assertEqual(len(found.story.calls), 2)
        with Client("127.0.0.1", port_mapper=self.server.port_mapper):
            self.assertIn(f"-> port {self.server.core}\n", self.server.explain().text())
        self.link.query("*IDN?")
        self.assertEqual(len(self.server.explain().story.calls), 5)

    def test_a_reply_that_came_as_time_passed(self) -> None:
        self.link.write("CONF:VOLT (@1:50);:READ?")
        self.assertEqual(len(self.link.read().split(b",")), 50)
        found = self.server.explain()
        self.assertIn("no call waits", found.end())
        self.assertEqual(found.story.calls[-1].answer.words[:5], '"+0.0')  # type: ignore[union-attr]
        self.link.io_timeout = 200
        self.link.write("TRIG:SOUR EXT;:INIT;*OPC?")
        with self.assertRaises(DeviceError):
            self.link.read()
        self.assertIn("device_read -> error 15", self.server.explain().text())

    def test_each_answer_is_in_the_record_at_once(self) -> None:
        for count in range(1, 40):
            self.link.readstb()
            calls = [
                one for one in self.server.explain().story.calls if one.name == "device_readstb"
            ]
            self.assertEqual(len(calls), count)
            self.assertIsNotNone(calls[-1].ended)

    def test_threads_share_it(self) -> None:
        def work(channel: int) -> None:
            for volts in range(20):
                self.server.set_input(channel, volts)

        workers = [threading.Thread(target=work, args=(channel,)) for channel in range(1, 9)]
        for one in workers:
            one.start()
        for one in workers:
            one.join()
        self.assertEqual(self.link.query("MEAS:VOLT? (@1:8)").split(",")[7], "+9.9E+37")
        self.assertEqual(
            sum(line.startswith("input") for line in self.server.explain().script), 160
        )

    def test_a_server_that_is_gone(self) -> None:
        self.server.set_input(1, 1)
        self.assertIn("input 1 = 1 V", self.server.explain().text())  # so it is in the file
        kill(self.server.process.pid)
        self.server.process.wait()
        with self.assertRaisesRegex(
            ControlError, f"the control port {self.server.control} doesn't answer"
        ):
            self.server.set_input(1, 1)
        self.assertIn("input 1 = 1 V", self.server.explain().text())  # the record is still told


class Options(unittest.TestCase):
    """Servers with and without a record and a control port."""

    def test_neither(self) -> None:
        with Server() as server:
            self.assertEqual((server.record, server.control), (None, None))
            with self.assertRaisesRegex(ProgramError, r"Server\(control=True\)"):
                server.set_input(1, 1)
            with self.assertRaisesRegex(ProgramError, r"Server\(control=True\)"):
                server.external()
            with self.assertRaisesRegex(ProgramError, r"Server\(record=True\)"):
                server.explain()

    def test_a_record_that_stays(self) -> None:
        with tempfile.TemporaryDirectory() as folder:
            path = pathlib.Path(folder, "session.replay")
            with Server(record=path) as server, Client(
                port=server.core
            ) as client, client.create_link() as link:
                link.query("*IDN?")
                self.assertIn("SCANVOLT,SV32", server.explain().text())
            self.assertTrue(
                path.read_text().startswith("tick ") or path.read_text().startswith("open ")
            )

    def test_a_record_that_goes(self) -> None:
        with Server(record=True) as server:
            path = server.record
            assert path is not None
            self.assertTrue(os.path.exists(path))
        self.assertFalse(os.path.exists(os.path.dirname(path)))

    def test_a_record_that_cannot_be_made(self) -> None:
        before = set(os.listdir(tempfile.gettempdir()))
        with self.assertRaises(FileNotFoundError):
            Server(record="/there/is/none")
        with self.assertRaises(ValueError), tempfile.NamedTemporaryFile() as file:
            file.write(b"bad\n")
            file.flush()
            Server(file.name, record=True)
        self.assertEqual(
            [
                one
                for one in set(os.listdir(tempfile.gettempdir())) - before
                if one.startswith("scanvolt-")
            ],
            [],
        )

    def test_too_few_ports(self) -> None:
        for ports, control in ([4096, 4097], False), ([4096, 4097, 4111], True):
            with self.assertRaisesRegex(ValueError, "^[34] ports are wanted, and not [23]$"):
                Server(ports=ports, control=control)

    def test_ports_that_are_wanted(self) -> None:
        with Server(control=True) as server:
            assert server.control is not None
            ports = (server.core, server.abort, server.port_mapper, server.control)
        with Server(control=True, ports=(*ports[:3], 0)) as server:
            self.assertEqual((server.core, server.abort, server.port_mapper), ports[:3])
            assert server.control is not None
            self.assertGreater(server.control, 0)
        with Server(control=True, ports=ports) as server:
            self.assertEqual((server.core, server.abort, server.port_mapper, server.control), ports)
            with self.assertRaisesRegex(
                ProgramError, f"^port {server.core} is in use by process {server.process.pid}, "
            ):
                Server(control=True, ports=(server.core, 0, 0, 0))


class Answers(unittest.TestCase):
    """A control port that doesn't answer as it should."""

    def refused(self, wanted: str, answer: bytes) -> None:
        relay = Relay(answer)
        with self.assertRaisesRegex(ControlError, wanted):
            Control(relay.port, 0.2).external()
        relay.thread.join()

    def test_other_answers(self) -> None:
        self.refused("answered b'bad line.n' to b'external.n'", b"bad line\n")
        self.refused("closed the connection", b"")
        self.refused("doesn't answer: timed out", b"o")

    def test_a_connection_that_was_closed_is_made_anew(self) -> None:
        with Server(control=True, program=find_program()) as server:
            assert server.control is not None
            control = Control(server.control)
            control.external()
            others = [Control(server.control) for _ in range(3)]
            for one in others:
                one.pass_by()
            fifth = Control(server.control)
            with self.assertRaises(ControlError):  # four are served
                fifth.pass_by()
            others[0].close()
            time.sleep(0.05)
            fifth.pass_by()
            for one in (control, *others, fifth):
                one.close()

    def test_no_line_passes_by(self) -> None:
        relay = Relay(b"bad line\n")
        control = Control(relay.port)
        control.pass_by()
        control.close()
        relay.thread.join()
        self.assertEqual(relay.lines, [b"\n"])
        self.assertEqual(live.HOST, "127.0.0.1")


class Document(unittest.TestCase):
    """What docs/PANEL.md says of the bytes, for other languages."""

    def test_the_steps(self) -> None:
        text = pathlib.Path(TOP, "..", "docs", "PANEL.md").read_text(encoding="utf-8")
        steps = re.findall(
            r"^\| (send|receive)(?: (\d+) bytes)?[^|]*\| `(.*?)` \| ([0-9a-f ]+) \|$",
            text,
            re.MULTILINE,
        )
        self.assertEqual([what for what, *_ in steps], ["send", "receive"] * 3)
        with Server(control=True, record=True) as server:
            assert server.control is not None
            with socket.create_connection(("127.0.0.1", server.control), 10) as connection:
                for what, count, said, digits in steps:
                    data = bytes.fromhex(digits)
                    self.assertEqual(data, said.replace("\\n", "\n").encode())
                    if what == "send":
                        connection.sendall(data)
                    else:
                        self.assertEqual(connection.recv(int(count), socket.MSG_WAITALL), data)
            kept = [line for line in server.explain().script if not line.startswith("tick")]
        self.assertEqual(kept, ["input 3 2500000", "external"])


if __name__ == "__main__":
    unittest.main()
