"""scanvolt-capture recorded: a server's record, and a capture of the session that tshark wrote meanwhile."""

from __future__ import annotations

import contextlib
import io
import pathlib
import shutil
import subprocess
import tempfile
import time
import unittest

from scanvolt.capturing.command import main
from scanvolt.program import Server
from scanvolt.vxi11 import Client

FLUSHED = 1.5  # seconds after which dumpcap has written all packets


def session(server: Server) -> None:
    """Two connections with links, a request for service, and a question to the port mapper."""
    with Client(port_mapper=server.port_mapper) as client, client.create_link() as link, Client(
        port=server.core
    ) as other:
        requests = client.listen()
        link.enable_srq(b"meter 1")
        server.set_input(3, 2.5)
        link.write("*CLS;*SRE 4;UNKNOWN")
        assert requests.wait(20000).handle == b"meter 1"
        with other.create_link() as second:
            second.write("*CLS")
            assert second.query("MEAS:VOLT? (@3)") == "+2.500000"


class Recorded(unittest.TestCase):
    """One session, which is compared as it is and after a change."""

    folder: tempfile.TemporaryDirectory[str]
    path: pathlib.Path
    record: list[str]
    words: list[str]

    @classmethod
    def setUpClass(cls) -> None:
        if shutil.which("dumpcap") is None:
            raise unittest.SkipTest("dumpcap isn't there")
        cls.folder = tempfile.TemporaryDirectory(prefix="recorded-")
        cls.addClassCleanup(cls.folder.cleanup)
        cls.path = pathlib.Path(cls.folder.name)
        capture = str(cls.path / "session.pcapng")
        command = ["dumpcap", "-q", "-i", "lo", "-f", "tcp", "-w", capture]
        with subprocess.Popen(command, stderr=subprocess.PIPE, text=True) as dumpcap:
            assert dumpcap.stderr is not None
            if not any("File:" in line for line in dumpcap.stderr):
                raise unittest.SkipTest("dumpcap may not capture here")
            with Server(record=cls.path / "session.replay", control=True) as server:
                session(server)
                cls.record = list(server.explain().script)
            time.sleep(FLUSHED)
            dumpcap.terminate()
            dumpcap.communicate()
        cls.words = [
            "recorded",
            capture,
            "--program",
            server.program,
            "--core",
            str(server.core),
            "--abort",
            str(server.abort),
            "--portmap",
            str(server.port_mapper),
        ]

    def compared(self, record: list[str], *more: str) -> tuple[int, str]:
        """Compares the capture with this record. Returns the status, and what is printed."""
        path = self.path / "changed.replay"
        path.write_text("".join(line + "\n" for line in record))
        printed = io.StringIO()
        with contextlib.redirect_stdout(printed), contextlib.redirect_stderr(printed):
            return main([*self.words, "--record", str(path), *more]), printed.getvalue()

    def changed(
        self, wanted: str, *given: tuple[str, str], more: tuple[str, ...] = (), status: int = 1
    ) -> None:
        """A record of other lines differs, and this is said. A line that begins as told becomes another one, or goes."""
        lines = list(self.record)
        for old, new in given:
            place = next(number for number, line in enumerate(lines) if line.startswith(old))
            lines[place : place + 1] = [new] if new else []
        found, text = self.compared(lines, *more)
        self.assertRegex(text, wanted)
        self.assertEqual(found, status)

    def test_as_it_is(self) -> None:
        found, text = self.compared(self.record)
        self.assertEqual(found, 0, text)
        self.assertRegex(
            text,
            r"^capture: the record's replay sends what the sockets took: 3 connections, 1 interrupt channel, "
            r"[1-9]\d\d+ bytes\n$",
        )

    def test_other_bytes(self) -> None:
        """Another voltage gives another reply; without the dialing, nothing is sent on the channel."""
        self.changed(
            "the socket took [0-9]+ bytes, the record's replay sends [0-9]+; they differ from byte [0-9]+ on\n"
            "(  .*\n)*  [0-9]+ bytes in the replay:\n(  .*\n)*  > .*[+]2[.]6\n",
            ("input 3", "input 3 2600000"),
        )
        dialed = next(line for line in self.record if line.startswith("dialed"))
        self.changed(
            "1 interrupt channel in the capture, 0 in the record",
            ("dialed", dialed.replace("ok", "failed")),
        )

    def test_other_ports(self) -> None:
        self.changed("they differ from byte", more=("--abort", "9"))

    def test_other_connections(self) -> None:
        mapper = next(line for line in self.record if line.endswith("portmap"))
        self.changed(
            "1 connection of the channel portmap in the capture, 0 in the record\n"
            "(.*\n)*capture: 2 connections of the channel core in the capture, 3 in the record|"
            "2 connections of the channel core in the capture, 3 in the record\n"
            "(.*\n)*capture: 1 connection of the channel portmap in the capture, 0 in the record",
            (mapper, mapper.replace("portmap", "core")),
        )

    def test_what_is_no_record(self) -> None:
        self.changed(
            "refuses an event of the record, line 1 or one before",
            (self.record[0], "input 3 0\ninput 0 0"),
            status=2,
        )
        self.changed("refuses an event of the record", (self.record[0], "bytes 7 00"), status=2)
        self.changed("scanvolt: bad line 1", (self.record[0], "what"), status=2)
        for words in ([*self.words], ["compare", *self.words[1:], "--record", "x"]):
            with self.assertRaises(SystemExit), contextlib.redirect_stderr(io.StringIO()) as told:
                main(words)
            self.assertIn("`recorded` needs --record FILE, and only that does", told.getvalue())
        with contextlib.redirect_stderr(io.StringIO()) as told:
            self.assertEqual(main([*self.words, "--record", "/no/file"]), 2)
        self.assertIn("/no/file can't be read: No such file or directory", told.getvalue())


if __name__ == "__main__":
    unittest.main()
