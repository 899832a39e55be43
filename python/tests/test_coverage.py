"""Coverage of the instrument: its lists are those of the documents, and what is counted is what the program tells."""

from __future__ import annotations

import contextlib
import io
import pathlib
import subprocess
import sys
import tempfile
import unittest

from scanvolt.coverage import counting
from scanvolt.coverage.command import main
from scanvolt.coverage.counting import count, everything
from scanvolt.coverage.headers import Headers
from scanvolt.coverage.report import Report
from scanvolt.coverage.tables import HEADERS
from scanvolt.virtual import Meter
from scanvolt.vxi11 import DeviceError, Link

TOP = pathlib.Path(__file__).resolve().parent.parent.parent
# Messages, and the headers that they have: by the rules of SCPI-1999, volume 1, 6.2.4.
MESSAGES = (
    ("*RST;*CLS", ["*RST", "*CLS"]),
    ("CALC:LIM:UPP 5;STAT ON", ["CALCulate:LIMit:UPPer", "CALCulate:LIMit:STATe"]),
    ("STAT:OPER?;ENAB?", ["STATus:OPERation[:EVENt]?", None]),
    ("STAT:OPER:EVEN?;ENAB?", ["STATus:OPERation[:EVENt]?", "STATus:OPERation:ENABle?"]),
    ("calc:limit:low -1;*OPC;upp 2", ["CALCulate:LIMit:LOWer", "*OPC", "CALCulate:LIMit:UPPer"]),
    (
        "CALC:LIM:LOW -1;UNKNOWN:HEADER;UPP 2",
        ["CALCulate:LIMit:LOWer", None, "CALCulate:LIMit:UPPer"],
    ),
    (
        "VOLT:RANG 1;:SENS:VOLT:DC:RANG:UPP?",
        ["[SENSe:]VOLTage[:DC]:RANGe[:UPPer]", "[SENSe:]VOLTage[:DC]:RANGe[:UPPer]?"],
    ),
    ("INIT;:INIT:IMM;:ABOR", ["INITiate[:IMMediate]", "INITiate[:IMMediate]", "ABORt"]),
    ("FETC;:READ;:MEAS:VOLT", [None, None, None]),
    ("CALCUL:LIM:UPP 5", [None]),
)


class Lists(unittest.TestCase):
    """What can be met."""

    def test_they_are_those_of_the_documents(self) -> None:
        tool = TOP / "tools/covering"
        if not tool.exists():
            self.skipTest("this is no checkout")
        told = subprocess.run(
            [sys.executable, str(tool), "--check"],
            stdout=subprocess.PIPE,
            stderr=subprocess.STDOUT,
            text=True,
        )
        self.assertEqual((told.returncode, told.stdout), (0, ""))

    def test_how_many(self) -> None:
        """README names 64 commands; each entry is there once."""
        found = everything()
        self.assertEqual(len(found), len(set(found)))
        self.assertEqual(sum(name == counting.COMMANDS for name, _ in found), 64)
        for entry in (
            (counting.FAULTS_OF, "device_read: 15, I/O timeout"),
            (counting.QUEUE, '-410 "Query INTERRUPTED"'),
            (counting.BITS_OF, "STB.MAV polled"),
            (counting.BITS_OF, "ESR.CME cleared"),
            (counting.SITUATIONS, "a wait for the lock is granted"),
            (counting.CALLS_OF, "device_abort"),
        ):
            self.assertIn(entry, found)

    def test_headers(self) -> None:
        for message, wanted in MESSAGES:
            headers = Headers()
            with self.subTest(message):
                self.assertEqual([headers.of(unit.encode()) for unit in message.split(";")], wanted)

    def test_each_header_is_one_that_the_instrument_knows(self) -> None:
        """In its long form and its short one, the program doesn't answer with -113 or -102."""
        with Meter() as meter:
            link = meter.connect().create_link()
            for header in HEADERS:
                long = header.replace("[", "").replace("]", "").upper()
                for form in (
                    long,
                    "".join(one for one in header if not one.islower())
                    .replace("[", "")
                    .replace("]", ""),
                ):
                    link.write(f"*RST;*CLS;:{form}" if form[0] != "*" else form)
                    link.clear()
                    error = link.query("ABOR;:SYST:ERR?")
                    self.assertNotIn(error.split(",")[0], ("-113", "-102"), form)


class Counted(unittest.TestCase):
    """What sessions have met."""

    def met(self, session: object) -> list[tuple[str, str]]:
        """What a session with a link meets."""
        assert callable(session)
        with Meter() as meter:
            session(meter, meter.connect().create_link())
            return sorted(count(meter.explain().story))

    def test_commands_and_bits(self) -> None:
        def session(meter: Meter, link: Link) -> None:
            link.write("*SRE 4;:CALC:LIM:UPP 5;BAD")
            link.readstb()
            link.query("SYST:ERR?")

        found = self.met(session)
        for words in ("*SRE", "CALCulate:LIMit:UPPer", "SYSTem:ERRor[:NEXT]?"):
            self.assertIn((counting.COMMANDS, words), found)
        self.assertNotIn((counting.COMMANDS, "CALCulate:LIMit:LOWer"), found)
        self.assertEqual(
            [words for name, words in found if name == counting.QUEUE], ['-113 "Undefined header"']
        )
        bits = [
            words for name, words in found if name == counting.BITS_OF and words.startswith("STB.")
        ]
        self.assertEqual(
            bits,
            [
                "STB.EAV cleared",
                "STB.EAV polled",
                "STB.EAV set",
                "STB.MAV cleared",
                "STB.MAV set",
                "STB.RQS cleared",
                "STB.RQS polled",
                "STB.RQS set",
            ],
        )
        self.assertIn(counting.UNHEARD, found)

    def test_what_was_sent_and_not_executed(self) -> None:
        """A header in half a message, and in a message that is too long, isn't met."""

        def session(meter: Meter, link: Link) -> None:
            link.write("*TST?", end=False)
            link.clear()
            link.write(";*IDN?" + 4096 * " " + ";*CLS")

        found = self.met(session)
        self.assertEqual([words for name, words in found if name == counting.COMMANDS], [])
        self.assertIn(counting.OVERRUN, found)

    def test_waits(self) -> None:
        def session(meter: Meter, link: Link) -> None:
            other = meter.connect()
            second = other.create_link(lock_timeout=30)
            link.lock()
            self.assertRaises(DeviceError, second.lock)
            pending = other.start(second.calls.lock())
            link.unlock()
            pending.result()
            second.unlock()
            link.write("TRIG:SOUR EXT;:INIT;*OPC?")
            reading = link.calls.read()
            aborted = meter.connections[0].start(reading)
            link.abort()
            self.assertRaises(DeviceError, aborted.result)

        met = self.met(session)
        self.assertEqual(
            [
                words
                for name, words in met
                if name == counting.SITUATIONS and words.startswith("a wait")
            ],
            [
                "a wait for a response is aborted",
                "a wait for the lock is granted",
                "a wait for the lock times out",
            ],
        )
        self.assertEqual(
            [words for name, words in met if name == counting.FAULTS_OF],
            ["device_lock: 11, device locked by another link", "device_read: 23, abort"],
        )

    def test_an_error_that_is_lost(self) -> None:
        def session(meter: Meter, link: Link) -> None:
            link.write(";".join(["BAD"] * errors))

        for errors, is_lost in (64, False), (65, True):
            self.assertEqual(counting.LOST in self.met(session), is_lost)

    def test_situations(self) -> None:
        def session(meter: Meter, link: Link) -> None:
            meter.connections[0].listen()
            link.enable_srq(b"")
            link.write("*SRE 16;*IDN?")
            link.read(3)
            link.write("*IDN?")
            link.read(termination=ord(","))
            link.write("*RST;:CONF:VOLT (@1:128);:TRIG:COUN 7;:READ?")
            link.read()
            link.query("ABOR;:CONF:VOLT (@1:2);:TRIG:COUN 2;:READ?")
            link.write("TRIG:SOUR EXT;:INIT;:ABOR")

        found = [words for name, words in self.met(session) if name == counting.SITUATIONS]
        for words in (
            "a read ends by REQCNT",
            "a read ends by CHR",
            "a read ends by END",
            "a query is interrupted",
            "a read ends by 8,192 bytes",
            "a service request is sent",
            "the scan goes from scanning to waiting by tick",
            "the scan goes from any to idle by ABORt, *RST",
        ):
            self.assertIn(words, found)
        self.assertNotIn("a service request with none listening", found)


class Reports(unittest.TestCase):
    """The table, the summary, and the command."""

    def test_parts(self) -> None:
        report = Report({(counting.COMMANDS, "*RST"): 3, (counting.COMMANDS, "no such header"): 1})
        self.assertEqual(report.parts, (1, len(everything())))
        self.assertRegex(
            report.summary(),
            r"^coverage of the instrument: 1 of \d+, 0 %: commands and queries 1 of 64, errors 0",
        )
        self.assertIn("       3  *RST", report.lines(True))
        self.assertEqual(
            (report.below(0), report.below(50)),
            ("", f"coverage of the instrument: {100 / len(everything()):.1f} % is below 50 %"),
        )

    def run_with(self, *words: str) -> tuple[int, str]:
        with contextlib.redirect_stdout(io.StringIO()) as told, contextlib.redirect_stderr(told):
            return main(list(words)), told.getvalue()

    def test_the_command(self) -> None:
        with tempfile.TemporaryDirectory() as folder, Meter() as meter:
            meter.connect().create_link().write("*RST")
            path, bad = pathlib.Path(folder, "session.replay"), pathlib.Path(folder, "bad.replay")
            path.write_text("\n".join(meter._replay.script()) + "\n")
            bad.write_text("nonsense\n")
            status, text = self.run_with(str(path), str(path), "--all")
            self.assertEqual((status, "       2  *RST\n" in text), (0, True))
            self.assertEqual(self.run_with(str(path), "--least", "90")[0], 1)
            self.assertEqual(self.run_with(str(bad))[0], 2)
            self.assertRegex(
                self.run_with(str(path) + "x")[1], "^scanvolt-coverage: .*replayx: No such file"
            )


if __name__ == "__main__":
    unittest.main()
