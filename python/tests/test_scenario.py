"""scanvolt-scenario: pictures of short scenarios, lines as `scanvolt serve` takes them, ranges of channels, and
messages about faults.
"""

from __future__ import annotations

import contextlib
import io
import os
import signal
import subprocess
import sys
import tempfile
import unittest
from unittest import mock

from scanvolt.program import Server
from scanvolt.scenario.command import main
from scanvolt.virtual import Meter

from .processes import TOP

BAD = (
    "0 input 1 1.5",
    "0 input 1 1e3",
    "0 input 1 +5",
    "0 input 1 -",
    "0 input 1 ",
    "0 input 1",
    "0 input 1 1000000001",
    "0 input 1 -1000000001",
    "0 input 1 0000000000000000005",
    "0 input 01 5",
    "0 input 0 5",
    "0 input 129 5",
    "0 input 1 5 6",
    "0 external ",
    "0  external",
    " 0 external",
    "0 external\r",
    "0 external\v0 external",
    "-1 external",
    "1000000000000000000 external",
    "5 external\n4 external",
    "0 external" + 65536 * " ",
)
GOOD = (
    "0 input 1 -1000000000",
    "0 input 128 1000000000",
    "0 input 1 000000000000000005",
    "000000000000000007 external",
    "999999999999999999 external",
    "5 external\n\n5 external",
)


class Commands(unittest.TestCase):
    """The command with arguments."""

    def run_words(self, *words: str) -> tuple[int, str, str]:
        """The status, the output and the messages for these arguments."""
        told, faults = io.StringIO(), io.StringIO()
        with mock.patch("signal.signal"), contextlib.redirect_stdout(
            told
        ), contextlib.redirect_stderr(faults):
            status = main(list(words))
        return status, told.getvalue(), faults.getvalue()

    def run_on(self, text: str, *words: str, option: str = "--of") -> tuple[int, str, str]:
        """The same for a file with this text."""
        with tempfile.NamedTemporaryFile("w", newline="", suffix=".text") as file:
            file.write(text)
            file.flush()
            status, told, faults = self.run_words(option, file.name, *words)
            return status, told.replace(file.name, "FILE"), faults.replace(file.name, "FILE")


class Scenarios(Commands):
    """What the command writes and draws."""

    def test_a_reader_that_ends(self) -> None:
        """`scanvolt-scenario --help | head` and the like end by SIGPIPE, and say nothing."""
        with tempfile.NamedTemporaryFile() as file:
            file.write(b"nonsense\n")
            file.flush()
            for words in ["--help"], ["--check", file.name], ["1=5"]:
                source, target = os.pipe()
                os.close(source)
                with self.subTest(words), open(target, "wb") as output:
                    done = subprocess.run(
                        [sys.executable, "-m", "scanvolt.scenario", *words],
                        cwd=TOP,
                        stdout=output,
                        stderr=subprocess.PIPE,
                        text=True,
                    )
                    self.assertEqual((done.returncode, done.stderr), (-signal.SIGPIPE, ""))

    def test_lines_of_one_moment_have_a_picture(self) -> None:
        status, text, faults = self.run_on("0 input 1 1250000\n0 input 2 -300000\n", "--picture")
        self.assertEqual((status, faults), (0, ""))
        self.assertEqual(
            text.splitlines()[:4],
            [
                "channel 1, volts",
                "   +1.250000 |" + 58 * "*",
                "channel 2, volts",
                "   -0.300000 |" + 58 * "*",
            ],
        )

    def test_a_moment_each_has_a_picture(self) -> None:
        for length in range(1, 70):
            status, text, faults = self.run_on(f"0 input 1 1\n{length} input 1 2\n", "--picture")
            self.assertEqual((status, faults), (0, ""), length)
            row = text.splitlines()[1]
            self.assertEqual(row[-1], "*", length)

    def test_lines_that_serve_refuses_are_refused(self) -> None:
        for line in BAD:
            status, text, faults = self.run_on(line + "\n")
            self.assertEqual((status, text), (2, ""), line)
            number = line.count("\n") + 1
            self.assertTrue(faults.startswith(f"scanvolt-scenario: FILE, line {number}: "), faults)

    def test_lines_that_serve_takes_are_taken(self) -> None:
        for line in GOOD:
            status, _, faults = self.run_on(line + "\n")
            self.assertEqual((status, faults), (0, ""), line)

    def test_faults_of_a_table_have_their_lines(self) -> None:
        for number, text in (
            (2, "time,1\nx,5\n"),
            (3, "time,1\n0,5\n1,volts\n"),
            (3, "time,1\n2,5\n1,5\n"),
            (4, "time,1\n\n0,1\n1,1,1\n"),
            (3, "time,1\n0,1\n1,2000\n"),
            (1, "time,200\n0,1\n"),
            (1, "1,2\n0,1\n"),
            (1, "time,1,1\n0,1,1\n"),
            (4, 'time,1\n"0\n",1\n1,v\n'),
        ):
            status, _, faults = self.run_on(text, option="--csv")
            self.assertEqual(status, 2, text)
            self.assertTrue(faults.startswith(f"scanvolt-scenario: FILE, line {number}: "), faults)

    def test_a_table_becomes_lines(self) -> None:
        status, text, faults = self.run_on("time,1,3\n0,1.5,\n0.5,,-2\n", option="--csv")
        self.assertEqual((status, faults), (0, ""))
        self.assertEqual(text, "0 input 1 1500000\n500 input 3 -2000000\n")


class Checks(Commands):
    """--check prints each bad line, and why it is bad."""

    REASONS = (
        ("x external", "a time is a whole number"),
        ("4 external", "a time may not be before .*, 5: 4$"),
        ("5 trigger", "after the time comes"),
        ("5  external", "after the time comes"),
        ("5 input 0 1", "a channel is .* not `0`$"),
        ("5 input 129 1", "a channel is .* not `129`$"),
        ("5 input 1 1.5", "a voltage is .* not `1.5`$"),
        ("5 input 1 1000000001", "a voltage is "),
        ("5 external" + 65536 * " ", "it has more than 65536 bytes$"),
    )

    def test_the_reason_of_each_bad_line(self) -> None:
        for line, reason in self.REASONS:
            status, told, faults = self.run_on("5 external\n" + line + "\n", option="--check")
            with self.subTest(line[:20]):
                self.assertEqual((status, faults), (1, ""))
                self.assertRegex(told.rstrip("\n"), "^FILE, line 2: `.*`.*: " + reason)

    def test_all_of_them(self) -> None:
        lines = ["5 external"] + [line for line, _ in self.REASONS] + ["6 external"]
        status, told, _ = self.run_on("\n".join(lines) + "\n", option="--check")
        self.assertEqual(status, 1)
        self.assertEqual(
            [line.split(":")[0] for line in told.splitlines()],
            [f"FILE, line {number}" for number in range(2, 2 + len(self.REASONS))],
        )

    def test_what_serve_takes_and_refuses(self) -> None:
        for bad, texts in (0, GOOD), (1, BAD):
            for text in texts:
                status, told, faults = self.run_on(text + "\n", option="--check")
                self.assertEqual((status, faults), (bad, ""), text)
        self.assertEqual(
            self.run_on("0 external\n1500 input 1 2\n", option="--check")[1],
            "FILE: 2 entries, up to 1.500 s, no bad line\n",
        )

    def test_what_cannot_be_read(self) -> None:
        for option in ("--check", "--of", "--csv"):
            status, told, faults = self.run_words(option, "/nonexistent")
            self.assertEqual((status, told), (2, ""))
            self.assertRegex(
                faults, "^scanvolt-scenario: /nonexistent can't be read: .*No such file"
            )


class OtherEditors(Commands):
    """Files as editors on Windows write them: scanvolt refuses them, and the package says why."""

    LINES = "it ends in a carriage return, as a line on Windows does%s; `sed -i 's/\\r$//' FILE` removes it"
    MARK = "the file begins with a byte order mark; save it as UTF-8 without one"
    WIDE = "the file is UTF-16 text, as some programs on Windows write it; save it as UTF-8 without a byte order mark"

    def told(self, data: bytes) -> list[str]:
        """What --check prints of a file with these bytes. A meter and a server say the first of it."""
        with tempfile.NamedTemporaryFile(suffix=".scenario") as file:
            file.write(data)
            file.flush()
            status, printed, faults = self.run_words("--check", file.name)
            self.assertEqual((status, faults), (1, ""))
            found = [line.replace(file.name, "FILE") for line in printed.splitlines()]
            for kind in Meter, Server:
                with self.assertRaises(ValueError) as caught:
                    kind(scenario=file.name)
                reason = str(caught.exception).replace(file.name, "FILE")
                head, _, text = reason.partition(" of the scenario FILE: ")
                self.assertEqual(head.replace("bad ", "FILE, "), found[0].partition(": ")[0])
                self.assertTrue(found[0].endswith(": " + text), reason)
        return found

    def test_line_ends_of_windows(self) -> None:
        self.assertEqual(
            self.told(b"0 external\r\n\r\n5 external\r\n"),
            ["FILE, line 1: `0 external\\r`: " + self.LINES % ", and so do 2 lines after it"],
        )
        self.assertEqual(
            self.told(b"0 external\n5 external\r\n"),
            ["FILE, line 2: `5 external\\r`: " + self.LINES % ""],
        )

    def test_other_faults_are_told_too(self) -> None:
        found = self.told(b"0 external\r\n5 input 1 1.5\r\n6 trigger\n")
        self.assertEqual(
            found[0],
            "FILE, line 1: `0 external\\r`: " + self.LINES % ", and so does a line after it",
        )
        self.assertRegex(found[1], "^FILE, line 2: `5 input 1 1.5`: a voltage is .* not `1.5`$")
        self.assertRegex(found[2], "^FILE, line 3: `6 trigger`: after the time comes ")

    def test_a_byte_order_mark(self) -> None:
        self.assertEqual(
            self.told(b"\xef\xbb\xbf0 external\n5 external\n"),
            ["FILE, line 1: `\\xef\\xbb\\xbf0 external`: " + self.MARK],
        )
        found = self.told(b"\xef\xbb\xbf0 external\r\n5 external\r\n")
        self.assertEqual(
            [line.partition(": ")[2].partition(": ")[2] for line in found],
            [self.MARK, self.LINES % ", and so does a line after it"],
        )

    def test_wide_text(self) -> None:
        for name in "utf-16-le", "utf-16-be":
            found = self.told("\ufeff0 external\r\n5 external\r\n".encode(name))
            self.assertEqual([line.split(": ", 2)[2] for line in found], [self.WIDE])


class Ranges(Commands):
    """CHANNEL:CHANNEL=SHAPE."""

    def lines(self, *words: str) -> list[str]:
        status, told, faults = self.run_words("--seconds", "1", *words)
        self.assertEqual((status, faults), (0, ""))
        return told.splitlines()

    def test_each_channel_has_the_shape(self) -> None:
        wanted = [f"0 input {channel} 1500000" for channel in range(1, 129)]
        self.assertEqual(self.lines("1:128=1.5"), wanted)
        self.assertEqual(self.lines("3:3=1.5"), wanted[2:3])
        self.assertEqual(
            self.lines("2:3=steps:1@0,2@0.5", "1=0"),
            [
                "0 input 1 0",
                "0 input 2 1000000",
                "0 input 3 1000000",
                "500 input 2 2000000",
                "500 input 3 2000000",
            ],
        )

    def test_each_channel_has_noise_of_its_own(self) -> None:
        both = self.lines("1:2=noise:0:1:5")
        self.assertEqual(
            [line for line in both if " input 1 " in line], self.lines("1=noise:0:1:5")
        )
        self.assertEqual(
            [line for line in both if " input 2 " in line], self.lines("2=noise:0:1:6")
        )

    def test_what_is_no_range(self) -> None:
        for word, reason in (
            ("5:1=0", "a range of channels ends before it begins: 5:1"),
            ("1:129=0", "a channel isn't a whole number from 1 to 128: 129"),
            ("0:2=0", "a channel isn't a whole number from 1 to 128: 0"),
            ("1:=0", "a channel isn't a whole number from 1 to 128: "),
        ):
            self.assertEqual(self.run_words(word), (2, "", f"scanvolt-scenario: {reason}\n"))
        self.assertEqual(
            self.run_words("1:4=0", "3=1"), (2, "", "scanvolt-scenario: channel 3 is there twice\n")
        )


if __name__ == "__main__":
    unittest.main()
