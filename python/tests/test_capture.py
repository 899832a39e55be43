"""scanvolt-capture: what counts as a difference, and what is printed about it."""

from __future__ import annotations

import base64
import signal
import threading
import time
import unittest
from unittest import mock

from scanvolt.capturing import compare
from scanvolt.vxi11 import calls, encode_reply, opaque, words

from .captures import START, Capture, Folder, call
from .processes import goes, hear_hangups, kill


def told(start: int) -> tuple[str, str]:
    """The arguments that give a start, in milliseconds since START."""
    return "--start", f"{(START + start) / 1000:.3f}"


class Comparing(unittest.TestCase):
    def setUp(self) -> None:
        self.folder = Folder()
        self.addCleanup(self.folder.close)

    def several(self) -> Capture:
        """Three calls, answered by 0 V."""
        capture = Capture(10)
        for xid in (1, 2, 3):
            capture.asks(100 * xid, xid, words(0))
        return capture

    def test_equal_replies_are_equal(self) -> None:
        status, text = self.folder.compare(self.several(), *told(0))
        self.assertEqual(status, 0, text)
        self.assertIn("all equal", text)

    def test_a_program_that_prints_nothing_ended_early(self) -> None:
        for _ in range(12):
            status, text = self.folder.compare(self.several(), *told(0), program="/bin/true")
            self.assertEqual(status, 2, text)
            self.assertIn("ended early", text)

    def test_a_program_that_prints_less_ended_early(self) -> None:
        shorter = self.folder.write(
            "shorter", f"#!/bin/sh\n{self.folder.replay} replay | head -3\n", 0o755
        )
        status, text = self.folder.compare(self.several(), *told(0), program=shorter)
        self.assertEqual(status, 2, text)
        self.assertIn("ended early, after", text)

    def test_a_program_that_reads_nothing_of_a_long_script_ended_early(self) -> None:
        capture = Capture(10)
        for xid in range(1, 3000):
            capture.asks(100 * xid, xid, words(0))
        status, text = self.folder.compare(capture, *told(0), program="/bin/true")
        self.assertEqual(status, 2, text)
        self.assertIn("ended early", text)

    def test_a_reply_that_the_replay_lacks_is_a_difference(self) -> None:
        marks = self.folder.write(
            "marks", f"#!/bin/sh\n{self.folder.replay} replay | grep refused\n", 0o755
        )
        status, text = self.folder.compare(self.several(), *told(0), "--slack", "0", program=marks)
        self.assertEqual(status, 1, text)
        self.assertIn("isn't sent by the replay", text)

    def test_a_program_that_prints_something_else_is_told(self) -> None:
        status, text = self.folder.compare(self.several(), *told(0), program="/bin/echo")
        self.assertEqual(status, 2, text)
        self.assertIn("prints what no replay does: replay", text)

    def test_a_reply_is_shown_from_where_it_differs(self) -> None:
        data = bytes(range(200)) + bytes(range(200))
        other = data[:300] + b"\xee" + data[301:]
        capture = Capture(10)
        capture.asks(20, 1, data)
        status, text = self.folder.compare(
            capture, *told(0), "--slack", "0", replies=[encode_reply(1, other)]
        )
        self.assertEqual(status, 1, text)
        at = len(encode_reply(1)) + 300
        row = at // 16 * 16
        for where, data in ("the capture", data), ("the replay", other):
            whole = encode_reply(1, data)
            self.assertIn(f"  {len(whole)} bytes in {where}:", text)
            self.assertIn(f"  > {row:6d}  {whole[row:row + 16].hex(' ', -4)}  ", text)
        self.assertIn(f"  byte {at} of the reply: 64 in the capture, ee in the replay", text)
        self.assertNotIn(f"     {row - 48}  ", text)

    def test_the_text_stands_beside_the_bytes(self) -> None:
        found, other = (
            words(0, calls.ENDED) + opaque(text) for text in (b"+1.250000\n", b"+1.260000\n")
        )
        capture = Capture(10)
        capture.packet(15, True, calls.device_write(7, b"MEAS:VOLT? (@1)\n", 0).encode(1))
        capture.packet(16, False, encode_reply(1, words(0, 16)))
        capture.packet(17, True, calls.device_write(8, b"of another link", 0).encode(2))
        capture.packet(18, False, encode_reply(2, words(0, 15)))
        capture.packet(20, True, calls.device_read(7, 100, 0).encode(3))
        capture.packet(21, False, encode_reply(3, found))
        status, text = self.folder.compare(
            capture,
            *told(0),
            "--slack",
            "0",
            replies=[
                encode_reply(1, words(0, 16)),
                encode_reply(2, words(0, 15)),
                encode_reply(3, other),
            ],
        )
        self.assertEqual(status, 1, text)
        self.assertIn("reply 3 (device_read) of 127.0.0.1:50000 to 127.0.0.1:4096 differs", text)
        self.assertIn('  after the message: "MEAS:VOLT? (@1)\\n"\n', text)
        self.assertRegex(text, "bytes in the capture:\n(.*\n)*  > .*  [.]{7}.[+]1.25000\n")
        self.assertRegex(text, "bytes in the replay:\n(.*\n)*  > .*  [.]{7}.[+]1.26000\n")

    def test_a_capture_may_end_between_a_call_and_its_reply(self) -> None:
        capture = self.several()
        capture.packet(400, True, call(4))
        status, text = self.folder.compare(capture, *told(0))
        self.assertEqual(status, 0, text)

    def test_a_reply_that_never_came_is_a_difference(self) -> None:
        capture = self.several()
        capture.packet(400, True, call(4))
        capture.packet(1400, True)
        status, text = self.folder.compare(capture, *told(0))
        self.assertEqual(status, 1, text)
        self.assertIn("isn't in the capture", text)


class Telling(unittest.TestCase):
    """What is printed while other ticks and starts are tried, and about voltages."""

    SCENARIO = "0 input 1 1\n1000 input 1 2\n"

    def setUp(self) -> None:
        self.folder = Folder()
        self.addCleanup(self.folder.close)

    def test_the_first_difference_comes_first(self) -> None:
        """When the second replay begins, the first difference was printed."""
        capture = Capture(10)
        capture.asks(100, 1, words(7))
        counted = self.folder.write(
            "counted",
            f"""#!/bin/sh
echo begun >> "$0.runs"
[ $(wc -l < "$0.runs") -lt 2 ] || exec sleep 60
exec {self.folder.replay} replay
""",
            0o755,
        )
        told_text = self.begin(capture, "--program", counted).decode()
        self.assertRegex(
            told_text,
            "capture: at the times of the capture, the first difference is this:\nreply 1 [(]device_",
        )
        self.assertIn("byte ", told_text)
        self.assertTrue(
            told_text.endswith(
                "\ncapture: other ticks are tried, up to 3 milliseconds earlier or later, for at most 60 s\n"
            ),
            told_text,
        )

    def begin(self, capture: Capture, *given: str) -> bytes:
        """Starts a comparison. Returns what it prints up to the line about what is tried."""
        captured = self.folder.captured(capture)
        process = self.folder.begin("compare", captured, *told(0), *given, CAPTURE=captured)
        assert process.stdout is not None
        killer = threading.Timer(20, process.kill)
        killer.start()
        found = b""
        for line in process.stdout:
            found += line
            if b"tried" in line:
                break
        killer.cancel()
        process.kill()
        process.communicate()
        return found

    def test_other_starts_are_announced(self) -> None:
        capture = Capture(980)
        capture.asks(980, 1, words(7))
        status, text = self.folder.compare(capture, scenario=self.SCENARIO)
        self.assertEqual(status, 1)
        self.assertIn("\ncapture: other starts of the server are tried, for at most 60 s\n", text)
        self.assertEqual(text.count("reply 1 (device_readstb)"), 1, text)
        self.assertIn("\ncapture: the difference remains with all that was tried\n", text)

    def test_the_time_of_a_search_is_limited(self) -> None:
        capture = Capture(980)
        capture.asks(980, 1, words(7))
        with mock.patch.object(compare, "PATIENCE", 0):
            status, text = self.folder.compare(capture, scenario=self.SCENARIO)
        self.assertEqual(status, 1)
        self.assertIn("\ncapture: the difference remains with what could be tried in 0 s\n", text)

    def test_nothing_is_tried(self) -> None:
        capture = Capture(10)
        capture.asks(100, 1, words(7))
        status, text = self.folder.compare(capture, *told(0), "--slack", "0")
        self.assertEqual(status, 1)
        self.assertNotIn("tried", text)
        self.assertEqual(text.count("reply 1 (device_readstb)"), 1, text)

    def test_a_later_difference(self) -> None:
        """Other ticks settle the first difference. The one that remains is shown too."""
        capture = Capture(10)
        capture.asks(998, 1, words(2))
        capture.asks(1200, 2, words(9))
        status, text = self.folder.compare(capture, *told(0), scenario=self.SCENARIO)
        self.assertEqual(status, 1)
        self.assertRegex(
            text,
            "(?s)first difference is this:\nreply 1 .*the difference that remains with other ticks:\nreply 2 ",
        )

    def read(self, found: bytes, other: bytes, *given: str) -> str:
        """What is printed if the answer to a query is `found` in the capture, and `other` in the replay."""
        capture = Capture(10)
        replies = []
        for answer in found, other:
            replies.append(encode_reply(1, words(0, calls.ENDED) + opaque(answer)))
        capture.packet(20, True, calls.device_read(7, 100, 0).encode(1))
        capture.packet(21, False, replies[0])
        status, text = self.folder.compare(
            capture, *told(0), "--slack", "0", *given, replies=replies[1:]
        )
        self.assertEqual(status, 1, text)
        return text

    def test_voltages_without_a_scenario(self) -> None:
        hint = "capture: without --scenario all inputs are 0 V; give the scenario of the session\n"
        for found, other in (
            (b"+1.250000\n", b"+0.000000\n"),
            (b"-0.300000\n", b"+0.000000\n"),
            (b"+0.000000,-10.000000\n", b"+0.000000,+0.000000\n"),
        ):
            self.assertTrue(self.read(found, other).endswith(hint), found)
        for found, other in (
            (b"+1.250000\n", b"+1.260000\n"),
            (b"SV31\n", b"SV32\n"),
            (b"+0.000000\n", b"+1.250000\n"),
        ):
            self.assertNotIn(hint, self.read(found, other))
        scenario = self.folder.write("scenario", "0 external\n")
        self.assertNotIn(hint, self.read(b"+1.250000\n", b"+0.000000\n", "--scenario", scenario))


class Signals(unittest.TestCase):
    """If the command is ended by a signal, no replaying program remains, whatever that does."""

    def setUp(self) -> None:
        hear_hangups(self)

    def test_a_program_that_is_busy(self) -> None:
        for how in (signal.SIGTERM, signal.SIGINT, signal.SIGHUP, signal.SIGKILL):
            with self.subTest(how):
                self.leaves_none(how, "exec sleep 60\n")

    def test_a_program_that_is_stopped(self) -> None:
        self.leaves_none(signal.SIGKILL, "kill -STOP $$\n")
        self.leaves_none(signal.SIGTERM, "kill -STOP $$\n")

    def leaves_none(self, how: signal.Signals, text: str) -> None:
        folder = Folder()
        self.addCleanup(folder.close)
        capture = Capture(10)
        capture.asks(100, 1, words(7))
        # A process that is killed within the moment in which it starts a program may leave that.
        program = folder.write(
            "busy", "#!/bin/sh\nsleep 0.5; echo $$ > $0.new; mv $0.new $0.pid\n" + text, 0o755
        )
        captured = folder.captured(capture)
        process = folder.begin(
            "compare", captured, *told(0), "--program", program, CAPTURE=captured
        )
        end = time.monotonic() + 20
        while not (folder.path / "busy.pid").exists() and time.monotonic() < end:
            time.sleep(0.01)
        number = int((folder.path / "busy.pid").read_text())
        try:
            process.send_signal(how)
            process.communicate(timeout=20)
            self.assertTrue(goes(number))
        finally:
            process.kill()
            kill(number)


class Starts(unittest.TestCase):
    """The voltage shows whether a line of the scenario was due."""

    def setUp(self) -> None:
        self.folder = Folder()
        self.addCleanup(self.folder.close)

    def asked(self, time: int, value: int) -> Capture:
        """A capture in which the voltage is read at this time."""
        capture = Capture(time)
        capture.asks(time, 1, words(value))
        return capture

    def test_a_start_that_is_told_59_ms_late_is_found(self) -> None:
        status, text = self.folder.compare(
            self.asked(1030, 2),
            *told(59),
            "--other-starts",
            scenario="0 input 1 1\n1000 input 1 2\n",
        )
        self.assertEqual(status, 0, text)
        self.assertIn("earlier", text)

    def test_a_start_that_is_told_too_early_is_found(self) -> None:
        status, text = self.folder.compare(
            self.asked(980, 1),
            *told(-59),
            "--other-starts",
            scenario="0 input 1 1\n1000 input 1 2\n",
        )
        self.assertEqual(status, 0, text)
        self.assertIn("later", text)

    def test_a_start_that_is_not_told_is_found(self) -> None:
        status, text = self.folder.compare(
            self.asked(20030, 2), scenario="0 input 1 1\n20000 input 1 2\n"
        )
        self.assertEqual(status, 0, text)

    def test_a_start_that_is_told_is_taken(self) -> None:
        """Another start would make the replies equal, but isn't tried."""
        status, text = self.folder.compare(
            self.asked(1030, 2), *told(59), scenario="0 input 1 1\n1000 input 1 2\n"
        )
        self.assertEqual(status, 1, text)
        self.assertNotIn("other starts of the server", text)
        self.assertIn(
            "--start may be wrong; `make serve` prints it. --other-starts tries others\n", text
        )

    def test_a_start_far_from_the_session(self) -> None:
        """Both times are named."""
        for start, how in (-61000, "61.010 s before"), (10**8, "99999.990 s after"):
            capture = self.asked(10, 0)
            status, text = self.folder.compare(capture, *told(start))
            self.assertEqual(
                (status, text),
                (
                    2,
                    (
                        f"scanvolt-capture: --start {(START + start) / 1000:.3f} is {how} the first packet of the session, "
                        "which came at 1700000000.010; --far-start takes it\n"
                    ),
                ),
            )
            self.assertEqual(self.folder.compare(capture, *told(start), "--far-start")[0], 0)
        self.assertEqual(self.folder.compare(self.asked(10, 0), *told(-59000))[0], 0)

    def test_the_start_may_be_what_is_wrong(self) -> None:
        scenario = "0 input 1 1\n1000 input 1 2\n"
        status, text = self.folder.compare(self.asked(980, 7), scenario=scenario)
        self.assertEqual(status, 1, text)
        self.assertIn("the start may be wrong: without --start", text)
        status, text = self.folder.compare(self.asked(980, 7), *told(0), scenario=scenario)
        self.assertEqual(status, 1, text)
        self.assertIn("--start may be wrong; `make serve` prints it", text)


class Faults(unittest.TestCase):
    """If a comparison can't be made, the status is 2, and one line says why."""

    def setUp(self) -> None:
        self.folder = Folder()
        self.addCleanup(self.folder.close)
        self.capture = Capture(10)
        self.capture.asks(100, 1, words(0))

    def is_fault(self, reason: str, *given: str, path: str | None = None) -> None:
        """Runs a command. Checks that its status is 2, and that it gives this reason."""
        status, text = self.folder.run(*given, path=path)
        self.assertEqual((status, text.count("\n")), (2, 1), text)
        self.assertRegex(text, "^scanvolt-capture: " + reason)

    def is_wrong(self, reason: str) -> None:
        """Checks that the capture is refused with status 2, and for this reason."""
        status, text = self.folder.compare(self.capture, *told(0))
        self.assertEqual((status, text.count("\n")), (2, 1), text)
        self.assertRegex(text, "^scanvolt-capture: " + reason)

    def test_there_is_none(self) -> None:
        self.is_fault("there is no capture /nonexistent$", "script", "/nonexistent")

    def test_tshark_is_missing(self) -> None:
        capture = self.folder.captured(self.capture)
        self.is_fault(
            "tshark is missing: it is Debian's package tshark$",
            "script",
            capture,
            path="/nonexistent",
        )

    def test_tshark_cannot_read_it(self) -> None:
        self.folder.write(
            "tshark", "#!/bin/sh\necho of no use >&2\necho it is cut short >&2\nexit 2\n", 0o755
        )
        self.is_fault(
            "tshark can't read it: it is cut short$", "script", self.folder.captured(self.capture)
        )

    def test_what_is_no_capture(self) -> None:
        """tshark reads a file of lines of text as packets, too."""
        for text in ("", "hello\n", "time,1\n0,1\n", "{}\n", "\n\r\r"):
            path = self.folder.write("other", text)
            self.is_fault(
                f"{path} isn't a capture: it begins neither as a pcap file nor as a pcapng file$",
                "compare",
                path,
            )

    def test_a_packet_that_is_not_whole(self) -> None:
        self.capture.lines[-1] = self.capture.lines[-1].rpartition("\t")[0] + "\t60"
        self.is_wrong("packet 5 has 60 of its [0-9]+ bytes: capture whole packets$")

    def test_bytes_that_the_capture_lacks(self) -> None:
        del self.capture.followed[-4:]
        self.is_wrong(
            "127.0.0.1:50000 to 127.0.0.1:4096: the capture lacks bytes from 0 on that the callee sent$"
        )

    def test_bytes_in_whose_place_tshark_says_so(self) -> None:
        place = base64.b64encode(b"[32 bytes missing in capture file]\0").decode()
        self.capture.followed[-1] = "      " + place
        self.is_wrong(".*: the capture lacks bytes from 0 on that the callee sent$")

    def test_bytes_that_the_other_side_has(self) -> None:
        self.capture.sent[0] += 7
        self.capture.packet(300, False)
        self.is_wrong(f".*: the capture lacks bytes from {len(call(1))} on that the caller sent$")

    def test_a_connection_that_began_before(self) -> None:
        del self.capture.lines[:1]
        self.is_wrong("packet 2: the connection 127.0.0.1:4096 to .* began before the capture$")

    def test_no_connection_to_the_server(self) -> None:
        status, text = self.folder.compare(self.capture, "--core", "5096", *told(0))
        self.assertEqual(status, 2)
        self.assertIn("the capture has no connection to the ports 111, 4097, 4111, 5096", text)

    def test_a_scenario_with_a_bad_line(self) -> None:
        status, text = self.folder.compare(self.capture, scenario="0 external\n1 input 1 1.5\n")
        self.assertEqual(status, 2)
        self.assertRegex(
            text, "scanvolt-capture: bad line 2 of the scenario /.*/scenario: a voltage is"
        )

    def test_a_start_that_is_none(self) -> None:
        status, text = self.folder.compare(self.capture, "--start", "noon")
        self.assertEqual((status, text), (2, "scanvolt-capture: not a time in seconds: 'noon'\n"))

    def test_a_program_that_cannot_be_run(self) -> None:
        status, text = self.folder.compare(self.capture, *told(0), program="/nonexistent")
        self.assertEqual(
            (status, text),
            (2, "scanvolt-capture: /nonexistent doesn't run: No such file or directory\n"),
        )


if __name__ == "__main__":
    unittest.main()
