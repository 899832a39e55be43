"""scanvolt-capture with captures that tshark itself reads: segments that come twice, too early or not at all.

These tests write the packets as pcap files have them, by their bytes.
"""

from __future__ import annotations

import contextlib
import io
import pathlib
import struct
import tempfile
import unittest
from unittest import mock

from scanvolt.capturing import virtually
from scanvolt.capturing.command import main
from scanvolt.capturing.packets import Fault, packets
from scanvolt.capturing.streams import Stream, streams
from scanvolt.virtual import Meter
from scanvolt.vxi11 import calls, encode_reply

FIN, SYN, RST, ACK = 1, 2, 4, 16
SERVER, CLIENT = 4096, 50000
PCAP = struct.pack("=IHHiIII", 0xA1B2C3D4, 2, 4, 0, 0, 65535, 101)  # raw IPv4
BEGIN = 2**32 - 20  # the first sequence number; it soon passes 2^32


def segment(
    time: int,
    called: bool,
    seq: int,
    ack: int,
    flags: int,
    data: bytes = b"",
    keep: int | None = None,
) -> bytes:
    """A packet of a capture, at a millisecond: from the client, or from the server."""
    ports = (CLIENT, SERVER) if called else (SERVER, CLIENT)
    tcp = (
        struct.pack(">HHIIBBHHH", *ports, seq % 2**32, ack % 2**32, 0x50, flags, 65535, 0, 0)
        + data
    )
    ip = struct.pack(
        ">BBHHHBBH4s4s", 0x45, 0, 20 + len(tcp), 1, 0x4000, 64, 6, 0, b"\x7f\0\0\1", b"\x7f\0\0\1"
    )
    kept = (ip + tcp)[:keep]
    return (
        struct.pack(
            "=IIII", 1700000000 + time // 1000, time % 1000 * 1000, len(kept), len(ip + tcp)
        )
        + kept
    )


class Captured:
    """A capture: segments of one connection, whose bytes are counted from 0 in both directions."""

    def __init__(self) -> None:
        self.segments: list[bytes] = []
        self.add(0, True, -1, flags=SYN, ack=None)
        self.add(0, False, -1, flags=SYN | ACK, ack=0)
        self.add(0, True, 0)

    def add(
        self,
        time: int,
        called: bool,
        place: int,
        data: bytes = b"",
        flags: int = ACK,
        ack: int | None = 0,
        keep: int | None = None,
    ) -> None:
        """Adds a segment: where its bytes lie, and how many bytes of the other direction its sender acknowledges."""
        known = 0 if ack is None else BEGIN + 1 + ack
        self.segments.append(segment(time, called, BEGIN + 1 + place, known, flags, data, keep))


class Reading(unittest.TestCase):
    """How a stream is put together."""

    def setUp(self) -> None:
        temporary = tempfile.TemporaryDirectory(prefix="tshark-")
        self.addCleanup(temporary.cleanup)
        self.path = pathlib.Path(temporary.name) / "session.pcap"
        self.captured = Captured()

    def read(self) -> Stream:
        self.path.write_bytes(PCAP + b"".join(self.captured.segments))
        found = streams(str(self.path), packets(str(self.path)), {SERVER})
        self.assertEqual(len(found), 1)
        return found[0]

    def told(self) -> list[tuple[int, str, bytes]]:
        """What happened: the packet's number, the kind, and the bytes."""
        return [(one.number, one.kind, one.data) for one in self.read().happenings]

    def is_fault(self, reason: str) -> None:
        with self.assertRaisesRegex(Fault, reason):
            self.read()

    def test_in_order(self) -> None:
        self.captured.add(1, True, 0, b"0123456789abcdefghij")
        self.captured.add(2, False, 0, b"reply", ack=20)
        self.captured.add(3, True, 20, b"end", FIN | ACK, ack=5)
        self.captured.add(4, False, 5, b"!", FIN | ACK, ack=24)
        self.captured.add(5, True, 24, ack=7)
        self.assertEqual(
            self.told(),
            [
                (3, "opened", b""),
                (4, "sent", b"0123456789abcdefghij"),
                (5, "answered", b"reply"),
                (6, "sent", b"end"),
                (7, "answered", b"!"),
                (7, "closed", b""),
            ],
        )
        self.assertEqual(self.read().left, 1700000000003 * 10**6)

    def test_what_comes_twice(self) -> None:
        self.captured.add(1, True, 0, b"abc")
        self.captured.add(2, True, 0, b"abc")
        self.captured.add(3, True, 1, b"bcdef")
        self.captured.add(4, False, 0, ack=6)
        self.assertEqual(
            self.told(), [(3, "opened", b""), (4, "sent", b"abc"), (6, "sent", b"def")]
        )

    def test_what_comes_too_early(self) -> None:
        self.captured.add(1, True, 3, b"def")
        self.captured.add(2, False, 0, b"answer")
        self.captured.add(3, True, 0, b"abc")
        self.captured.add(4, False, 6, ack=6)
        self.assertEqual(
            self.told(),
            [
                (3, "opened", b""),
                (5, "answered", b"answer"),
                (6, "sent", b"abc"),
                (6, "sent", b"def"),
            ],
        )

    def test_resets(self) -> None:
        for called, kind in (True, "reset"), (False, "closed"):
            self.captured = Captured()
            self.captured.add(1, True, 0, b"abc")
            self.captured.add(
                2, called, 3 if called else 0, flags=RST | ACK, ack=0 if called else 3
            )
            self.assertEqual(self.told(), [(3, "opened", b""), (4, "sent", b"abc"), (5, kind, b"")])

    def test_a_reset_behind_the_end(self) -> None:
        """The server closed first, so a reset is ignored."""
        self.captured.add(1, True, 0, b"abc")
        self.captured.add(2, False, 0, b"def", FIN | ACK, ack=3)
        self.captured.add(3, True, 3, b"ghi", ack=3)
        self.captured.add(4, True, 6, flags=RST | ACK, ack=3)
        self.assertEqual(
            self.told(),
            [(3, "opened", b""), (4, "sent", b"abc"), (5, "answered", b"def"), (5, "closed", b"")],
        )

    def test_what_is_lacking(self) -> None:
        self.captured.add(1, True, 0, b"abc")
        self.captured.add(2, True, 6, b"ghi")
        self.is_fault(
            "127.0.0.1:50000 to 127.0.0.1:4096: the capture lacks bytes from 3 on that the caller sent"
        )
        self.captured.add(3, False, 0, ack=9)
        self.is_fault("lacks bytes from 3 on that the caller sent")
        self.captured = Captured()
        self.captured.add(1, True, 0, b"abc", ack=40)
        self.is_fault("lacks bytes from 0 on that the callee sent")

    def test_a_packet_that_is_cut(self) -> None:
        self.captured.add(1, True, 0, b"abcdef", keep=42)
        self.is_fault("packet 4 has 42 of its 46 bytes: capture whole packets")

    def test_a_capture_that_begins_late(self) -> None:
        del self.captured.segments[0]
        self.is_fault("packet 1: the connection 127.0.0.1:4096 to .* began before the capture")

    def test_a_capture_that_is_cut(self) -> None:
        self.read()
        self.path.write_bytes(self.path.read_bytes()[:-5])
        with self.assertRaisesRegex(
            Fault, "tshark can't read it: .*cut short in the middle of a packet"
        ):
            packets(str(self.path))

    def test_what_is_no_capture(self) -> None:
        with self.assertRaisesRegex(
            Fault, "isn't a capture: it begins neither as a pcap file nor as a pcapng file"
        ):
            packets(__file__)
        self.path.write_bytes(PCAP[:4] + bytes(200))
        with self.assertRaisesRegex(Fault, "tshark can't read it: "):
            packets(str(self.path))


class Comparing(unittest.TestCase):
    """A session with a meter, written as packets."""

    SESSION = (
        calls.create_link(),
        calls.device_write(1, b"*IDN?\n", 0),
        calls.device_read(1, 99, 0),
        calls.device_write(1, b"MEAS:VOLT? (@1)\n", 0),
        calls.device_read(1, 99, 9),
    )

    def replies(self) -> list[bytes]:
        """The replies of the meter."""
        with Meter() as meter, meter.connect() as connection:
            found = []
            for call in self.SESSION:
                pending = connection.start(call)
                pending.result()
                found.append(encode_reply(pending.xid, pending._body[len(encode_reply(0)) - 4 :]))
            return found

    def compared(self, replies: list[bytes], *given: str, mode: str = "compare") -> tuple[int, str]:
        """The status and the lines of a comparison. Each segment comes in two parts, the second one first."""
        captured = Captured()
        counts = [0, 0]
        for xid, (call, reply) in enumerate(zip(self.SESSION, replies), 1):
            for side, data in (0, call.encode(xid)), (1, reply):
                for start, end in (20, len(data)), (0, 20):
                    captured.add(
                        10 * xid + side,
                        side == 0,
                        counts[side] + start,
                        data[start:end],
                        ack=counts[1 - side],
                    )
                counts[side] += len(data)
        with tempfile.NamedTemporaryFile(suffix=".pcap") as file:
            file.write(PCAP + b"".join(captured.segments))
            file.flush()
            printed = io.StringIO()
            with mock.patch("signal.signal"), contextlib.redirect_stdout(printed):
                status = main([mode, file.name, *given])
            return status, printed.getvalue()

    def test_a_session_is_equal(self) -> None:
        status, text = self.compared(self.replies())
        self.assertEqual(status, 0, text)
        self.assertIn("1 connection, 5 calls, 5 replies,", text)

    def test_a_session_explained(self) -> None:
        """As a script, and as the capture itself. A capture that is cut short is a fault."""
        status, text = self.compared(self.replies(), mode="explain")
        self.assertEqual(status, 0, text)
        self.assertIn('c0 link 1  device_write "*IDN?\\n" -> 6 bytes', text)
        self.assertIn("no call waits", text)
        status, text = self.compared(self.replies(), "--why", "RQS", mode="explain")
        self.assertEqual(
            (status, text.split("\n")[0]), (0, "STB.RQS is clear, and was so at power on")
        )
        with mock.patch(__name__ + ".PCAP", PCAP[:-4]), contextlib.redirect_stderr(
            io.StringIO()
        ) as told:
            self.assertEqual(self.compared(self.replies(), mode="explain")[0], 2)
        self.assertRegex(told.getvalue(), "^scanvolt-capture explain: .*\n$")

    def test_a_session_again_in_virtual_time(self) -> None:
        status, text = self.compared(self.replies(), mode="virtual")
        self.assertEqual(status, 0, text)
        self.assertIn(
            "capture: 5 replies and 0 service requests are the same in virtual time\n", text
        )

    def test_what_differs_in_virtual_time(self) -> None:
        with tempfile.NamedTemporaryFile("w", suffix=".scenario") as scenario:
            scenario.write("0 input 1 1000000\n")
            scenario.flush()
            with mock.patch.object(
                virtually, "Meter", lambda program, _: Meter(program, scenario.name)
            ):
                status, text = self.compared(self.replies(), mode="virtual")
        self.assertEqual(status, 1, text)
        self.assertRegex(
            text,
            "capture: reply 5 \\(device_read\\) of .*: [0-9a-f]+ in the capture, [0-9a-f]+ in virtual",
        )

    def test_a_name_that_differs(self) -> None:
        replies = self.replies()
        replies[2] = replies[2].replace(b"SV32", b"SV31")
        status, text = self.compared(replies)
        self.assertEqual(status, 1, text)
        self.assertIn('  after the message: "*IDN?\\n"', text)
        self.assertRegex(text, "byte [0-9]+ of the reply: 31 in the capture, 32 in the replay")
        self.assertRegex(text, "(?s)in the capture:.*SV31.*in the replay:.*SV32")


if __name__ == "__main__":
    unittest.main()
