"""The comparison of a server's record with what its sockets took."""
from __future__ import annotations

import pathlib
import unittest
from collections.abc import Iterable
from typing import Any

from folders import Folders

from scanvolt.vxi11 import record
from scanvolt_tools.attack.calls import Lost
from scanvolt_tools.attack.recorded import HEAD, compare

PORTS = 4096, 4097, 111
Entry = tuple[str, int, int, bytes]

# A connection gets two bytes, and is sent four; its channel is sent two calls. Then another connection has its number.
RECORD = "open 0 core\nbytes 0 0102\nturn 0\ndialed 0 ok\ntick 5\nclose c0\nopen 0 core\n"
SENT = b"".join(map(record, (b"\x11", b"\x22", b"\x33")))
PRINTED = f"refused 8\nc0 0a0b\nc0 0c0d\nrefused 8\ni0 {SENT.hex()}\nrefused 8\nc0 0e\n"
FIRST: list[Entry] = [
    ("a", 7, 4096, b""),
    ("o", 7, 0, b""),
    ("r", 7, 0, b"\1\2"),
    ("s", 7, 4, b"\x0a\x0b\x0c\x0d"),
    ("o", 9, 0, b""),
    ("p", 9, 0, b""),
]
CALLS: list[Entry] = [("s", 9, 10, b"\x80\0\0\1\x11\x80\0\0\1\x22"), ("s", 9, 5, b"\x80\0\0\1\x33")]
# A client of the control port, a connection without a place, and the second connection.
REST: list[Entry] = [
    ("x", 7, 1, b""),
    ("a", 7, 5000, b""),
    ("o", 7, 0, b""),
    ("a", 8, 4096, b""),
    ("x", 8, 0, b""),
    ("a", 8, 4096, b""),
    ("o", 8, 0, b""),
    ("s", 8, 1, b"\x0e"),
]


class Compared(Folders):
    """Of a program that prints what it is told to."""

    @property
    def at(self) -> pathlib.Path:
        return pathlib.Path(self.folder)

    def compared(
        self, entries: Iterable[Entry], record: str = RECORD, printed: str = PRINTED
    ) -> str:
        program = self.at / "program"
        (self.at / "record").write_text(record)
        (self.at / "out").write_text(printed)
        program.write_text(f"#!/bin/sh\ncat > /dev/null\ncat '{self.at / 'out'}'\n")
        program.chmod(0o700)
        (self.at / "tap").write_bytes(
            b"".join(
                HEAD.pack(ord(kind), socket, number, len(data)) + data
                for kind, socket, number, data in entries
            )
        )
        return compare(str(program), self.at, PORTS)

    def fails(self, what: str, *given: Any) -> None:
        self.assertRaisesRegex(Lost, what, self.compared, *given)

    def test_alike(self) -> None:
        self.assertIn("3 streams, 3 of them whole, 20 bytes", self.compared(FIRST + CALLS + REST))

    def test_a_byte_differs(self) -> None:
        other = [("s", 7, 4, b"\x0a\x0b\x0c\x0f") if one[0] == "s" else one for one in FIRST]
        self.fails(
            "stream 0 of the kind core: the socket took 4 bytes, the replay sends 4; .* from byte 3",
            other + CALLS + REST,
        )
        self.fails(
            "stream 0 of the kind interrupt: .* from byte 9",
            FIRST + [("s", 9, 10, b"\x80\0\0\1\x11\x80\0\0\1\x23")] + REST,
        )
        self.fails("stream 1 of the kind core", FIRST + CALLS + REST[:-1] + [("s", 8, 1, b"\x0f")])

    def test_fewer_bytes(self) -> None:
        """They are right only if the peer left, or didn't read."""
        short = [one for one in FIRST if one[0] != "s"] + [("s", 7, 2, b"\x0a\x0b")] + CALLS
        self.assertIn("3 streams, 2 of them whole", self.compared(short + REST))
        self.fails("the socket took 2 bytes, the replay sends 4", short + REST[1:])
        self.assertIn("2 of them whole", self.compared(short + [("s", 7, 2, b"")] + REST[1:]))
        self.fails(
            "the socket took 2 bytes",
            [one for one in short if one[0] != "r"] + [("r", 7, 0, b"\1")] + REST[1:],
            RECORD.replace("0102", "01"),
        )

    def test_more_bytes(self) -> None:
        self.fails(
            "the socket took 6 bytes, the replay sends 4",
            FIRST + [("s", 7, 2, b"\x0c\x0d")] + CALLS + REST,
        )

    def test_a_full_channel(self) -> None:
        """It lacks calls in the middle; never half a call, another one, or one if its peer reads."""
        lacks = ("s", 9, 6, b"\x80\0\0\1\x11"), ("s", 9, 5, b"\x80\0\0\1\x33")
        self.assertIn("2 of them whole", self.compared([*FIRST, *lacks, *REST]))
        self.fails("kind interrupt", [*FIRST, ("s", 9, 5, lacks[0][3]), lacks[1], *REST])
        self.fails("kind interrupt", [*FIRST, lacks[1], lacks[0], *REST])
        self.fails(
            "kind interrupt", [*FIRST, lacks[0], ("s", 9, 4, b"\x80\0\0\1"), lacks[1], *REST]
        )

    def test_streams_that_lack(self) -> None:
        self.fails(
            "1 streams of the kind core were opened, the record has 2", FIRST + CALLS + REST[:-2]
        )
        self.fails(
            "2 streams of the kind core were opened, the record has 1",
            FIRST + CALLS + REST,
            RECORD.replace("open 0 core\n", "", 1).replace(
                "bytes 0 0102\nturn 0\ndialed 0 ok\n", ""
            ),
            "refused 8\n",
        )
        self.fails(
            "0 streams of the kind interrupt", [one for one in FIRST if one[0] != "p"] + REST
        )

    def test_bytes_that_did_not_come(self) -> None:
        self.fails(
            "the record has bytes that didn't come",
            FIRST + CALLS + REST,
            RECORD.replace("0102", "0103"),
        )
        self.fails(
            "the record has bytes that didn't come",
            FIRST + CALLS + REST,
            RECORD.replace("0102", "010203"),
        )

    def test_a_refused_event(self) -> None:
        self.fails("refuses an event", FIRST + CALLS + REST, RECORD, PRINTED + "refused 4\n")

    def test_a_program_that_fails(self) -> None:
        (self.at / "record").write_text(RECORD)
        (self.at / "tap").write_bytes(b"")
        self.assertRaisesRegex(Lost, "isn't replayed", compare, "/bin/false", self.at, PORTS)


if __name__ == "__main__":
    unittest.main()
