"""Made-up captures, for the tests of scanvolt-capture.

They are lines such as tshark prints, of a session with a server that answers each call with one word: the
voltage of channel 1, in microvolts. Here small scripts take the place of `tshark` and `scanvolt replay`.
"""

from __future__ import annotations

import base64
import contextlib
import io
import os
import pathlib
import subprocess
import sys
import tempfile
from collections.abc import Sequence
from unittest import mock

from scanvolt.capturing.command import main
from scanvolt.vxi11 import calls, encode_reply, words

START = 1_700_000_000_000  # when the server was ready, in milliseconds since 1970
SYN, ACK = 2, 16
MAGIC = "\n\r\r\n"  # how a pcapng file begins
ENDS = (("127.0.0.1", 50000), ("127.0.0.1", 4096))

TSHARK = """#!/bin/sh
case " $* " in
*" fields "*) cat "$CAPTURE.packets" ;;
*) cat "$CAPTURE.followed" ;;
esac
"""
# The answer to each turn is the next line of REPLIES, if there is one, or else the voltage.
REPLAY = """#!/bin/sh
exec awk -v replies="$REPLIES" -v front=FRONT -v behind=BEHIND '
$1 == "input" && $2 == 0 { print "refused 8" }
$1 == "input" && $2 == 1 { value = $3 }
$1 == "turn" && (getline line < replies) > 0 { print "c" $2 " " line; next }
$1 == "turn" { printf "c%d %s%08x%s%08x\\n", $2, front, ++xid, behind, value }'
"""


def replay() -> str:
    """The script that replays. It writes a reply from the bytes before its xid, the xid, those after it, and a word."""
    reply = encode_reply(0, words(0)).hex()
    return REPLAY.replace("FRONT", reply[:8]).replace("BEHIND", reply[16:-8])


def call(xid: int) -> bytes:
    """A call of device_readstb."""
    return calls.device_readstb(0, 0).encode(xid)


class Capture:
    """A connection to the core port, packet by packet. Times are in milliseconds since START."""

    def __init__(self, opened: int) -> None:
        self.lines: list[str] = []
        self.followed = ["peers:"]
        self.sent = [0, 0]
        self.packet(opened, True, flags=SYN)
        self.packet(opened, False, flags=SYN | ACK)
        self.packet(opened, True)

    def packet(self, time: int, called: bool, data: bytes = b"", flags: int = ACK) -> None:
        """Adds a packet of the caller, or of the server."""
        side = 0 if called else 1
        source, target = ENDS[side], ENDS[1 - side]
        number, size = len(self.lines) + 1, 66 + len(data)
        fields = [
            number,
            f"{(START + time) / 1000:.6f}",
            0,
            *source,
            *target,
            self.sent[side],
            self.sent[1 - side],
            hex(flags),
            len(data),
            size,
            size,
        ]
        self.lines.append("\t".join(map(str, fields)))
        self.sent[side] += len(data) + (1 if flags & SYN else 0)
        if data:
            self.followed += [
                f"  - packet: {number}",
                f"    peer: {side}",
                "    data: !!binary |",
                "      " + base64.b64encode(data).decode(),
            ]

    def asks(self, time: int, xid: int, result: bytes, taking: int = 1) -> None:
        """Adds a call, and its reply `taking` milliseconds later."""
        self.packet(time, True, call(xid))
        self.packet(time + taking, False, encode_reply(xid, result))


class Folder:
    """A folder with the scripts, in which captures are compared."""

    def __init__(self) -> None:
        self.temporary = tempfile.TemporaryDirectory(prefix="capture-")
        self.path = pathlib.Path(self.temporary.name)
        self.write("tshark", TSHARK, 0o755)
        self.replay = self.write("replay", replay(), 0o755)

    def close(self) -> None:
        self.temporary.cleanup()

    def write(self, name: str, text: str, mode: int = 0o644) -> str:
        """Writes a file. Returns its path."""
        path = self.path / name
        path.write_bytes(text.encode())
        path.chmod(mode)
        return str(path)

    def run(self, *given: str, path: str | None = None, **variables: str) -> tuple[int, str]:
        """Runs the command. Returns its status, and what it prints."""
        variables["PATH"] = f"{self.path}:{os.environ['PATH']}" if path is None else path
        printed = io.StringIO()
        with mock.patch.dict(os.environ, variables), mock.patch(
            "signal.signal"
        ), contextlib.redirect_stdout(printed), contextlib.redirect_stderr(printed):
            return main(list(given)), printed.getvalue()

    def begin(self, *given: str, **variables: str) -> subprocess.Popen[bytes]:
        """Starts the command in a process of its own."""
        variables["PATH"] = f"{self.path}:{os.environ['PATH']}"
        text = (
            "import signal, sys; signal.signal(signal.SIGINT, signal.default_int_handler)\n"
            "from scanvolt.capturing.command import main; sys.exit(main())"
        )
        return subprocess.Popen(
            [sys.executable, "-c", text, *given],
            env=dict(os.environ, **variables),
            cwd=pathlib.Path(__file__).resolve().parent.parent,
            stdout=subprocess.PIPE,
            stderr=subprocess.DEVNULL,
        )

    def captured(self, capture: Capture) -> str:
        """Writes a capture, and what `tshark` prints for it. Returns its path."""
        self.write("captured.packets", "\n".join(capture.lines) + "\n")
        self.write("captured.followed", "\n".join(capture.followed) + "\n")
        return self.write("captured", MAGIC)

    def compare(
        self,
        capture: Capture,
        *given: str,
        program: str | None = None,
        scenario: str | None = None,
        replies: Sequence[bytes] = (),
    ) -> tuple[int, str]:
        """Compares. Returns the status, and the lines that are printed."""
        captured = self.captured(capture)
        stored = self.write("replies", "".join(one.hex() + "\n" for one in replies))
        command = ["compare", captured, "--program", program or self.replay, *given]
        if scenario is not None:
            command += ["--scenario", self.write("scenario", scenario)]
        return self.run(*command, CAPTURE=captured, REPLIES=stored)
