"""The TCP packets of a capture, as tshark reads them."""

from __future__ import annotations

import os
import subprocess
from collections.abc import Sequence
from dataclasses import dataclass

FIELDS = (
    "frame.number",
    "frame.time_epoch",
    "tcp.stream",
    "ip.src",
    "tcp.srcport",
    "ip.dst",
    "tcp.dstport",
    "tcp.seq",
    "tcp.ack",
    "tcp.flags",
    "tcp.len",
    "frame.len",
    "frame.cap_len",
)
# TCP alone. Sequence numbers begin with 0.
PLAIN = (
    "-o",
    "tcp.desegment_tcp_streams:FALSE",
    "-o",
    "tcp.relative_sequence_numbers:TRUE",
    "-o",
    "tcp.analyze_sequence_numbers:TRUE",
    "--disable-protocol",
    "rpc",
)
FIN, SYN, RST, ACK = 1, 2, 4, 16
# How a capture begins: pcap in both orders of bytes, with times in micro- or nanoseconds, and pcapng. tshark also reads
# them compressed, by gzip, zstd or lz4. It would read any lines of text as packets, too.
BEGINNINGS = tuple(
    map(
        bytes.fromhex,
        (
            "a1b2c3d4",
            "d4c3b2a1",
            "a1b23c4d",
            "4d3cb2a1",
            "a1b2cd34",
            "34cdb2a1",
            "0a0d0d0a",
            "1f8b",
            "28b52ffd",
            "04224d18",
        ),
    )
)
End = tuple[str, int]


class Fault(Exception):
    """Why a capture, or what else was given, can't be used."""


@dataclass(frozen=True)
class Packet:
    """A packet. The time is in nanoseconds since 1970, source and target are an address and a port, and size
    is how many bytes of the stream it has.
    """

    number: int
    time: int
    stream: int
    source: End
    target: End
    seq: int
    ack: int
    flags: int
    size: int


def address(end: End) -> str:
    """An end of a connection: `127.0.0.1:4096`."""
    host, port = end
    return f"{host}:{port}"


def moment(time: int) -> str:
    """Nanoseconds, in seconds to the millisecond."""
    return f"{time // 10 ** 9}.{time // 10 ** 6 % 1000:03d}"


def nanoseconds(text: str) -> int:
    """A decimal number of seconds, in nanoseconds."""
    whole, _, part = text.partition(".")
    if not (whole + part).isascii() or not (whole + part).isdigit():
        raise Fault(f"not a time in seconds: {text!r}")
    return int(whole or "0") * 10**9 + int(part[:9].ljust(9, "0"))


def must_be_capture(path: str) -> None:
    """Raises Fault unless this file begins as a capture does."""
    if not os.path.isfile(path):
        raise Fault(f"there is no capture {path}")
    try:
        with open(path, "rb") as file:
            begin = file.read(4)
    except OSError as fault:
        raise Fault(f"{path} can't be read: {fault.strerror}") from None
    if not begin.startswith(BEGINNINGS):
        raise Fault(
            f"{path} isn't a capture: it begins neither as a pcap file nor as a pcapng file"
        )


def tshark(path: str, words: Sequence[str]) -> list[str]:
    """The lines that tshark prints for a capture."""
    must_be_capture(path)
    try:
        told = subprocess.run(
            ["tshark", "-n", "-r", path, *PLAIN, *words],
            stdin=subprocess.DEVNULL,
            capture_output=True,
            text=True,
            check=False,
        )
    except FileNotFoundError:
        raise Fault("tshark is missing: it is Debian's package tshark") from None
    if told.returncode != 0:
        why = [line for line in told.stderr.splitlines() if "dangerous" not in line]
        raise Fault("tshark can't read it: " + (why[-1] if why else f"status {told.returncode}"))
    return told.stdout.splitlines()


def packet(line: str) -> Packet:
    """The packet that a line of tshark's output describes."""
    number, time, stream, *ends, seq, ack, flags, size, length, kept = line.split("\t")
    source, from_port, target, to_port = ends
    if kept != length:
        raise Fault(f"packet {number} has {kept} of its {length} bytes: capture whole packets")
    return Packet(
        int(number),
        nanoseconds(time),
        int(stream),
        (source, int(from_port)),
        (target, int(to_port)),
        int(seq),
        int(ack or "0"),
        int(flags, 16),
        int(size),
    )


def packets(path: str) -> list[Packet]:
    """The TCP packets of a capture, in its order."""
    words = ["-Y", "tcp && ip", "-T", "fields", "-E", "separator=/t", "-E", "occurrence=f"]
    words += [word for name in FIELDS for word in ("-e", name)]
    return [packet(line) for line in tshark(path, words) if line]
