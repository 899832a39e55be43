"""TCP streams, whose bytes tshark put together: what happened on each, as the server saw it."""

from __future__ import annotations

import base64
import binascii
import re
from collections import defaultdict
from collections.abc import Iterable
from dataclasses import dataclass, field

from .packets import ACK, FIN, RST, SYN, End, Fault, Packet, address, tshark

AT_ONCE = 200  # streams that one run of tshark follows
# What tshark writes in place of bytes that it doesn't have.
LACKS = re.compile(rb"\[[0-9]+ bytes missing in capture file\]\0?")


@dataclass
class Happening:
    """What happened on a stream: it was `opened`; its caller `sent` bytes; its callee `answered` with bytes; it
    was `closed` by its callee; or it was `reset` by its caller.
    """

    time: int
    number: int
    kind: str
    stream: Stream
    data: bytes = b""


@dataclass
class Stream:
    """A stream: who connected to whom, and what happened on it. `left` is when the caller ended its direction (FIN)."""

    caller: End
    callee: End
    begun: int
    left: int | None = None
    happenings: list[Happening] = field(default_factory=list)

    def name(self) -> str:
        """Who called whom, in words."""
        return f"{address(self.caller)} to {address(self.callee)}"


@dataclass
class _Piece:
    """Bytes of the caller or of the callee, in order: the packet that brought them, and the bytes that tshark prints."""

    packet: Packet
    called: bool
    data: bytes


def followed(path: str, packets: dict[int, Packet], numbers: list[int]) -> dict[int, list[_Piece]]:
    """The bytes of these streams in both directions, as tshark follows them."""
    found: dict[int, list[_Piece]] = defaultdict(list)
    for start in range(0, len(numbers), AT_ONCE):
        words = ["-q"]
        for number in numbers[start : start + AT_ONCE]:
            words += ["-z", f"follow,tcp,yaml,{number}"]
        for one in pieces(tshark(path, words), packets):
            found[one.packet.stream].append(one)
    return found


def pieces(lines: Iterable[str], packets: dict[int, Packet]) -> Iterable[_Piece]:
    """The pieces in the lines that tshark prints: `packet: NUMBER`, `peer: 0` for the caller, and after `data:`
    lines of base64.
    """
    packet: Packet | None = None
    called, text = True, ""
    for line in [*lines, "peers:"]:
        if line.startswith("      "):
            text += line.strip()
            continue
        if packet is not None and text:
            yield _Piece(packet, called, decoded(text))
            packet, text = None, ""
        head, _, number = line.partition(": ")
        if head == "  - packet":
            packet = packets.get(int(number))
            if packet is None:
                raise Fault(f"tshark follows packet {number}, which it didn't read before")
        elif head == "    peer":
            called = number == "0"


def decoded(text: str) -> bytes:
    """The bytes of a piece."""
    try:
        return base64.b64decode(text, validate=True)
    except binascii.Error:
        raise Fault(f"tshark prints what isn't base64: {text[:60]}") from None


class _Direction:
    """One direction of a stream: how much of it the capture has, and how much the other side acknowledged."""

    def __init__(self) -> None:
        self._reached = 0  # the end of the farthest packet, in bytes
        self._known = 0  # the bytes that the other side acknowledged
        self.end: Packet | None = None  # the packet that ended the direction

    def take(self, packet: Packet) -> None:
        """Takes a packet of this side. Its bytes are counted from 1: 0 is the beginning of the stream."""
        if packet.size:
            self._reached = max(self._reached, packet.seq + packet.size - 1)
        if packet.flags & FIN and self.end is None:
            self.end = packet

    def acknowledged(self, packet: Packet) -> None:
        """Takes a packet of the other side."""
        if packet.flags & ACK and not packet.flags & RST:
            self._known = max(self._known, packet.ack - 1)

    def size(self) -> int:
        """How many bytes the direction must have."""
        return max(self._reached, self._known - (1 if self.end is not None else 0))


class _Following:
    """A stream while its packets come."""

    def __init__(self, packet: Packet) -> None:
        self.stream = Stream(packet.source, packet.target, packet.time)
        self._sides = {True: _Direction(), False: _Direction()}
        self._answered = False
        self._opened: Packet | None = None
        self._reset: Packet | None = None
        self._pieces: list[_Piece] = []

    def take(self, packet: Packet) -> None:
        """Takes a packet of the stream."""
        called = packet.source == self.stream.caller
        if packet.flags & SYN:
            self._answered = self._answered or not called
            return
        if self._reset is not None or not self._answered:
            return
        self._sides[not called].acknowledged(packet)
        if called and self._opened is None:
            self._opened = packet
        if packet.flags & RST:
            self._reset = packet
            return
        self._sides[called].take(packet)
        if called and packet.flags & FIN and self.stream.left is None:
            self.stream.left = packet.time

    def play(self, found: list[_Piece]) -> None:
        """What happened, given these bytes. The bytes of a direction are in order, even if its packets weren't."""
        self._pieces = found
        if self._opened is None:
            return
        self._tell(self._opened, "opened")
        latest = {True: self._opened, False: self._opened}
        for one in found:
            latest[one.called] = later(latest[one.called], one.packet)
            self._tell(latest[one.called], "sent" if one.called else "answered", one.data)
        end = self._sides[False].end
        ends = [] if end is None else [later(end, latest[False])]
        ends += [] if self._reset is None else [self._reset]
        if ends:
            over = min(ends, key=lambda packet: packet.number)
            kept = [one for one in self.stream.happenings if one.number <= over.number]
            self.stream.happenings[:] = kept
            self._tell(over, "reset" if over.source == self.stream.caller else "closed")

    def _tell(self, packet: Packet, kind: str, data: bytes = b"") -> None:
        """Adds something that happened with this packet."""
        self.stream.happenings.append(
            Happening(packet.time, packet.number, kind, self.stream, data)
        )

    def whole(self) -> None:
        """Raises Fault if bytes are missing that a packet of the capture had or that the other side acknowledged."""
        for called, side in self._sides.items():
            count = 0
            for one in self._pieces:
                if one.called == called:
                    if LACKS.fullmatch(one.data):
                        break
                    count += len(one.data)
            if count < side.size():
                side_name = "caller" if called else "callee"
                raise Fault(
                    f"{self.stream.name()}: the capture lacks bytes from {count} on that the {side_name} sent"
                )


def later(first: Packet, second: Packet) -> Packet:
    """Which of two packets came later."""
    return first if first.number >= second.number else second


def streams(path: str, packets: list[Packet], ports: set[int]) -> list[Stream]:
    """The streams of a capture, in the order in which they began. Raises Fault if a stream of one of the server's
    ports began before the capture.
    """
    begun: dict[int, _Following] = {}
    for packet in packets:
        if packet.stream not in begun:
            if packet.flags & (SYN | ACK) != SYN:
                if packet.target[1] in ports or packet.source[1] in ports:
                    source, target = address(packet.source), address(packet.target)
                    raise Fault(
                        f"packet {packet.number}: the connection {source} to {target} began before the capture"
                    )
                continue
            begun[packet.stream] = _Following(packet)
        begun[packet.stream].take(packet)
    found = followed(path, {packet.number: packet for packet in packets}, sorted(begun))
    for number, follow in begun.items():
        follow.play(found[number])
        if follow.stream.callee[1] in ports:
            follow.whole()
    return [follow.stream for follow in begun.values()]
