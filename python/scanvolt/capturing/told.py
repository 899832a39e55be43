"""What is printed about a comparison."""

from __future__ import annotations

import re

from ..vxi11 import CallMessage, Reader, XdrError, calls
from .compare import Comparison, Difference
from .flows import Connection, Flow, Point, Reply, reply_at
from .session import Session

ROW = 16  # bytes of a row
AROUND = 2  # rows that are shown before the one that differs, and after it
TEXT_MOST = 100  # characters of a message that are shown
READING, NO_VOLTS = re.compile(rb"[+-][0-9]+[.][0-9]{6}"), b"+0.000000"


def counted(count: int, one: str, many: str | None = None) -> str:
    noun = one if count == 1 else many or one + "s"
    return f"{count} {noun}"


def summary(session: Session) -> str:
    """How many connections, calls, replies and bytes the capture has."""
    flows = session.flows()
    count = sum(len(one.calls) for one in session.connections)
    told = [
        counted(len(session.connections), "connection"),
        counted(count, "call"),
        counted(sum(len(flow.replies) for flow in flows), "reply", "replies"),
        counted(sum(len(flow.wanted) for flow in flows), "byte") + " of them",
    ]
    if session.channels:
        told.insert(1, counted(len(session.channels), "interrupt channel"))
    if session.dropped:
        told.append(counted(session.dropped, "connection") + " beyond the sixteenth left out")
    if session.unseen:
        told.append(counted(session.unseen, "interrupt channel") + " not in the capture")
    return ", ".join(told)


def moves(comparison: Comparison, ticks: list[int]) -> str:
    """How many points have other ticks than the times of their packets say, and by how much."""
    points, early = comparison.points, comparison.early
    found = [abs(max(0, point.ticks + early) - count) for point, count in zip(points, ticks)]
    count = sum(1 for one in found if one)
    start = ""
    if early:
        side = "earlier" if early > 0 else "later"
        start = f" of a start {abs(early)} ms {side}"
    if comparison.swapped:
        start += f", {counted(comparison.swapped, 'call')} taken after another connection's"
    if not count:
        return "at the ticks of the capture's times" + start
    return (
        f"with the ticks of {count} of {len(points)} events moved by at most {max(found)} ms{start}"
    )


def seconds(points: list[Point], place: int) -> str:
    return f"{points[place].time / 1e9:.3f} s after the start"


def told(session: Session, difference: Difference) -> list[str]:
    """The lines that show a difference."""
    points, flow = session.points, difference.flow
    when = seconds(points, difference.point)
    if flow is None:
        return [
            f"the replay refuses an event {when}: refused {difference.found.decode()}",
            "  of: " + "; ".join(shown_line(line) for line in points[difference.point].lines),
        ]
    reply = reply_at(flow, difference.place)
    if reply is None:
        number, name = len(flow.replies) + 1, "no whole reply in the capture"
        begin, end = (flow.replies[-1].end if flow.replies else 0), len(flow.wanted)
    else:
        number, name = flow.replies.index(reply) + 1, reply.name
        begin, end = reply.start, reply.end
    what = {
        "differs": "differs",
        "missing": "isn't sent by the replay until then",
        "more": "isn't in the capture",
    }[difference.kind]
    lines = [f"reply {number} ({name}) of {flow.name} {what}, {when}"]
    lines += messages(session, flow, reply)
    place = difference.place - begin
    if difference.kind == "differs":
        wanted, found = flow.wanted[difference.place], difference.found[difference.place]
        lines.append(
            f"  byte {place} of the reply: {wanted:02x} in the capture, {found:02x} in the replay"
        )
    if end > begin:
        lines += shown("the capture", bytes(flow.wanted[begin:end]), place)
    if difference.found:
        last = end if difference.kind == "differs" else None
        lines += shown("the replay", bytes(difference.found[begin:last]), place)
    return lines


def shown(where: str, data: bytes, place: int) -> list[str]:
    """Bytes in rows around a place: the number of each row's first byte, the bytes, and their text."""
    row = place // ROW
    starts = range(max(0, row - AROUND) * ROW, min(len(data), (row + AROUND + 1) * ROW), ROW)
    lines = [f"  {len(data)} bytes in {where}:"]
    for start in starts:
        piece = data[start : start + ROW]
        mark, text = ">" if start == row * ROW else " ", "".join(map(shown_byte, piece))
        lines.append(f"  {mark} {start:6d}  {piece.hex(' ', -4):<35}  {text}")
    return lines


def shown_byte(byte: int) -> str:
    """A printable byte as text, any other as a point."""
    return chr(byte) if 32 <= byte < 127 else "."


def messages(session: Session, flow: Flow, reply: Reply | None) -> list[str]:
    """The line that shows the last message written before a reply, on the reply's link if its call has one."""
    connection = next((one for one in session.connections if one.flow is flow), None)
    if connection is None or reply is None or reply.call is None:
        return []
    text = written(connection, reply.call)
    return [] if not text else ["  after the message: " + quoted(text)]


def written(connection: Connection, call: CallMessage) -> bytes:
    """The bytes of the last device_write on the same link: of this call, or of one before it."""
    place = next(number for number, one in enumerate(connection.calls) if one is call)
    for one in reversed(connection.calls[: place + 1]):
        if (one.program, one.procedure) == (calls.CORE, calls.DEVICE_WRITE):
            try:
                reader = Reader(one.arguments)
                link = [reader.word() for _ in range(4)][0]
                if call.procedure not in ON_A_LINK or Reader(call.arguments).word() == link:
                    return reader.opaque()
            except XdrError:
                continue
    return b""


# Calls of the core channel whose arguments begin with a link.
ON_A_LINK = set(calls.NAMES[calls.CORE]) - {
    calls.CREATE_LINK,
    calls.CREATE_INTR_CHAN,
    calls.DESTROY_INTR_CHAN,
}


def quoted(text: bytes) -> str:
    """A message in quotes, with bytes that aren't text escaped. Of a long one, its end."""
    found = text.decode("latin-1").encode("unicode_escape").decode()
    return f'"{found}"' if len(found) <= TEXT_MOST else f'.."{found[-TEXT_MOST:]}"'


def start_of(comparison: Comparison) -> str:
    """A hint that the start may be wrong."""
    if comparison.told:
        begin = "--start may be wrong"
    else:
        begin = "the start may be wrong: without --start it is the time of the first packet"
    if comparison.others:
        end = f"Starts up to {comparison.farthest} ms off were tried"
    else:
        end = "--other-starts tries others"
    return f"{begin}; `make serve` prints it. {end}"


def lacks_voltages(difference: Difference) -> bool:
    """Whether a reading is 0 V in the replay, and another one in the capture."""
    flow = difference.flow
    reply = reply_at(flow, difference.place) if flow else None
    if flow is None or reply is None or difference.kind != "differs":
        return False
    both = zip(
        READING.findall(flow.wanted[reply.start : reply.end]),
        READING.findall(difference.found[reply.start :]),
    )
    return next((found for wanted, found in both if wanted != found), None) == NO_VOLTS


def shown_line(line: str) -> str:
    return line if len(line) <= 60 else line[:60] + ".."
