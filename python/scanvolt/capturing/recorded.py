"""The record that a server kept of a session (docs/REPLAY.md), and the capture of that session: a replay of the record has to send
the bytes that the sockets took, on each connection and each interrupt channel.
"""

from __future__ import annotations

from collections.abc import Iterator, Sequence
from dataclasses import dataclass, field

from ..program import in_a_line
from ..serving.ports import ROLES
from .compare import replies
from .flows import Connection, Flow
from .packets import Fault
from .script import MARK
from .session import Session
from .told import counted, shown


@dataclass
class _Sent:
    """A connection, or an interrupt channel: the bytes that came, those that the replay sends, and a connection's channels."""

    role: str
    came: bytearray = field(default_factory=bytearray)
    sent: bytearray = field(default_factory=bytearray)
    channels: list[_Sent] = field(default_factory=list)


def read(path: str) -> list[str]:
    """The whole lines of a record."""
    try:
        with open(path, "rb") as file:
            text = file.read()
    except OSError as fault:
        raise Fault(f"{path} can't be read: {fault.strerror}") from None
    return text[: text.rfind(b"\n") + 1].decode("latin-1").splitlines()


def replayed(program: str, record: list[str], ports: tuple[int, int]) -> list[_Sent]:
    """The connections of a record in the order in which they opened, with what a replay by these ports sends."""
    marked = [one for line in record for one in (line, MARK)]
    blocks = replies(
        program, marked, len(record), ["--core", str(ports[0]), "--abort", str(ports[1])]
    )
    found: list[_Sent] = []
    now: dict[str, _Sent] = {}  # by the names that the replay prints
    for number, (line, block) in enumerate(zip(record, blocks), 1):
        if len(blocks) > len(record) or ["refused"] in [words[:1] for words in block]:
            raise Fault(
                f"the replay refuses an event of the record, line {number} or one before: {in_a_line(line.encode())}"
            )
        begin(line.split(" "), now, found)
        for name, sent in block:
            now[name].sent += bytes.fromhex(sent)
    return found


def begin(words: Sequence[str], now: dict[str, _Sent], found: list[_Sent]) -> None:
    """Takes an event of a record: a connection opens, bytes come on it, or its channel is connected."""
    if words[0] == "open":
        found.append(_Sent(words[2]))
        now["c" + words[1]] = found[-1]
    elif words[0] == "bytes":
        now["c" + words[1]].came += bytes.fromhex(words[2])
    elif words[0] == "dialed" and words[2] == "ok":
        now["i" + words[1]] = _Sent("interrupt")
        now["c" + words[1]].channels.append(now["i" + words[1]])


def differences(session: Session, found: list[_Sent]) -> Iterator[str]:
    """The lines that say how the record and the capture differ."""
    for role in ROLES:
        taken = [one for one in session.connections if one.role == role]
        sent = [one for one in found if one.role == role]
        if len(taken) != len(sent):
            yield f"{counted(len(taken), 'connection')} of the channel {role} in the capture, {len(sent)} in the record"
        for connection, one in zip(taken, sent):
            yield from of_connection(connection, one)


def of_connection(connection: Connection, one: _Sent) -> Iterator[str]:
    """How a connection and its channels differ."""
    asked = b"".join(what.data for what in connection.stream.happenings if what.kind == "sent")
    if not asked.startswith(one.came):
        yield f"{connection.flow.name}: the record has bytes that didn't come on it"
    # A peer that reset the connection took no more.
    is_reset = any(what.kind == "reset" for what in connection.stream.happenings)
    yield from of_flow(connection.flow, one, is_reset)
    if len(connection.channels) != len(one.channels):
        channels = counted(len(connection.channels), "interrupt channel")
        yield f"{connection.flow.name}: {channels} in the capture, {len(one.channels)} in the record"
    for flow, channel in zip(connection.channels, one.channels):
        yield from of_flow(flow, channel, flow.loose)


def of_flow(flow: Flow, one: _Sent, is_short: bool) -> Iterator[str]:
    """How the bytes of a stream differ. If it is short, its peer may have taken fewer."""
    taken, sent = bytes(flow.wanted), bytes(one.sent)
    if taken == sent or is_short and sent.startswith(taken):
        return
    place = next(
        (number for number, pair in enumerate(zip(taken, sent)) if pair[0] != pair[1]),
        min(len(taken), len(sent)),
    )
    yield f"{flow.name}: the socket took {len(taken)} bytes, the record's replay sends {len(sent)}; they differ from byte {place} on"
    yield from shown("the capture", taken, place)
    yield from shown("the replay", sent, place)


def summary(session: Session) -> str:
    """What was compared."""
    flows = [flow for one in session.connections for flow in (one.flow, *one.channels)]
    channels = len(flows) - len(session.connections)
    said = (
        counted(len(session.connections), "connection"),
        counted(channels, "interrupt channel"),
        counted(sum(len(flow.wanted) for flow in flows), "byte"),
    )
    return "the record's replay sends what the sockets took: " + ", ".join(said)
