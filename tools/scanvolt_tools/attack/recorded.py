"""What a server did with its sockets (tap.c), and the record that it kept (docs/REPLAY.md): a replay of the record has to send the
bytes that each socket took.

A peer that leaves or doesn't read takes fewer bytes. A channel whose peer doesn't read isn't sent requests beyond 32.
"""
from __future__ import annotations

import struct
import subprocess
from collections.abc import Iterator, Sequence
from dataclasses import dataclass, field
from pathlib import Path

from scanvolt.vxi11 import Records

from .calls import Lost


HEAD = struct.Struct("=4i")
KINDS = b"aoprsx"
ROLES = ("core", "abort", "portmap")
# An event that is refused and changes nothing. What is printed before its line was sent by events in front of it.
MARK, MARKED = "input 0 0\n", "refused 8\n"


@dataclass
class Stream:
    """A connection or an interrupt channel: the bytes that came on it, and those that were sent."""

    role: str
    came: bytearray = field(default_factory=bytearray)
    sent: bytearray = field(default_factory=bytearray)
    is_kept: bool = False  # it has a place in the server
    is_stuck: bool = False  # the socket once took less than it was given
    is_left: bool = False  # the peer left


def entries(path: Path) -> Iterator[tuple[int, int, int, bytes]]:
    """The entries of the tap: kind, descriptor, number and bytes. The last may be cut."""
    with path.open("rb") as file:
        while len(head := file.read(HEAD.size)) == HEAD.size:
            kind, descriptor, number, length = HEAD.unpack(head)
            data = file.read(length)
            if kind not in KINDS:
                raise Lost(f"the tap has an entry of kind {kind}")
            if len(data) == length:
                yield kind, descriptor, number, data


def tapped(path: Path, ports: Sequence[int]) -> list[Stream]:
    """The connections to these ports that found a place, and the channels that were connected, in their order."""
    found: list[Stream] = []
    now: dict[int, Stream] = {}  # by descriptor
    for kind, descriptor, number, data in entries(path):
        stream = now.setdefault(descriptor, Stream("interrupt"))
        if kind == ord("a"):
            role = ROLES[ports.index(number)] if number in ports else "control"
            now[descriptor] = Stream(role)
        elif (
            kind == ord("o")
            and stream.role in ROLES
            or kind == ord("p")
            and stream.role == "interrupt"
        ):
            if not stream.is_kept:
                stream.is_kept = True
                found.append(stream)
        elif kind == ord("r"):
            stream.came += data
            stream.is_left |= number != 0 or not data
        elif kind == ord("s"):
            stream.sent += data
            stream.is_stuck |= len(data) < number
        elif kind == ord("x"):
            stream.is_left |= number != 0
            del now[descriptor]
    return found


def replayed(program: str, record: Path, ports: Sequence[int]) -> list[Stream]:
    """The connections and channels of a record in the order in which they opened, with what a replay of it sends."""
    marked, printed = record.with_suffix(".marked"), record.with_suffix(".printed")
    found: list[Stream] = []
    begun: list[
        tuple[str, Stream]
    ] = []  # those that open, with their names; a mark is in front of each
    now: dict[str, Stream] = {}
    with record.open() as lines, marked.open("w") as script:
        for line in lines:
            words = line.split()
            if words[0] == "open" or words[0] == "dialed" and words[2] == "ok":
                script.write(MARK)
                name = ("c" if words[0] == "open" else "i") + words[1]
                now[name] = Stream(words[2] if words[0] == "open" else "interrupt")
                begun.append((name, now[name]))
                found.append(now[name])
            elif words[0] == "bytes":
                now["c" + words[1]].came += bytes.fromhex(words[2])
            script.write(line)
    command = [program, "replay", "--core", str(ports[0]), "--abort", str(ports[1])]
    with marked.open("rb") as script, printed.open("wb") as output:
        ended = subprocess.run(
            command, stdin=script, stdout=output, stderr=subprocess.PIPE, check=False
        )
    if ended.returncode != 0:
        raise Lost(f"the record isn't replayed: {ended.stderr.decode(errors='replace').strip()}")
    now = {}
    opening = iter(begun)
    with printed.open() as lines:
        for line in lines:
            if line == MARKED:
                name, stream = next(opening)
                now[name] = stream
            elif line.startswith("refused"):
                raise Lost("a replay of the record refuses an event")
            else:
                name, _, text = line.partition(" ")
                now[name].sent += bytes.fromhex(text)
    return found


def is_some_of(taken: bytes, sent: bytes) -> bool:
    """Whether the calls that a channel took are some of those that were sent, in their order."""
    calls = iter(records(sent))
    return all(call in calls for call in records(taken))


def records(data: bytes) -> Iterator[bytes]:
    """The records of a stream, with their marks; at last perhaps a part of one."""
    end = 0
    for record in Records().push(data):
        yield data[record.start : record.end]
        end = record.end
    if end < len(data):
        yield data[end:]


def fault(tap: Stream, record: Stream) -> str:
    """How the bytes of a socket and of the record's replay differ; nothing if they don't."""
    if not tap.came.startswith(record.came):
        return "the record has bytes that didn't come"
    if tap.sent == record.sent:
        return ""
    if (tap.is_left or tap.is_stuck) and record.sent.startswith(tap.sent):
        return ""
    if tap.role == "interrupt" and tap.is_stuck and is_some_of(bytes(tap.sent), bytes(record.sent)):
        return ""
    place = next(
        (at for at, (one, other) in enumerate(zip(tap.sent, record.sent)) if one != other),
        min(len(tap.sent), len(record.sent)),
    )
    return (
        f"the socket took {len(tap.sent)} bytes, the replay sends {len(record.sent)}; "
        f"they differ from byte {place} on"
    )


def compare(program: str, folder: Path, ports: Sequence[int]) -> str:
    """Compares the record with what the sockets took. Returns what was compared.

    # Errors
    `Lost` if they differ.
    """
    found, streams = tapped(folder / "tap", ports), replayed(program, folder / "record", ports)
    whole = count = 0
    for role in (*ROLES, "interrupt"):
        taken, sent = [one for one in found if one.role == role], [
            one for one in streams if one.role == role
        ]
        if len(taken) != len(sent):
            raise Lost(
                f"{len(taken)} streams of the kind {role} were opened, the record has {len(sent)}"
            )
        for number, (tap, record) in enumerate(zip(taken, sent)):
            told = fault(tap, record)
            if told:
                raise Lost(f"the record, stream {number} of the kind {role}: {told}")
            count += len(tap.sent)
            whole += tap.sent == record.sent
    return (
        f"the record's replay sends what the sockets took: {len(found)} streams, "
        f"{whole} of them whole, {count} bytes"
    )
