"""A row whose writes are cut into single bytes, made from a row whose writes aren't.

A message may be split into writes at any place (VXI-11 1.0, B.6.3): what is read, polled and requested doesn't depend
on where. So both rows print the same, if the replies to the writes that were cut are left out of both. END stays with
the last byte.
"""
import re
from collections.abc import Iterable

from scanvolt.vxi11 import (
    Reader,
    Records,
    XdrError,
    calls,
    encode_call,
    encode_reply,
    opaque,
    read_call,
    words,
)

# A device_write: its connection, its xid, the words before its flags, its flags and its bytes.
Write = tuple[str, int, bytes, int, bytes]
PREFIX = "single bytes: "
# The end of the reply to a write of one byte: no error, size 1.
DONE = encode_reply(0, words(0, 1)).hex()[24:]


def _write(line: str) -> Write | None:
    """The connection, the call, the words before the flags, the flags and the bytes of a line that brings one
    device_write; None for any other line.
    """
    found = re.fullmatch(r"bytes (\d+) ([0-9a-f ]+)", line)
    if not found:
        return None
    data = bytes.fromhex(found[2])
    try:
        call = read_call(Records().push(data)[0].body)
        if data != encode_call(call.xid, calls.CORE, 1, calls.DEVICE_WRITE, call.arguments):
            return None
        reader = Reader(call.arguments)
        front, flags = reader.take(12), reader.word()
        return found[1], call.xid, front, flags, reader.opaque()
    except (IndexError, XdrError):
        return None


def _pieces(connection: str, xid: int, front: bytes, flags: int, text: bytes) -> list[str]:
    """The lines that write each byte alone. The last one has no turn."""
    made: list[str] = []
    for at in range(len(text)):
        last = at + 1 == len(text)
        arguments = front + words(flags if last else flags & ~calls.END) + opaque(text[at : at + 1])
        record = encode_call(xid, calls.CORE, 1, calls.DEVICE_WRITE, arguments)
        made += [f"bytes {connection} {record.hex()}"] + ["turn " + connection] * (not last)
    return made


def cut(asked: Iterable[str], wanted: Iterable[str]) -> tuple[list[str], list[str]]:
    """The lines of a row with each write cut that takes all its bytes, and what they print without the replies to
    writes of one byte.
    """
    made, rest = ["! without " + DONE], list(wanted)
    shown: list[str] = []
    for line in asked:
        write = _write(line)
        if write is None or len(write[4]) < 2:
            made.append(line)
            continue
        record = encode_reply(write[1], words(0, len(write[4])))
        reply = f"c{write[0]} {record.hex()}"
        if reply not in rest:  # the write waits, or takes nothing
            made.append(line)
            continue
        place = rest.index(reply)
        shown, rest = shown + rest[:place], rest[place + 1 :]
        made += _pieces(*write)
    return made, [line for line in shown + rest if not line.endswith(DONE)]
