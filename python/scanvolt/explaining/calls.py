"""The arguments and the reply of a call, in words."""

from __future__ import annotations

from collections.abc import Callable
from dataclasses import dataclass

from ..vxi11 import CallMessage, Reader, RpcError, XdrError, calls, read_reply
from ..vxi11.errors import NAMES as ERRORS
from .words import quoted, shown_bits

SMALL = 64  # bytes of a read that are worth a word, if they are fewer
REASONS = ((calls.TERMINATOR, "CHR"), (calls.REQUEST_COUNT, "REQCNT"))


@dataclass
class Arguments:
    """The arguments of a call, as far as they can be read. `more` has them in words."""

    link: int | None = None
    data: bytes = b""
    flags: int = 0
    more: str = ""


def _create_link(found: Arguments, reader: Reader) -> None:
    reader.word()
    lock = reader.word()
    reader.word()
    found.more = quoted(reader.opaque()) + (" with lock" if lock else "")


def _bytes(size: int) -> str:
    """How many bytes: `1 byte`, `2048 bytes`."""
    return "1 byte" if size == 1 else f"{size} bytes"


def _write(found: Arguments, reader: Reader) -> None:
    found.link = reader.word()
    reader.take(8)
    found.flags, found.data = reader.word(), reader.opaque()
    found.more = quoted(found.data) + ("" if found.flags & calls.END else " without END")


def _read(found: Arguments, reader: Reader) -> None:
    found.link, size = reader.word(), reader.word()
    reader.take(8)
    found.flags, character = reader.word(), reader.word()
    said = [f"up to {chr(character & 255)!r}"] if found.flags & calls.TERMCHRSET else []
    said += ["at most " + _bytes(size)] if size < SMALL else []
    found.more = " ".join(said)


def _on_link(found: Arguments, reader: Reader) -> None:
    found.link = reader.word()


def _enable_srq(found: Arguments, reader: Reader) -> None:
    found.link, turned_on = reader.word(), reader.word()
    found.more = "on, handle " + quoted(reader.opaque()) if turned_on else "off"


def _create_intr_chan(found: Arguments, reader: Reader) -> None:
    address, port = ".".join(map(str, reader.take(4))), reader.word()
    found.more = f"to {address}:{port}"


def _getport(found: Arguments, reader: Reader) -> None:
    found.more = f"{reader.word():#x} version {reader.word()}"


HOW: dict[tuple[int, int], Callable[[Arguments, Reader], None]] = {
    (calls.CORE, calls.CREATE_LINK): _create_link,
    (calls.CORE, calls.DEVICE_WRITE): _write,
    (calls.CORE, calls.DEVICE_READ): _read,
    (calls.CORE, calls.DEVICE_ENABLE_SRQ): _enable_srq,
    (calls.CORE, calls.CREATE_INTR_CHAN): _create_intr_chan,
    (calls.ABORT, calls.DEVICE_ABORT): _on_link,
    (calls.PORT_MAPPER, calls.GETPORT): _getport,
}
HOW.update(
    ((calls.CORE, one), _on_link)
    for one in (
        calls.DEVICE_READSTB,
        calls.DEVICE_TRIGGER,
        calls.DEVICE_CLEAR,
        calls.DEVICE_REMOTE,
        calls.DEVICE_LOCAL,
        calls.DEVICE_LOCK,
        calls.DEVICE_UNLOCK,
        calls.DEVICE_DOCMD,
        calls.DESTROY_LINK,
    )
)


def arguments(message: CallMessage) -> Arguments:
    """The arguments of a call. What can't be read is said so."""
    found = Arguments()
    how = HOW.get((message.program, message.procedure))
    if how is not None:
        try:
            how(found, Reader(message.arguments))
        except XdrError:
            found.more = "(arguments that can't be read)"
    return found


@dataclass
class Answer:
    """A reply in words. `error` is the number of VXI-11, 0 for none; None if the call wasn't executed. `value` is the
    number that the reply has, of a read its reason, `data` its bytes.
    """

    words: str
    error: int | None = None
    value: int | None = None
    data: bytes | None = None

    @property
    def is_fault(self) -> bool:
        """Whether the call failed or wasn't executed."""
        return self.error != 0


def answer(message: CallMessage, body: bytes) -> Answer:
    """The reply in a record, in words."""
    try:
        reader = Reader(read_reply(body, message.xid))
        if message.procedure == calls.NULL and message.program:
            return Answer("ok", 0)
        if message.program == calls.PORT_MAPPER:
            port = reader.word()
            return Answer(f"port {port}", 0, port)
        return _result(message, reader)
    except RpcError as fault:
        return Answer(f"refused: {fault}")
    except XdrError:
        return Answer("a reply that can't be read")


def _result(message: CallMessage, reader: Reader) -> Answer:
    """The result of a call of the core or abort channel."""
    error = reader.signed()
    if error:
        return Answer(f"error {error}, {ERRORS.get(error, 'reserved')}", error)
    if message.program != calls.CORE:
        return Answer("ok", 0)
    if message.procedure == calls.CREATE_LINK:
        link = reader.word()
        return Answer(f"link {link}", 0, link)
    if message.procedure == calls.DEVICE_WRITE:
        size = reader.word()
        return Answer(_bytes(size), 0, size)
    if message.procedure == calls.DEVICE_READSTB:
        byte = reader.word() & 255
        return Answer(shown_bits("poll", byte), 0, byte)
    if message.procedure == calls.DEVICE_READ:
        reason, data = reader.word(), reader.opaque()
        why = [word for bit, word in REASONS if reason & bit]
        more = "" if reason & calls.ENDED else f" ({', '.join(why) or 'reason 0'}, without END)"
        return Answer(quoted(data) + more, 0, reason, data)
    return Answer("ok", 0)
