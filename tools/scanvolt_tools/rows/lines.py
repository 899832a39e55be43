"""Lines of a row: from the text to what is asked and wanted, and back.

All test crates share these: calls that are asked on a connection; replies and requests for service that are wanted on
it. `dialects` has the other lines of each crate.
"""
import re
from collections.abc import Mapping, Sequence

from scanvolt.vxi11 import XdrError, calls, read_call

from . import messages
from .numbering import Numbering
from .values import TextError, bytes_of, number_of, plain_number, split, text_of

# The lines that are asked, and those that are wanted.
Read = tuple[list[str], list[str]]
LONG = 200  # columns from which on a text is put in quotes


def spaced(data: bytes, joined: int | None) -> str:
    """Hexadecimal with a blank after each word, up to word number `joined` if that is given."""
    text, front = data.hex(), len(data) if joined is None else joined * 4
    head = " ".join(text[at : at + 8] for at in range(0, min(front, len(data)) * 2, 8))
    return " ".join(part for part in (head, text[front * 2 :]) if part)


def hex_of(text: str) -> str:
    """Hexadecimal, in which `80+16*00+01` has sixteen zeros."""
    return re.sub(
        r"(?:^|(?<=[ +]))(\d+)\*([0-9a-fA-F]{2})", lambda run: int(run[1]) * run[2], text
    ).replace("+", "")


def quoted(text: str) -> str:
    """A text as it is, or in quotes if it is long or a reader couldn't see all of it."""
    plain = (
        text.isprintable() and text.isascii() and text.strip() == text and text and text[0] != '"'
    )
    return (
        text
        if plain and len(text) < LONG and not re.match(r'\d+\*"', text)
        else text_of(text.encode("latin-1"))
    )


def unquoted(text: str) -> str:
    return bytes_of(text).decode("latin-1") if re.match(r'(\d+\*)?(hex)?"', text) else text


class Reading:
    """Reads the lines of a row. A dialect says how its crate spells them."""

    WANTED: tuple[str, ...] = ("reply", "request")  # the first words of lines that are wanted
    BYTES = ""  # how bytes on a connection are asked
    PRINTS: Mapping[str, str] = {}  # how a reply and a request are printed
    JOINED = False  # whether hexadecimal has no blanks

    def __init__(self, joined: bool = False) -> None:
        self.numbering = Numbering()
        self.joined = joined or self.JOINED
        self.piece: dict[
            str, int
        ] = {}  # for each connection, the xid of the call that was sent in part

    def meant(self, line: str) -> list[str]:
        """The lines that a short form means; none if the line is none."""
        return []

    def longer(self, line: str, more: Sequence[str] = ()) -> list[tuple[str, Sequence[str]]]:
        """The lines that a line means, each with its messages: the line itself, unless it is a short form."""
        meant = self.meant(line)
        if meant:
            self.alone(line, more)
        short: list[tuple[str, Sequence[str]]] = [(one, ()) for one in meant]
        return short or [(line, more)]

    def read(self, line: str, more: Sequence[str] = ()) -> Read:
        """The lines that are asked and those that are wanted; `more` are messages that come in the same bytes."""
        read = [self.read_one(*one) for one in self.longer(line, more)]
        return [line for asked, _ in read for line in asked], [
            line for _, wanted in read for line in wanted
        ]

    def read_one(self, line: str, more: Sequence[str] = ()) -> Read:
        """The same for a line that is no short form."""
        if line.split(" ", 1)[0] in self.WANTED:
            return [], [self.wanted(line, more)]
        return self.asked(line, more), []

    def asked(self, line: str, more: Sequence[str] = ()) -> list[str]:
        raise NotImplementedError

    def alone(self, line: str, more: Sequence[str]) -> str:
        """A line that is copied as it is, and brings no messages."""
        if more:
            raise TextError("`and` continues a message, and this is none: " + line)
        return unquoted(line[5:]) if line == "line" or line.startswith("line ") else line

    def wanted(self, line: str, more: Sequence[str] = ()) -> str:
        """The line that is wanted."""
        kind, _, rest = line.partition(" ")
        connection, _, first = rest.partition(" ")
        made = b"".join(self.message(kind, connection, one) for one in [first, *more])
        return self.PRINTS[kind] % (connection, made.hex())

    def sent(self, connection: str, lines: Sequence[str], how: str | None = None) -> list[str]:
        """The lines that bring calls. Bare hexadecimal is copied as it is."""
        if len(lines) == 1 and lines[0].startswith("hex "):
            return [(how or self.BYTES) % (connection, hex_of(lines[0][4:]))]
        data = b""
        front: dict[str, str] | None = None
        for line in lines:
            beside: dict[str, str] = {}
            if line.startswith("hex "):
                piece = bytes.fromhex(hex_of(line[4:]))
            else:
                piece, beside = self.called(connection, line)
            data, front = data + piece, beside if front is None else front
        if front is None or "singly" in front:
            return [self.BYTES % (connection, f"{byte:02x}") for byte in data]
        joined = front.get("joined", "" if self.joined else None)
        return [
            (how or self.BYTES)
            % (connection, spaced(data, joined if joined is None else int(joined or 0)))
        ]

    def called(self, connection: str, line: str) -> tuple[bytes, dict[str, str]]:
        """The bytes of a call, or of a part of it."""
        beside = messages.parsed(line)[2]
        first, _, last = beside.get("part", "1..").partition("..")
        xid = self.numbering.next_call()
        if first != "1":  # the part continues a call
            xid = self.piece.get(connection, xid)
        if "xid" in beside:
            xid = number_of(beside["xid"])
        record, called = messages.call_of(line, xid)
        if first == "1":
            self.numbering.call(connection, xid, called, line)
            self.piece[connection] = xid
        record *= number_of(beside.get("times", "1"))
        return record[number_of(first) - 1 : number_of(last) if last else None], beside

    def message(self, kind: str, connection: str, line: str) -> bytes:
        """The bytes of a reply or of a request for service."""
        words = split(line)
        given = [number_of(word[4:]) for word in words if word.startswith("xid=")]
        line = " ".join(word for word in words if not word.startswith("xid="))
        if kind == "request":
            xid = given[0] if given else self.numbering.next_request(connection)
            self.numbering.request(connection, xid)
            return messages.request_of(line, xid)
        xid = given[0] if given else self.numbering.next_reply(connection)
        self.numbering.reply(connection, xid)
        if words[0] == "create_link":
            self.numbering.linked(connection, messages.lid_of(line))
        return messages.reply_of(line, xid)


class Telling:
    """Translates printed lines into the words of the text."""

    def __init__(self, numbering: Numbering, always: bool = False) -> None:
        self.numbering = numbering
        self.always = always  # whether each xid is shown

    def told(self, line: str) -> list[str]:
        """The lines of the text for a printed line; none if it has no reply and no request."""
        found = re.fullmatch(r"(?:write )?([ci]?)(\w+) ([0-9a-f]{8,})", line)
        if not found or len(found[3]) % 2:
            return []
        kinds = {"c": ["reply"], "i": ["request"], "": ["reply", "request"]}[found[1]]
        bodies = messages.bodies(bytes.fromhex(found[3]))
        for kind in kinds if bodies else []:
            try:
                told = [getattr(self, kind)(found[2], body) for body in bodies or ()]
            except XdrError:
                continue
            return [f"{kind} {found[2]} {told[0]}"] + ["and " + text for text in told[1:]]
        return []

    def reply(self, connection: str, body: bytes) -> str:
        xid = messages.xid_of(body)
        usual = self.numbering.next_reply(connection)
        text = messages.reply_text(body, self.numbering.called(connection, xid))
        self.numbering.reply(connection, xid)
        return text if xid == usual and not self.always else text + " xid=" + plain_number(xid)

    def request(self, connection: str, body: bytes) -> str:
        call = read_call(body)
        if call.procedure != calls.DEVICE_INTR_SRQ:
            raise XdrError("no request for service")
        words = [text_of(calls.read_service_request(call.arguments))]
        if call.program != calls.INTERRUPT:
            words.append(f"prog={plain_number(call.program)}")
        if call.version != calls.VERSIONS.get(call.program, 0):
            words.append(f"vers={call.version}")
        if self.always or call.xid != self.numbering.next_request(connection):
            words.append("xid=" + plain_number(call.xid))
        self.numbering.request(connection, call.xid)
        return " ".join(words)
