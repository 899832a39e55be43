"""Calls, replies and requests for service: from the words of the text to bytes, and back.

A message is a name and its fields, as `device_write lid=1 flags=end data="*IDN?\\n"`. A field that isn't given is 0, or
has no bytes. A single field of bytes may be written without its name, and so may the words of flags. After the fields may
come those of the header (HEADER), and how a call is sent (SENDING): `behind`, bytes after its arguments; `cut`, how many
bytes of its body are sent, with a mark that says so; `fragments`, their sizes; `part`, which bytes of the record come now,
counted from 1; `singly`, each byte comes alone; `times`, how often it comes; `joined`, after how many words the
hexadecimal has no blanks.
"""
from collections.abc import Collection, Iterable, Mapping
from typing import Any

from scanvolt.vxi11 import (
    Reader,
    Records,
    XdrError,
    calls,
    encode_denial,
    encode_refusal,
    encode_reply,
    mark,
    opaque,
    rpc,
    words,
)

from . import fields
from .values import TextError, bytes_of, number_of, plain_number, split, sum_of, text_of, word_of

ACCEPTED = {
    name: getattr(rpc, name)
    for name in ("PROG_UNAVAIL", "PROG_MISMATCH", "PROC_UNAVAIL", "GARBAGE_ARGS", "SYSTEM_ERR")
}
DENIED = {"RPC_MISMATCH": rpc.RPC_MISMATCH, "AUTH_ERROR": rpc.AUTH_ERROR}
DETAILS = {
    "PROG_MISMATCH": ["low", "high"],
    "RPC_MISMATCH": ["low", "high"],
    "AUTH_ERROR": ["stat"],
}
Called = tuple[int, int]  # a program and a procedure
# What a call may have besides its arguments: its header, bytes after them, and how it is sent.
HEADER = ("xid", "rpcvers", "prog", "vers", "proc", "cred", "credBody", "verf", "verfBody")
SENDING = ("behind", "cut", "fragments", "part", "singly", "times", "joined")


def said(
    line: Iterable[str], names: Collection[str], may: Collection[str] = ()
) -> tuple[dict[str, Any], dict[str, str]]:
    """The fields in these words, by their names. Those in `may` are kept as texts."""
    found: dict[str, Any] = {}
    beside: dict[str, str] = {}
    for word in line:
        name, equals, value = word.partition("=")
        if not equals and "flags" in names and word in fields.FLAGS:
            found["flags"] = found.get("flags", 0) + fields.FLAGS[word]
        elif equals and name in names:
            found[name] = value_of(name, value)
        elif name in may:
            beside[name] = value
        elif word[-1] == '"' and any(name in fields.OPAQUE for name in names):
            found[[name for name in names if name in fields.OPAQUE][0]] = bytes_of(word)
        else:
            raise TextError(f"no field {word}: there are {' '.join(list(names) + list(may))}")
    return found, beside


def value_of(name: str, text: str) -> int | bytes:
    """The value of a field."""
    if name in fields.OPAQUE:
        return bytes_of(text)
    if name == "hostAddr" and text.count(".") == 3:
        return fields.address_of(text)
    return number_of(text, fields.WORDS.get(name))


def packed(names: Iterable[str], found: Mapping[str, Any]) -> bytes:
    """The bytes of fields."""
    return b"".join(
        opaque(found.get(name, b"")) if name in fields.OPAQUE else words(found.get(name, 0))
        for name in names
    )


def read(names: Iterable[str], reader: Reader) -> list[tuple[str, Any]]:
    """The fields in some bytes. Raises XdrError if they aren't there."""
    return [(name, reader.opaque() if name in fields.OPAQUE else reader.word()) for name in names]


def shown(values: Iterable[tuple[str, Any]]) -> list[str]:
    """The words for these fields."""
    made: list[str] = []
    for name, value in values:
        if not value:
            continue
        if name in fields.OPAQUE:
            made.append(("device=" if name == "device" else "") + text_of(value))
        elif (
            name == "flags"
            and "=" not in sum_of(value, fields.FLAGS)
            and not sum_of(value, fields.FLAGS).isdigit()
        ):
            made += sum_of(value, fields.FLAGS).split("+")
        elif name == "hostAddr":
            made.append("hostAddr=" + fields.address_text(value))
        elif name in fields.SUMS:
            made.append(f"{name}={sum_of(value, fields.WORDS[name])}")
        else:
            made.append(f"{name}={word_of(value, fields.WORDS.get(name, {}))}")
    return made


def header_of(name: str, beside: Mapping[str, str], xid: int) -> tuple[int, int, bytes]:
    """The program and the procedure of a call, and the words before its arguments."""
    if name not in fields.NAMES and name not in ("null", "call"):
        raise TextError("no call of VXI-11: " + name)
    program, procedure = fields.NAMES.get(name, (calls.CORE, calls.NULL))
    numbers = {
        key: number_of(text, fields.WORDS.get(key))
        for key, text in beside.items()
        if key in HEADER and not key.endswith("Body")
    }
    program, procedure = numbers.get("prog", program), numbers.get("proc", procedure)
    version = numbers.get("vers", calls.VERSIONS.get(program, 0))
    front = words(
        xid, rpc.CALL, numbers.get("rpcvers", rpc.RPC_VERSION), program, version, procedure
    )
    for key in ("cred", "verf"):
        front += words(numbers.get(key, 0)) + opaque(bytes_of(beside.get(key + "Body", '""')))
    return program, procedure, front


def arguments_of(name: str) -> list[str]:
    """The fields of a call's arguments; none if the text has no such call."""
    return (fields.arguments(*fields.NAMES[name]) if name in fields.NAMES else None) or []


def parsed(line: str) -> tuple[str, dict[str, Any], dict[str, str]]:
    """The name of a call, its arguments, and what it has besides them."""
    name, *rest = split(line)
    names = arguments_of(name)
    return (name, *said(rest, names, [key for key in HEADER if key not in names] + list(SENDING)))


def call_of(line: str, xid: int) -> tuple[bytes, Called]:
    """The bytes of the record that a line describes, before parts are cut out of it, and the call's program and procedure."""
    name, found, beside = parsed(line)
    program, procedure, front = header_of(name, beside, xid)
    body = (
        front
        + packed(arguments_of(name), found)
        + (bytes_of(beside["behind"]) if "behind" in beside else b"")
    )
    if "cut" in beside:
        body = body[: number_of(beside["cut"])]
    return framed(body, beside.get("fragments")), (program, procedure)


def sizes_of(text: str) -> list[int]:
    """The sizes of fragments."""
    made: list[int] = []
    for word in text.split(","):
        count, _, size = word.rpartition("*")
        made += [number_of(size)] * number_of(count or "1")
    return made


def framed(body: bytes, sizes: str | None) -> bytes:
    """The record of a body, in fragments of these sizes or in one; `3*0` means three fragments of 0 bytes."""
    made, each = b"", sizes_of(sizes) if sizes else [len(body)]
    if sum(each) != len(body):
        raise TextError(f"fragments of {sum(each)} bytes in all, where {len(body)} are sent")
    for at, size in enumerate(each):
        made += mark(size, at + 1 == len(each)) + body[:size]
        body = body[size:]
    return made


def call_text(body: bytes) -> tuple[str, int, Called]:
    """The words for a call's body, without its xid, and the xid. Raises XdrError if it is no call."""
    reader = Reader(body)
    xid, kind, version_of_rpc = reader.word(), reader.word(), reader.word()
    if kind != rpc.CALL:
        raise XdrError("no call")
    program, version, procedure = reader.word(), reader.word(), reader.word()
    beside: list[str] = []
    if version_of_rpc != rpc.RPC_VERSION:
        beside.append(f"rpcvers={version_of_rpc}")
    for key in ("cred", "verf"):
        flavor, inner = reader.word(), reader.opaque()
        beside += [f"{key}={flavor}"] * bool(flavor) + [f"{key}Body={text_of(inner)}"] * bool(inner)
    name, names = fields.name_of(program, procedure), fields.arguments(program, procedure)
    if name is None or names is None:
        name, names = "call", []
        beside += ["prog=" + word_of(program, fields.PROGRAMS), f"proc={procedure}"]
    elif name == "null" and program != calls.CORE:
        beside.append("prog=" + word_of(program, fields.PROGRAMS))
    if version != calls.VERSIONS.get(program, 0):
        beside.append(f"vers={version}")
    made = shown(read(names, reader))
    rest = reader.rest()
    return (
        " ".join([name] + made + beside + ["behind=" + text_of(rest)] * bool(rest)),
        xid,
        (program, procedure),
    )


def reply_of(line: str, xid: int) -> bytes:
    """The bytes of the reply that a line describes."""
    name, *rest = split(line)
    if name in ACCEPTED or name in DENIED:
        names = DETAILS.get(name, [])
        details = [said(rest, names)[0].get(one, 0) for one in names]
        if name in ACCEPTED:
            return encode_refusal(xid, ACCEPTED[name], *details)
        return encode_denial(xid, DENIED[name], *details)
    if name not in fields.NAMES and name not in ("null", "result"):
        raise TextError("no call of VXI-11, and no refusal of RPC: " + name)
    names = fields.results(*fields.NAMES[name]) if name in fields.NAMES else []
    found, beside = said(rest, names, ("behind",))
    return encode_reply(xid, packed(names, found) + (bytes_of(beside["behind"]) if beside else b""))


def lid_of(line: str) -> int:
    """The link that a reply to create_link names, as a line describes it; 0 if it names none."""
    return said(split(line)[1:], fields.results(*fields.NAMES["create_link"]), ("behind",))[0].get(
        "lid", 0
    )


def xid_of(body: bytes) -> int:
    return Reader(body).word()


def reply_text(body: bytes, called: Called | None) -> str:
    """The words for a reply to a call, without its xid. Raises XdrError if it is no reply."""
    reader = Reader(body)
    reader.word()
    if reader.word() != rpc.REPLY:
        raise XdrError("no reply")
    status = reader.word()
    if status == rpc.DENIED:
        return refusal_text(DENIED, reader)
    if (reader.word(), reader.opaque(0)) != (0, b""):
        raise XdrError("a reply with a verifier")
    rest = reader.rest()
    reader = Reader(rest)
    if reader.word() != rpc.SUCCESS:
        return refusal_text(ACCEPTED, Reader(rest))
    name = fields.name_of(*called) if called else None
    names = fields.results(*called) if called and name else []
    made = shown(read(names, reader))
    rest = reader.rest()
    return " ".join([name or "result"] + made + ["behind=" + text_of(rest)] * bool(rest))


def refusal_text(statuses: Mapping[str, int], reader: Reader) -> str:
    name = word_of(reader.word(), statuses)
    return " ".join(
        [name] + [f"{one}={plain_number(reader.word())}" for one in DETAILS.get(name, [])]
    )


def request_of(line: str, xid: int) -> bytes:
    """The bytes of the request for service that a line describes."""
    return call_of("device_intr_srq " + line, xid)[0]


def bodies(data: bytes) -> list[bytes] | None:
    """The bodies of the records that make up these bytes; none if the bytes end within a record."""
    records = Records()
    found = records.push(data)
    whole = records.start == len(data) and b"".join(framed(one.body, None) for one in found) == data
    return [one.body for one in found] if whole else None
