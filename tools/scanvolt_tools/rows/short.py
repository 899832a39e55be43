"""Short forms: a line of a script that means several lines.

    0 link                              connection 0 opens; create_link of "inst0", a turn, and the row's next link as the reply
    0 CALL -> RESULT                    a call, a turn, and its reply
    0 write "*ESE 256"                  a device_write with END, a turn, and the reply that all bytes are taken
    0 read -> "1"                       a device_read of 256 bytes, a turn, and the reply with this response and its new line
    0 query "*IDN?" -> "SCANVOLT,.."    a write and a read

RESULT has the fields of the result, or is `ok` if they are all 0, or is a refusal of RPC such as PROG_UNAVAIL. `write`, `read`
and `query` use the link that was made last on the connection, or the one that `lid=2` names. A `write` and a `read` may have
more fields, such as `io_timeout=10`. A row that is about a write or a read itself has the long lines. In a row over sockets,
`a CALL -> RESULT` is what peer a sends and what it waits for; the other forms aren't there.
"""
from collections.abc import Callable, Sequence

from . import fields
from .messages import ACCEPTED, DENIED
from .numbering import Numbering
from .values import TextError, bytes_of, number_of, split, text_of

ARROW = "->"
LONGEST, MOST = 4096, 256  # bytes that a write takes; that a read returns


def lines_of(line: str, numbering: Numbering) -> list[str]:
    """The lines that a short form means; none if the line is no short form. `numbering` knows the links of the row so far."""
    connection, _, rest = line.partition(" ")
    if not connection.isdigit():
        return []
    form = FORMS.get(rest.partition(" ")[0])
    if not form:
        return answered(connection, rest, numbering, [connection + " turn"])
    _check(connection, numbering)
    return form(connection, split(rest), numbering)


def answered(
    connection: str, rest: str, numbering: Numbering, between: Sequence[str] = ()
) -> list[str]:
    """The lines of a call and its result, with these between them; none if there is no arrow."""
    words = split(rest) if " " + ARROW in rest else []
    if ARROW not in words:
        return []
    _check(connection, numbering)
    call, result = _halves(words)
    if result == ["ok"]:
        result = []
    if not (result and (result[0] in ACCEPTED or result[0] in DENIED)):
        result = [call[0] if call and call[0] in fields.NAMES else "null", *result]
    return [
        f"{connection} {' '.join(call)}",
        *between,
        f"reply {connection} {' '.join(result)}",
    ]


def _check(connection: str, numbering: Numbering) -> None:
    if numbering.open.get(connection):
        raise TextError(
            f"a call waits on connection {connection}: "
            "write this call, its turn and the replies line by line"
        )


def _turned(connection: str, call: Sequence[str], reply: Sequence[str]) -> list[str]:
    """The lines of a call that a turn answers."""
    return [
        f"{connection} {' '.join(call)}",
        connection + " turn",
        f"reply {connection} {' '.join(reply)}",
    ]


def _halves(words: list[str]) -> tuple[list[str], list[str]]:
    """The words before and after the arrow."""
    if words.count(ARROW) != 1 or words[-1] == ARROW:
        raise TextError("no answer after one ` -> `: " + " ".join(words))
    at = words.index(ARROW)
    return words[:at], words[at + 1 :]


def _parts(
    connection: str, words: list[str], numbering: Numbering
) -> tuple[list[str], list[str], list[str]]:
    """The words of some fields: the link, the texts in quotes, and the rest."""
    texts = [word for word in words if word[-1] == '"' and "=" not in word.partition('"')[0]]
    links = [word for word in words if word.startswith("lid=")]
    if not links and connection not in numbering.links:
        raise TextError(f"no link was made on connection {connection}; say which, by `lid=`")
    return (
        links or [f"lid={numbering.links[connection]}"],
        texts,
        [word for word in words if word not in links and word not in texts],
    )


def _link(connection: str, words: list[str], numbering: Numbering) -> list[str]:
    lid = numbering.last_link + 1
    for word in words[1:]:
        if not word.startswith("lid="):
            raise TextError(f"a link can have `lid=`, and not {word}")
        lid = number_of(word[4:])
    return [connection + " open core"] + _turned(
        connection,
        ["create_link", 'device="inst0"'],
        ["create_link", f"lid={lid}", "abortPort=4097", "maxRecvSize=4096"],
    )


def _write(connection: str, words: list[str], numbering: Numbering) -> list[str]:
    link, texts, more = _parts(connection, words[1:], numbering)
    if len(texts) != 1 or ARROW in more:
        raise TextError("a write has one text in quotes, and no answer: " + " ".join(words))
    size = len(bytes_of(texts[0]))
    if size > LONGEST:
        raise TextError(f"a write of {size} bytes, where {LONGEST} are taken")
    return _turned(
        connection,
        ["device_write", *link, *more, "end", *texts],
        ["device_write", f"size={size}"],
    )


def _read(connection: str, words: list[str], numbering: Numbering) -> list[str]:
    asked, answer = _halves(words[1:])
    link, texts, more = _parts(connection, asked, numbering)
    if texts or len(answer) != 1 or answer[0][-1] != '"':
        raise TextError("a read has one text in quotes, its answer: " + " ".join(words))
    data = bytes_of(answer[0]) + b"\n"
    if len(data) > MOST:
        raise TextError(f"an answer of {len(data)} bytes with its new line, where {MOST} are read")
    return _turned(
        connection,
        ["device_read", *link, f"requestSize={MOST}", *more],
        ["device_read", "reason=end", text_of(data)],
    )


def _query(connection: str, words: list[str], numbering: Numbering) -> list[str]:
    asked, answer = _halves(words[1:])
    link, texts, more = _parts(connection, asked, numbering)
    if len(texts) != 1 or more:
        raise TextError("a query has one text in quotes before ` -> `: " + " ".join(words))
    return _write(connection, ["write", *link, *texts], numbering) + _read(
        connection, ["read", *link, ARROW, *answer], numbering
    )


FORMS: dict[str, Callable[[str, list[str], Numbering], list[str]]] = {
    "link": _link,
    "write": _write,
    "read": _read,
    "query": _query,
}
