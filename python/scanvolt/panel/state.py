"""What the panel shows, as JSON has it: voltages in volts, times in milliseconds of the instrument's clock, bits by name."""

from __future__ import annotations

from typing import Any

from ..capturing.flows import name as name_of
from ..explaining.calls import Answer, answer, arguments
from ..explaining.lines import REGISTERS, Value
from ..explaining.story import _message
from ..explaining.tables import ERRORS
from ..explaining.telling import AWAITED, numbers
from ..explaining.words import PARTS, SOURCES, a, bits, channels, known, millis, pair, unit, volts
from ..vxi11 import Records
from .front import LAMPS, Channel, Front, Happened, Port

State = dict[str, Any]
BYTES = (("STB", "poll"), ("SRE", "sre"), ("ESR", "esr"), ("ESE", "ese"))
MICRO = 10**6
OVER = ("+over", "-over")
SHOWN = 24  # things that happened


def state_of(front: Front) -> State:
    """The state of an instrument."""
    return {
        "channels": _channels(front),
        "scan": _scan(front),
        "registers": _registers(front),
        "message": _message_state(front),
        "errors": [
            {"number": one, "text": ERRORS.get(one, "unknown")}
            for one in numbers(front.value("errors"))
        ],
        "lost": front.number("lost"),
        "lock": _lock(front),
        "links": _links(front),
        "connections": _connections(front),
        "waits": _waits(front),
        "log": _log(front),
        "happened": front.happened,
    }


def _volts(micro: int) -> float:
    return micro / MICRO


def _read(said: str) -> Any:
    """A reading: volts, an overload, or None."""
    return None if not said else said if said in OVER else _volts(int(said))


def _scan_list(front: Front) -> tuple[int, ...]:
    found = front.value("list")
    return found if isinstance(found, tuple) else (int(found),)


def _channels(front: Front) -> list[State]:
    """The channels that have an input or a reading, or are in the scan list or monitored."""
    listed = set(_scan_list(front))
    numbered = sorted(listed | set(front.channels) | {front.number("monitor")})
    return [
        _channel(front, number, front.channels.get(number, Channel()), number in listed)
        for number in numbered
    ]


def _channel(front: Front, number: int, one: Channel, is_listed: bool) -> State:
    return {
        "channel": number,
        "input": _volts(one.microvolts),
        "reading": _read(one.reading),
        "number": one.number,
        "clock": one.clock,
        "listed": is_listed,
        "is": _stands(front, one),
    }


def _stands(front: Front, one: Channel) -> str:
    """Where the newest reading of a channel stands: `above`, `below`, `overload`, `inside`; nothing without a reading."""
    if not one.reading:
        return ""
    if one.reading in OVER:
        return "overload"
    if front.number("limits"):
        if int(one.reading) > front.number("upper"):
            return "above"
        if int(one.reading) < front.number("lower"):
            return "below"
        return "inside"
    return "inside"


def _scan(front: Front) -> State:
    """The measurement, and its settings."""
    scan, place = pair(front.value("scan")), pair(front.value("place"))
    return {
        "state": front.value("state"),
        "source": SOURCES[str(front.value("source"))],
        "count": front.number("count"),
        "scan": scan[0],
        "scans": scan[1],
        "place": place[0],
        "length": place[1],
        "readings": front.number("readings"),
        "newest": _newest(front),
        "list": channels(front.value("list")),
        "range": _volts(front.number("range")),
        "monitor": front.number("monitor"),
        "limits": {
            "on": bool(front.number("limits")),
            "upper": _volts(front.number("upper")),
            "lower": _volts(front.number("lower")),
        },
        "now": _now(front),
    }


def _newest(front: Front) -> State | None:
    """The newest reading."""
    words = str(front.value("reading")).split()
    if len(words) != 3:
        return None
    return {"number": int(words[0]), "channel": int(words[1]), "reading": _read(words[2])}


def _now(front: Front) -> str:
    """What the scan does, in words."""
    (scan, scans), (place, length) = pair(front.value("scan")), pair(front.value("place"))
    if front.value("state") == "waiting":
        source = a(SOURCES[str(front.value("source"))])
        return f"waits for {source} trigger, scan {scan + 1} of {scans}"
    if front.value("state") == "scanning":
        return f"reads channel {place + 1} of {length}, scan {scan} of {scans}"
    return "is idle"


def _register(front: Front, name: str) -> State:
    value = front.number(name)
    found: State = {"value": value, "bits": bits(name, known(name, value))}
    if name in LAMPS:
        found["rises"] = {
            bits(name, 1 << bit)[0]: count
            for (lamp, bit), count in sorted(front.rises.items())
            if lamp == name
        }
    return found


def _registers(front: Front) -> State:
    """The status byte as a poll returns it, the standard events, and the three registers."""
    found: State = {label: _register(front, name) for label, name in BYTES}
    for register in REGISTERS:
        found[register.upper()] = {
            word.lower(): _register(front, f"{register}.{part}") for part, word in PARTS
        }
    return found


def _message_state(front: Front) -> State:
    """The message under way."""
    return {
        "held": _unit(front.held) if front.held else None,
        "response": front.number("response"),
        "text": front.value("text"),
    }


def _unit(digits: str) -> str:
    return unit(bytes.fromhex(digits))


def _lock(front: Front) -> State | None:
    link = front.value("lock")
    if link == "none":
        return None
    return {"link": link, "connection": _owner(front, link), "since": front.lock_at}


def _owner(front: Front, link: Value) -> int | None:
    said = str(front.value(f"link.{link}"))
    return int(said[1:]) if said[0] == "c" else None


def _links(front: Front) -> list[State]:
    found = sorted(int(name[5:]) for name in front.values if name.startswith("link."))
    return [
        {
            "link": one,
            "connection": _owner(front, one),
            "requests": front.value(f"srq.{one}") == "on",
            "lock": front.value("lock") == one,
        }
        for one in found
    ]


def _connections(front: Front) -> list[State]:
    return [
        {"connection": conn, "role": port.role, "interrupt": bool(front.number(f"i{conn}.open"))}
        for conn, port in sorted(front.ports.items())
    ]


def _call(digits: str) -> tuple[str, int | None]:
    """A call in words, and its link."""
    message = _message(bytes.fromhex(digits))
    found = arguments(message)
    return (f"{name_of(message)} {found.more}").rstrip(), found.link


def _reply(happened: Happened) -> Answer:
    """The reply to a call, in words."""
    records = list(Records().push(bytes.fromhex(happened.reply)))
    if records:
        return answer(_message(bytes.fromhex(happened.what)), records[0].body)
    return Answer("no reply")


def _waits(front: Front) -> list[State]:
    """The calls that wait, the first one first: for what, since when, until when, and why."""
    waiting = sorted(
        (port.waited, conn) for conn, port in front.ports.items() if port.wait != "none"
    )
    return [_wait(front, conn, front.ports[conn]) for _, conn in waiting]


def _wait(front: Front, conn: int, port: Port) -> State:
    what, link, until = port.wait.split()
    words = _call(port.call)[0] if port.call else "a call"
    return {
        "connection": conn,
        "link": None if link == "none" else int(link),
        "call": words,
        "for": AWAITED[what],
        "since": port.waited,
        "until": None if until == "never" else int(until),
        "because": _because(front, what),
    }


def _because(front: Front, what: str) -> list[str]:
    """Why a call waits, each line the cause of the one before."""
    lock = _lock(front)
    if what == "lock" and lock is not None:
        conn = "" if lock["connection"] is None else f" (c{lock['connection']})"
        return [f"link {lock['link']}{conn} has held it since {millis(lock['since'])}"]
    if what == "dial":
        return ["the peer hasn't taken the connection of the interrupt channel"]
    if not front.held:
        return []
    by = "" if front.held_by is None else f" of c{front.held_by}"
    return [
        f"unit `{_unit(front.held)}`{by} has waited since {millis(front.held_at)} for the scan to be idle",
        f"the scan {_now(front)}",
    ]


def _log(front: Front) -> list[State]:
    """What happened last, the newest first. Equal calls in a row are one, with how many they are."""
    found: list[State] = []
    for one in reversed(front.log):
        row = _row(one)
        if (
            found
            and all(found[-1][key] == row[key] for key in ("who", "what", "reply"))
            and "rows" not in row
        ):
            found[-1]["times"] += 1
            continue
        if len(found) == SHOWN:
            break
        found.append(row)
    return found


def _row(one: Happened) -> State:
    if one.conn is None:
        event = one.what.split()
        if event[0] == "input":
            said = f"input {event[1]} = {volts(int(event[2]))}"
        else:
            said = "EXTernal trigger"
        return {
            "clock": one.clock,
            "who": "input",
            "what": said,
            "reply": "",
            "fault": False,
            "times": 1,
        }
    words, link = _call(one.what)
    reply = _reply(one)
    waited = "" if one.clock == one.since else f", after {millis(one.clock - one.since)}"
    return {
        "clock": one.clock,
        "who": f"c{one.conn}" + (f" link {link}" if link else ""),
        "what": words,
        "reply": reply.words + waited,
        "fault": reply.is_fault,
        "times": 1,
    }
