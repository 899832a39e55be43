"""Sessions whose explanation is known, made with a meter: each is a function that acts on it."""

from __future__ import annotations

import functools
from collections.abc import Callable, Sequence

from scanvolt.explaining.explanation import Explanation
from scanvolt.program import find_program
from scanvolt.virtual import Connection, Meter
from scanvolt.vxi11 import DeviceError, Link, RpcError, calls, encode_call, words
from scanvolt.vxi11.calls import Call
from scanvolt.vxi11.rpc import record


def start(link: Link, call: Call[object]) -> None:
    """Sends a call, and doesn't wait for its reply."""
    carrier = link.carrier
    assert isinstance(carrier, Connection)
    carrier.start(call)


def start_write(link: Link, data: bytes) -> int:
    """Writes bytes as they are."""
    return link.carrier.do(link.calls.write(data))


def session(meter: Meter) -> None:
    """The session of docs/INSTRUMENT.md."""
    for channel, volts in ((1, "1.25"), (2, "-0.3"), (3, "7.5")):
        meter.set_input(channel, volts)
    link = meter.connect().create_link()
    for message in (
        "*RST;*CLS",
        "CONF:VOLT (@1:3);:CALC:LIM:UPP 5;STAT ON",
        "STAT:QUES:ENAB 512;*SRE 24",
        "READ?",
    ):
        link.write(message)
    link.readstb()
    meter.advance(3)
    link.readstb(), link.readstb(), link.read(), link.readstb()
    link.query("STAT:QUES?;QUES:LIM?")
    link.readstb()
    link.query("VOLT:RANG:AUTO ON;:SYST:ERR?")
    link.query("SYST:ERR?")
    link.write("TRIG:SOUR BUS;:INIT;*OPC?")
    link.trigger()
    link.read()
    link.query("FETC?")


def hang(meter: Meter) -> None:
    """A read waits for the answer of `*OPC?`, and three triggers are missing."""
    meter.set_input(1, "1.25")
    link = meter.connect().create_link()
    link.io_timeout = 2000
    for message in "*SRE 4;FOO", "CONF:VOLT (@1:8);:TRIG:COUN 4", "TRIG:SOUR EXT;:INIT;*OPC?":
        link.write(message)
    meter.advance(1000)
    meter.external()
    meter.advance(130)
    other = meter.connect().create_link()
    other.lock()
    other.unlock()
    start(link, link.calls.read())
    meter.advance(700)


def hung(meter: Meter) -> None:
    """The same, after the timeout."""
    hang(meter)
    meter.advance(1300)


def lock(meter: Meter) -> None:
    """Calls wait for the lock: one times out, one comes in time, and one is in its holder's own way."""
    first, second = meter.connect(), meter.connect()
    one, two = first.create_link(), second.create_link()
    one.lock()
    two.lock_timeout = 50
    meter.advance(12)
    try:
        two.lock(50)
    except DeviceError:
        pass
    one.write("*IDN?")
    start(two, two.calls.read())
    meter.advance(20)
    one.read()
    one.unlock()
    meter.advance(5)
    one.lock()
    third = first.create_link()
    third.lock_timeout = 200
    start(third, third.calls.readstb())
    start(one, one.calls.unlock())
    meter.advance(30)


def requests(meter: Meter) -> None:
    """Service requests on two links."""
    first, second = meter.connect(), meter.connect()
    one, two = first.create_link(), second.create_link()
    first.listen(lambda request: None)
    second.listen(lambda request: None)
    one.enable_srq(b"bench A")
    two.enable_srq(b"bench B")
    one.write("*CLS;*ESE 33;*SRE 32")
    one.write("CONF:VOLT (@1:5);:INIT;*OPC")
    meter.advance(8)
    two.readstb(), one.readstb(), one.query("*ESR?")
    two.write("FOO")
    one.readstb()
    one.write("*SRE 36")
    meter.advance(2)
    one.readstb()
    two.disable_srq()
    two.query("SYST:ERR?")
    one.write("*CLS;BAR")


def scan(meter: Meter) -> None:
    """Two scans by triggers from the bus, with an overload, a limit, and polls that are equal."""
    meter.set_input(1, "1.25")
    meter.set_input(2, "-20")
    link = meter.connect().create_link()
    link.write("*CLS;*SRE 128;:STAT:OPER:ENAB 256;PTR 0;NTR 256;:STAT:QUES:ENAB 1")
    link.write("CONF:VOLT (@1,2,5:8);:TRIG:SOUR BUS;COUN 2;:INIT")
    for _ in range(2):
        link.trigger()
        for _ in range(4):
            link.readstb()
            meter.advance(2)
    link.query("STAT:OPER?;:FETC?")
    for _ in range(3):
        link.readstb()
        meter.advance(3)


# A message for each error that a unit causes, in the order of docs/INSTRUMENT.md.
FAULTY = (
    b"*CL\x80",
    b"1X",
    b"ABCDEFGHIJKLM",
    b"FOO",
    b"ROUT:SCAN (@1",
    b"ROUT:SCAN (@1),",
    b"*CLS 1",
    b"*ESE",
    b"ROUT:SCAN 5",
    b"CALC:LIM:UPP 1.2.3",
    b"CALC:LIM:UPP 1A",
    b"*ESE 1V",
    b"*ESE " + b"9" * 256,
    b"*ESE 1E32001",
    b"TRIG:SOUR B-S",
    b"TRIG:SOUR FOO",
    b"ROUT:SCAN (1)",
    b"*ESE 256",
    b"ROUT:MON (@1,2)",
    b"*TRG",
    b"TRIG:SOUR EXT;:INIT;:ROUT:SCAN (@2)",
    b"INIT",
    b"ABOR;:TRIG:SOUR BUS;:READ?",
    b"FETC?",
)


def errors(meter: Meter) -> None:
    """Each error: of units, of messages, and of a full queue."""
    link = meter.connect().create_link()
    for message in FAULTY:
        start_write(link, message)
        link.query("SYST:ERR?")
    start(link, link.calls.read())  # -420
    link.write("*IDN?")
    link.write("*ESE 1")  # -410
    link.write("*CLS")
    link.write("TRIG:SOUR IMM;:CONF:VOLT (@1:128);:TRIG:COUN 16;:READ?")
    meter.advance(2048)
    link.read()
    link.write("FETC?;:FETC?")  # -430
    link.write("*CLS")
    start(link, link.calls.write(b" " * 4090, False))
    start(link, link.calls.write(b"*ESE 1;*SRE 4"))  # -363
    link.write(";".join(["FOO"] * 63))
    link.write("*ESE 256")  # -350, and the next one is lost
    link.query("SYST:ERR:COUN?")


def replies(meter: Meter) -> None:
    """Each call, with each of its replies."""
    first, second = meter.connect(), meter.connect()
    link, other = first.create_link(), second.create_link()
    attempts: Sequence[Callable[[], object]] = (
        lambda: first.create_link("inst1"),
        lambda: second.do(calls.device_readstb(1, 0)),
        lambda: start_write(link, b"x" * 4097),
        link.unlock,
        link.lock,
        link.lock,
        other.lock,
        other.readstb,
        lambda: second.create_link(lock=True),
        link.unlock,
        lambda: link.docmd(1, b""),
        link.remote,
        link.local,
        link.trigger,
        link.clear,
        link.read,
        lambda: link.query("*IDN?"),
        lambda: link.write("*IDN?"),
        lambda: link.read_piece(4),
        lambda: link.read_piece(100, ord(",")),
        link.clear,
        first.destroy_intr_chan,
        first.listen,
        first.listen,
        first.destroy_intr_chan,
        lambda: second.do(calls.create_intr_chan(calls.LOOPBACK, 0)),
        lambda: second.do(calls.create_intr_chan(1, 1)),
        lambda: second.do(calls.create_intr_chan(calls.LOOPBACK, 1, family=calls.BY_UDP)),
        lambda: link.enable_srq(b"A"),
        link.disable_srq,
        lambda: first.do(calls.null()),
        lambda: first.do(calls.device_abort(1)),
        lambda: meter.connect("abort").do(calls.device_abort(9)),
        other.destroy,
        other.readstb,
        lambda: meter.connect("portmap").do(calls.getport(calls.CORE, 1)),
        lambda: meter.connect("portmap").do(calls.set_port(calls.CORE, 1, 1)),
    )
    for attempt in attempts:
        try:
            attempt()
        except (DeviceError, RpcError):
            pass
    meter._replay.do(b"open 9 core\n")
    null = calls.null().encode(1)
    for data, taken in (
        (calls.create_link().encode(1), "refuse"),
        (encode_call(2, calls.CORE, 2, calls.NULL), "turn"),
        (encode_call(3, calls.CORE, 1, 99), "turn"),
        (encode_call(4, 5, 1, 1), "turn"),
        (encode_call(5, calls.CORE, 1, calls.DEVICE_READSTB, b"abc"), "turn"),
        (null[:12] + words(3) + null[16:], "turn"),
        (record(b"no call"), "turn"),
    ):
        meter._replay.do(b"bytes 9 %s\n%s 9\n" % (data.hex().encode(), taken.encode()))
    meter.dials = False
    try:
        second.listen()
    except DeviceError:
        pass
    link.write("TRIG:SOUR BUS;:INIT;*OPC?")
    start(link, link.calls.read())
    first.abort(link)


SESSIONS: dict[str, Callable[[Meter], None]] = {
    "session": session,
    "hang": hang,
    "hung": hung,
    "lock": lock,
    "requests": requests,
    "scan": scan,
    "errors": errors,
    "replies": replies,
}


@functools.lru_cache(None)
def script_of(name: str) -> Sequence[str]:
    """The script of a session."""
    with Meter() as meter:
        SESSIONS[name](meter)
        return meter._replay.script()


@functools.lru_cache(None)
def explained(name: str) -> Explanation:
    """The explanation of a session."""
    return Explanation(script_of(name), find_program())
