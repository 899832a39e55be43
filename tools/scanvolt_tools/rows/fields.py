"""The fields of calls and of results, by their names in VXI-11 (revision 1.0, B.6) and RFC 1833, in their order."""
import socket

from scanvolt.vxi11 import Reader, calls, errors, words

PROGRAMS = {
    "core": calls.CORE,
    "abort": calls.ABORT,
    "interrupt": calls.INTERRUPT,
    "portmap": calls.PORT_MAPPER,
}
FLAGS = {"waitlock": calls.WAITLOCK, "end": calls.END, "termchrset": calls.TERMCHRSET}
REASONS = {"reqcnt": calls.REQUEST_COUNT, "chr": calls.TERMINATOR, "end": calls.ENDED}
FAMILIES = {"tcp": calls.TCP, "udp": calls.UDP}
OPAQUE = ("device", "data", "handle", "data_in", "data_out")
# Words that may be written instead of a number in a field.
WORDS: dict[str, dict[str, int]] = {
    "flags": FLAGS,
    "reason": REASONS,
    "prog": PROGRAMS,
    "progNum": PROGRAMS,
    "prot": FAMILIES,
}
SUMS = ("flags", "reason")

GENERIC = "lid flags lock_timeout io_timeout"
SET_ARGUMENTS = "prog vers prot port"
ARGUMENTS = {
    calls.CORE: {
        calls.CREATE_LINK: "clientId lockDevice lock_timeout device",
        calls.DEVICE_WRITE: "lid io_timeout lock_timeout flags data",
        calls.DEVICE_READ: "lid requestSize io_timeout lock_timeout flags termChar",
        calls.DEVICE_READSTB: GENERIC,
        calls.DEVICE_TRIGGER: GENERIC,
        calls.DEVICE_CLEAR: GENERIC,
        calls.DEVICE_REMOTE: GENERIC,
        calls.DEVICE_LOCAL: GENERIC,
        calls.DEVICE_LOCK: "lid flags lock_timeout",
        calls.DEVICE_UNLOCK: "lid",
        calls.DEVICE_ENABLE_SRQ: "lid enable handle",
        calls.DEVICE_DOCMD: "lid flags io_timeout lock_timeout cmd network_order datasize data_in",
        calls.DESTROY_LINK: "lid",
        calls.CREATE_INTR_CHAN: "hostAddr hostPort progNum progVers progFamily",
        calls.DESTROY_INTR_CHAN: "",
    },
    calls.ABORT: {calls.DEVICE_ABORT: "lid"},
    calls.INTERRUPT: {calls.DEVICE_INTR_SRQ: "handle"},
    calls.PORT_MAPPER: {
        calls.SET: SET_ARGUMENTS,
        calls.UNSET: SET_ARGUMENTS,
        calls.GETPORT: SET_ARGUMENTS,
    },
}
RESULTS = {
    calls.CORE: {
        calls.CREATE_LINK: "error lid abortPort maxRecvSize",
        calls.DEVICE_WRITE: "error size",
        calls.DEVICE_READ: "error reason data",
        calls.DEVICE_READSTB: "error stb",
        calls.DEVICE_DOCMD: "error data_out",
    },
    calls.PORT_MAPPER: {calls.SET: "said", calls.UNSET: "said", calls.GETPORT: "port"},
}
NAMES = {
    name: (program, procedure)
    for program, names in calls.NAMES.items()
    for procedure, name in names.items()
}


def arguments(program: int, procedure: int) -> list[str] | None:
    """The fields of a call's arguments; None if there is no such call."""
    if procedure == calls.NULL:
        return []
    found = ARGUMENTS.get(program, {}).get(procedure)
    return None if found is None else found.split()


def results(program: int, procedure: int) -> list[str]:
    """The fields of a result; only an error, unless the tables say otherwise."""
    if procedure == calls.NULL:
        return []
    return RESULTS.get(program, {}).get(procedure, "error").split()


def name_of(program: int, procedure: int) -> str | None:
    """The name of a call in the text; None if there is no such call."""
    if procedure == calls.NULL and program in PROGRAMS.values():
        return "null"
    return calls.NAMES.get(program, {}).get(procedure)


def error_name(number: int) -> str:
    return errors.NAMES.get(number, "reserved error")


def address_of(text: str) -> int:
    return Reader(socket.inet_aton(text)).word()


def address_text(number: int) -> str:
    return socket.inet_ntoa(words(number))
