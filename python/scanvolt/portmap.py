"""Registers an instrument's ports with the port mapper of this machine (rpcbind), until this program is ended.

    scanvolt-portmap [--core PORT] [--abort PORT]

Clients that ask port 111, such as `lxi` and PyVISA-py, then find the instrument, whatever its ports are.
rpcbind accepts registrations over its socket /run/rpcbind.sock. If it was started with -i, it also accepts
them from root over 127.0.0.1. The line `ready` says that the ports are registered. Ctrl-C and SIGTERM end
this program, which then unregisters them.

Status: 0 it was ended; 1 somebody else has registered one of the programs; 2 it can't be done: no port
mapper answers, say, or the port mapper refuses. Standard error has the reason.
"""

from __future__ import annotations

import argparse
import errno
import os
import signal
import socket
import sys

from .vxi11 import Channel, RpcError, calls
from .vxi11.calls import ABORT, CORE, INTERRUPT, PORT

NAME = "scanvolt-portmap"
LOCAL = "/run/rpcbind.sock"
PATIENCE = 10.0  # seconds that the port mapper may take to answer
RESERVED = range(600, 1024)  # ports that only root may bind
ENDING = (signal.SIGINT, signal.SIGTERM, signal.SIGHUP)
PROGRAMS = (("core", CORE, 4096), ("abort", ABORT, 4097), ("interrupt", INTERRUPT, None))


class _Fault(Exception):
    """Why it can't be done, and the command's status."""

    def __init__(self, text: str, status: int = 2) -> None:
        super().__init__(text)
        self.status = status


def port_of(text: str) -> int:
    """A port of the command line."""
    if not (text.isascii() and text.isdigit() and 1 <= int(text) <= 65535):
        raise argparse.ArgumentTypeError(f"not a port, 1 to 65535: {text}")
    return int(text)


def words(given: list[str] | None) -> argparse.Namespace:
    """The arguments of the command line."""
    parser = argparse.ArgumentParser(
        prog=NAME, description=__doc__, formatter_class=argparse.RawDescriptionHelpFormatter
    )
    for name, _, usual in PROGRAMS:
        parser.add_argument(
            "--" + name,
            type=port_of,
            default=usual,
            metavar="PORT",
            help=f"the port of the {name} program; {usual or 'none is registered'} without it",
        )
    parser.add_argument(
        "--port", type=port_of, default=PORT, help=f"the port of the port mapper; {PORT} without it"
    )
    return parser.parse_args(given)


def mapper(port: int) -> Channel:
    """A connection to the port mapper: over its own socket, or over 127.0.0.1."""
    if port == PORT and os.path.exists(LOCAL):
        local = socket.socket(socket.AF_UNIX)
        local.settimeout(PATIENCE)
        try:
            local.connect(LOCAL)
            return Channel("", 0, PATIENCE, local)
        except OSError:  # a port mapper that ended left the socket there
            local.close()
    try:
        return Channel("", 0, PATIENCE, loopback(port))
    except OSError as fault:
        raise _Fault(
            f"no port mapper answers, neither at {LOCAL} nor at port {port} of 127.0.0.1 "
            f"({fault.strerror or fault}): is rpcbind there, and does it run?"
        ) from None


def loopback(port: int) -> socket.socket:
    """A connection to a port of 127.0.0.1, from a reserved port if we may bind one."""
    for own in RESERVED:
        try:
            return socket.create_connection(("127.0.0.1", port), PATIENCE, ("127.0.0.1", own))
        except OSError as fault:
            if fault.errno not in (errno.EADDRINUSE, errno.EADDRNOTAVAIL):
                break
    return socket.create_connection(("127.0.0.1", port), PATIENCE)


def register(port: int, wanted: dict[int, tuple[str, int]]) -> list[int]:
    """Registers programs with their ports. If one fails, those already registered are unregistered."""
    made: list[int] = []
    try:
        with mapper(port) as channel:
            for program, (name, wish) in wanted.items():
                known = channel.do(calls.getport(program, 1))
                if known:
                    raise _Fault(
                        f"somebody else has registered the {name} program, {program}, at port {known}; whoever did can unregister it by "
                        f"`rpcinfo -d {program} 1`",
                        1,
                    )
                if not channel.do(calls.set_port(program, 1, wish)):
                    raise _Fault(
                        f"the port mapper refuses port {wish} of the {name} program: run this as root"
                    )
                made.append(program)
    except (_Fault, RpcError, OSError) as fault:
        take_back(port, made)
        raise fault if isinstance(fault, _Fault) else told(fault) from None
    return made


def told(fault: Exception) -> _Fault:
    """The fault to raise if a call to the port mapper failed."""
    return _Fault(f"the port mapper doesn't answer as one: {fault}")


def take_back(port: int, made: list[int]) -> None:
    """Unregisters programs."""
    if not made:
        return
    try:
        with mapper(port) as channel:
            for program in made:
                if not channel.do(calls.unset_port(program, 1)):
                    raise _Fault(f"the port mapper knows no port of program {program} any more")
    except (RpcError, OSError) as fault:
        raise told(fault) from None


def main(given_words: list[str] | None = None) -> int:
    """Runs the command. Returns its status."""
    given = words(given_words)
    wanted = {
        program: (name, getattr(given, name))
        for name, program, _ in PROGRAMS
        if getattr(given, name)
    }
    signal.pthread_sigmask(signal.SIG_BLOCK, ENDING)  # these signals wait until sigwait takes one
    try:
        made = register(given.port, wanted)
        print("ready: " + ", ".join(f"{name} {port}" for name, port in wanted.values()), flush=True)
        signal.sigwait(ENDING)
        take_back(given.port, made)
    except _Fault as fault:
        print(f"{NAME}: {fault}", file=sys.stderr)
        return fault.status
    return 0


if __name__ == "__main__":
    sys.exit(main())
