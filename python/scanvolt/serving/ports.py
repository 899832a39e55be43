"""Ports of 127.0.0.1: which are free, and who has one that isn't."""

from __future__ import annotations

import errno
import glob
import os
import pathlib
import socket
from collections.abc import Sequence

ROLES = ("core", "abort", "portmap")  # of the ports that each server has
CONTROL = "control"  # the role of the one that it may have besides
HIGHEST = 65535


class Taken(Exception):
    """Ports that can't be had: `reasons` has a line for each."""

    def __init__(self, reasons: Sequence[str]) -> None:
        super().__init__("; ".join(reasons))
        self.reasons = list(reasons)


def listener(port: int) -> socket.socket:
    """A socket that listens as the program would. Raises OSError if it can't."""
    made = socket.socket()
    made.setsockopt(socket.SOL_SOCKET, socket.SO_REUSEADDR, 1)
    try:
        made.bind(("127.0.0.1", port))
        made.listen()
    except OSError:
        made.close()
        raise
    return made


def owner(port: int) -> str:
    """Which process listens on a port, if that can be found out."""
    inodes = set()
    for name in glob.glob("/proc/net/tcp*"):
        for line in pathlib.Path(name).read_text(encoding="ascii").splitlines()[1:]:
            words = line.split()
            if words[3] == "0A" and int(words[1].split(":")[1], 16) == port:
                inodes.add(f"socket:[{words[9]}]")
    for link in glob.glob("/proc/[0-9]*/fd/*"):
        try:
            if os.readlink(link) in inodes:
                pid = link.split("/")[2]
                name = pathlib.Path(f"/proc/{pid}/comm").read_text(errors="replace").strip()
                return f"by process {pid}, {name}"
        except OSError:
            pass
    return "by a process that can't be found"


def lacks(port: int, held: list[socket.socket] | None = None) -> str | None:
    """Why a port can't be bound; None if it can: `held`, if given, then gets its listener."""
    try:
        made = listener(port)
    except OSError as error:
        if error.errno != errno.EADDRINUSE:
            return f"can't be bound: {error.strerror}"
        mine = port in [one.getsockname()[1] for one in held or []]
        return "is given twice" if mine else "is in use " + owner(port)
    if held is None:
        made.close()
    else:
        held.append(made)
    return None


def free(wanted: Sequence[int]) -> tuple[int, ...]:
    """The wanted ports, with a free one for each 0. They are free at this moment. Raises Taken."""
    held: list[socket.socket] = []
    reasons = [(port, lacks(port, held)) for port in wanted]
    ports = tuple(one.getsockname()[1] for one in held)
    for one in held:
        one.close()
    if len(ports) < len(wanted):
        raise Taken([f"port {port} {why}" for port, why in reasons if why is not None])
    return ports


def port(text: str) -> int:
    """A port, or 0 for a free one. Raises ValueError."""
    if not (text.isascii() and text.isdigit() and int(text) <= HIGHEST):
        raise ValueError(f"not a port, 1 to {HIGHEST}, or 0 for a free one: {text}")
    return int(text)
