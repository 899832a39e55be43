"""Hostile clients of the control port, and one that must be served beside them. A client may be closed at once: it
may be the fifth.
"""
import random
import socket
import time

from .calls import PATIENCE, Lost
from .served import Server


LINES = (
    b"input 1 1000000\n",
    b"input 128 -5\r\n",
    b"external\n",
    b"input 0 1\n",
    b"\n",
    b"input 1",
    b"x" * 300,
)
# Each line is answered, and one of a hundred sets an input: what sets one is in the record of the session.
FLOOD = (LINES[0] + b"\n" * 99) * 10


def client(server: Server) -> socket.socket:
    return socket.create_connection(("127.0.0.1", server.control_port), PATIENCE)


def control_lines(server: Server, chance: random.Random) -> None:
    """Sends good, bad, half and long lines, reads some of the answers, and leaves."""
    with client(server) as peer:
        try:
            peer.sendall(b"".join(chance.choices(LINES, k=chance.randrange(1, 40))))
            peer.settimeout(chance.choice((0.001, 0.01, 0.1)))
            peer.recv(chance.randrange(1, 100))
        except OSError:
            pass


def control_noise(server: Server, chance: random.Random) -> None:
    """Sends random bytes, and leaves."""
    with client(server) as peer:
        try:
            peer.sendall(chance.randbytes(10000))
        except OSError:
            pass


def control_flood(server: Server, _: random.Random) -> None:
    """Sends lines without a pause, and never reads. Leaves once the server takes no more of them."""
    with client(server) as peer:
        peer.setblocking(False)
        end = time.monotonic() + 2
        while time.monotonic() < end:
            try:
                peer.send(FLOOD)
            except BlockingIOError:
                time.sleep(0.01)
            except OSError:
                break


def control_half_close(server: Server, chance: random.Random) -> None:
    """Sends lines and shuts down its sending direction. Each line must be answered, and then the stream has to end."""
    with client(server) as peer:
        peer.settimeout(PATIENCE)
        count = chance.randrange(20)
        try:
            peer.sendall(b"external\n" * count + b"half")
            peer.shutdown(socket.SHUT_WR)
            answers = b""
            while piece := peer.recv(1000):
                answers += piece
        except socket.timeout:
            raise Lost("a control client that has half closed its connection stays open") from None
        except ConnectionError:
            return
        if answers not in (b"", b"ok\n" * count):
            raise Lost(f"the control port answered {answers!r} to {count} lines")


ATTACKS = (control_lines, control_noise, control_flood, control_half_close)


def served(server: Server) -> float:
    """Waits until a new client is served, and returns after how many milliseconds it was."""
    begun = time.monotonic()
    while time.monotonic() < begun + PATIENCE:
        with client(server) as peer:
            try:
                peer.sendall(b"input 1 0\n")
                if peer.recv(100) == b"ok\n":
                    return 1000 * (time.monotonic() - begun)
            except OSError:
                pass
        time.sleep(0.01)
    raise Lost("no client of the control port is served")
