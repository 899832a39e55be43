"""Faults on order on sockets: a relay between clients and a server."""

from __future__ import annotations

import itertools
import socket
import threading
import time
import weakref
from dataclasses import dataclass
from typing import TypeVar

from ..vxi11.timeouts import milliseconds as checked
from ..vxi11.whole import WORD, whole

__tracebackhide__ = True  # pytest shows the line that calls the package, and not these frames
Itself = TypeVar("Itself", bound="Relay")
CLIENT, SERVER = "client", "server"  # towards whom bytes go
TURN = 0.1  # seconds after which a relay looks whether it is closed
# those that there are, in their order
RELAYS: weakref.WeakValueDictionary[int, Relay] = weakref.WeakValueDictionary()
_numbers = itertools.count()


@dataclass
class _Order:
    """A fault that was ordered: of which kind, towards whom, after how many further bytes, and how much."""

    kind: str
    towards: str
    after: int
    much: int = 0


class _Way:
    """One direction of a connection: the bytes from a socket to another, in a thread."""

    def __init__(
        self, relay: Relay, source: socket.socket, target: socket.socket, towards: str, number: int
    ) -> None:
        self._relay, self._source, self._target = relay, source, target
        self.towards, self.number = towards, number
        self.thread = threading.Thread(
            target=self._run, daemon=True, name=f"relay towards the {towards}"
        )

    def _run(self) -> None:
        """Passes bytes on until one side ends."""
        try:
            while True:
                data = self._source.recv(65536)
                if not data:
                    break
                while data:
                    data = self._step(data)
        except OSError:  # one of them is closed
            pass
        for one in self._source, self._target:
            shut(one)

    def _step(self, data: bytes) -> bytes:
        """Passes on the bytes before the next fault, or does the fault. Returns those that are left."""
        order, count = self._relay._due(self.towards, len(data))
        if order is None or count:
            self._send(data[: count or len(data)])
            return data[count or len(data) :]
        if order.kind == "drop":
            size = min(order.much, len(data))
            self._relay._tell(self, f"drops {size} bytes: {data[:size].hex()}")
            if size < order.much:
                self._relay._again(_Order("drop", self.towards, 0, order.much - size))
            return data[size:]
        if order.kind == "delay":
            self._relay._tell(self, f"waits {order.much} ms")
            self._relay._closed.wait(order.much / 1000)
            return data
        self._relay._tell(
            self, f"ends the connection; {len(data)} bytes that came aren't passed on"
        )
        raise ConnectionAbortedError

    def _send(self, data: bytes) -> None:
        size = self._relay._sizes.get(self.towards, 0)
        if not size or len(data) <= size:
            self._target.sendall(data)
            return
        self._relay._tell(self, f"splits {len(data)} bytes into pieces of {size}")
        for start in range(0, len(data), size):
            self._target.sendall(data[start : start + size])
            time.sleep(0.001)  # else the system joins the pieces


class Relay:
    """Passes on what goes between clients and the server at a port, and does faults on order. It listens at `port` of
    127.0.0.1. `close` ends it, and so does the end of a `with` block.

    Faults are counted in bytes that pass after the order, of all connections together. `towards` says which bytes: those
    towards the "client" or the "server". Orders of one direction are done one after the other. `told` has
    a line for each fault that came. Only what goes through this port is touched: a client that asks a port mapper, and
    the abort and the interrupt channel, go past it.
    """

    def __init__(self, port: int, host: str = "127.0.0.1") -> None:
        self._peer = (host, whole(port, 1, 65535, "a relay wants the port of a server"))
        self._orders: list[_Order] = []
        self._sizes: dict[str, int] = {}
        self.told: list[str] = []
        self._guard = threading.Lock()
        self._closed = threading.Event()
        self._began = time.monotonic()
        self._sockets: list[socket.socket] = []
        self._ways: list[_Way] = []
        self._listener = socket.create_server(("127.0.0.1", 0))
        self._listener.settimeout(TURN)
        self.port: int = self._listener.getsockname()[1]
        self._thread = threading.Thread(target=self._serve, daemon=True, name="relay")
        self._thread.start()
        RELAYS[next(_numbers)] = self

    def __repr__(self) -> str:
        host, port = self._peer
        closed = ", closed" if self._closed.is_set() else ""
        return f"<Relay of port {self.port} to {host}:{port}{closed}>"

    def __enter__(self: Itself) -> Itself:
        return self

    def __exit__(self, kind: type[BaseException] | None, *_: object) -> None:
        self.close()

    def cut(self, after: int = 0, towards: str = CLIENT) -> None:
        """Ends the connection that passes the byte after this many bytes."""
        self._order("cut", towards, after, 0)

    def delay(self, milliseconds: int, after: int = 0, towards: str = CLIENT) -> None:
        """Passes on what comes after this many bytes so many milliseconds later."""
        self._order("delay", towards, after, checked(milliseconds, "delay"))

    def drop(self, count: int, after: int = 0, towards: str = CLIENT) -> None:
        """Drops `count` bytes after so many bytes."""
        self._order("drop", towards, after, whole(count, 1, WORD, "drop wants a number of bytes"))

    def split(self, size: int, towards: str = CLIENT) -> None:
        """From now on passes bytes on in pieces of at most this size; 0 ends that."""
        self._towards(towards)
        self._sizes[towards] = whole(size, 0, WORD, "split wants a size in bytes")

    def close(self) -> None:
        """Ends the relay and its connections."""
        self._closed.set()
        self._thread.join()
        for one in self._sockets:
            shut(one)
        for way in self._ways:
            way.thread.join()
        for one in self._sockets:
            one.close()

    @staticmethod
    def _towards(towards: str) -> None:
        if towards not in (CLIENT, SERVER):
            raise ValueError(f"bytes go towards the client or the server, and not {towards!r}")

    def _order(self, kind: str, towards: str, after: int, much: int) -> None:
        self._towards(towards)
        order = _Order(
            kind, towards, whole(after, 0, WORD, f"{kind} wants a number of bytes before it"), much
        )
        with self._guard:
            self._orders.append(order)

    def _again(self, order: _Order) -> None:
        """Puts back what is left of an order."""
        with self._guard:
            self._orders.insert(0, order)

    def _due(self, towards: str, size: int) -> tuple[_Order | None, int]:
        """The fault that comes within so many bytes, and after how many; it is taken if that is 0."""
        with self._guard:
            order = next((one for one in self._orders if one.towards == towards), None)
            if order is None:
                return None, 0
            count = min(order.after, size)
            order.after -= count
            if count == 0:
                self._orders.remove(order)
            return order, count

    def _tell(self, way: _Way, words: str) -> None:
        """Notes a fault for the traces."""
        passed = time.monotonic() - self._began
        told = (
            f"{passed:.3f} s, connection {way.number}, towards the {way.towards}: the relay {words}"
        )
        with self._guard:
            self.told.append(told)

    def _serve(self) -> None:
        """Accepts clients, and connects each to the server."""
        with self._listener:
            while not self._closed.is_set():
                try:
                    client = self._listener.accept()[0]
                except socket.timeout:
                    continue
                client.settimeout(None)
                self._sockets.append(client)
                try:
                    server = socket.create_connection(self._peer)
                except OSError:  # the client sees a connection that ends
                    shut(client)
                    continue
                self._begin(client, server)

    def _begin(self, client: socket.socket, server: socket.socket) -> None:
        """Starts both directions of a connection."""
        self._sockets.append(server)
        number = len(self._ways) // 2
        for one in client, server:
            one.setsockopt(socket.IPPROTO_TCP, socket.TCP_NODELAY, 1)
        self._ways += [
            _Way(self, client, server, SERVER, number),
            _Way(self, server, client, CLIENT, number),
        ]
        for way in self._ways[-2:]:
            way.thread.start()


def shut(one: socket.socket) -> None:
    """Ends both directions of a socket, on which a thread may wait."""
    try:
        one.shutdown(socket.SHUT_RDWR)
    except OSError:
        pass
