"""Clients over sockets: a channel, and a client of the core channel with its links and service requests."""

from __future__ import annotations

import queue
import socket
import sys
import threading
from time import monotonic  # of this machine, also within a meter's keeping_time
from typing import TypeVar

from . import calls
from .calls import Call
from .core import Core
from .errors import DeviceError
from .link import Link
from .requests import Callback, RequestStream, ServiceRequest, checked_callback
from .rpc import Records
from .timeouts import milliseconds as checked
from .whole import whole

__tracebackhide__ = True  # pytest shows the line that calls the package, and not these frames
Value = TypeVar("Value")
Itself = TypeVar("Itself", bound="Channel")
PATIENCE = 10.0  # seconds that a reply may take, beyond the timeouts of its call
ELSEWHERE = (
    "no port mapper is there. If it has another port, give that: Client(port_mapper=4111), say. Or give the "
    "core channel's port: Client(port=4096), say"
)


class Channel:
    """A connection that carries calls, one after the other. Threads may share it.

    `patience` is how many seconds a reply may take beyond the timeouts of its call. After that the connection is
    closed, and ConnectionError raised. It is also closed if a call is interrupted: its late reply would be taken
    for the reply to the next call. `connected` is a connected socket, if the caller already has one.
    """

    def __init__(
        self,
        host: str,
        port: int,
        patience: float = PATIENCE,
        connected: socket.socket | None = None,
    ) -> None:
        self.host = host
        self.patience = patience
        self.socket = _connected(host, port, patience) if connected is None else connected
        peer = (host, port) if connected is None else connected.getpeername()
        self.name = f"{peer[0]}:{peer[1]}" if isinstance(peer, tuple) else str(peer)
        self.is_open = True
        self._xid = 0
        self._records = Records()
        self._turn = threading.Lock()

    def __repr__(self) -> str:
        closed = "" if self.is_open else ", closed"
        return f"<{type(self).__name__} of {self.name}{closed}>"

    def __str__(self) -> str:
        return self.name

    def __enter__(self: Itself) -> Itself:
        return self

    def __exit__(self, *_: object) -> None:
        self.close()

    def close(self) -> None:
        """Closes the connection; the instrument destroys its links. After that, each call raises ConnectionError."""
        self.is_open = False
        self.socket.close()

    def check_open(self) -> None:
        """Raises ConnectionError if the connection is closed."""
        if not self.is_open:
            raise ConnectionError(f"the connection is closed: {self.name}")

    def do(self, call: Call[Value]) -> Value:
        """Makes a call, and waits for its result."""
        with self._turn:
            self.check_open()
            self._xid = (self._xid + 1) % 2**32
            began = monotonic()
            body = self._reply(call)
            try:
                return call.answer(body, self._xid)
            except DeviceError as fault:
                fault.waited = 1000 * (monotonic() - began)
                raise

    def _reply(self, call: Call[Value]) -> bytes:
        """Sends a call. Returns the record of its reply. If that fails or is interrupted, the connection is closed."""
        patience = self.patience + call.wait / 1000
        try:
            self.socket.settimeout(patience)
            self.socket.sendall(call.encode(self._xid))
            return self._record(call)
        except socket.timeout:
            self.close()
            raise ConnectionError(
                f"no reply to {call.name} within {patience:g} s: {self.name}"
            ) from None
        except OSError as fault:
            self.close()
            raise _named(fault, f"{fault.strerror} within {call.name}: {self.name}") from None
        except BaseException:
            self.close()
            raise

    def _record(self, call: Call[Value]) -> bytes:
        """The next record that comes."""
        while True:
            data = self.socket.recv(65536)
            if not data:
                raise ConnectionError(f"the connection ended within {call.name}: {self.name}")
            found = self._records.push(data)
            if found:
                return found[0].body


def _named(fault: OSError, text: str) -> OSError:
    """The same error of the system, with this text. One that has its own text stays as it is."""
    return fault if fault.errno is None else type(fault)(fault.errno, text)


def _connected(host: str, port: int, patience: float) -> socket.socket:
    """A socket that is connected to this port."""
    port = whole(port, 1, 65535, "a connection wants a port")
    try:
        connected = socket.create_connection((host, port), patience)
    except socket.timeout:
        raise TimeoutError(f"no connection within {patience:g} s: {host}:{port}") from None
    except OSError as fault:
        raise _named(fault, f"{fault.strerror}: {host}:{port}") from None
    connected.setsockopt(socket.IPPROTO_TCP, socket.TCP_NODELAY, 1)
    return connected


def port_of(
    host: str, program: int, version: int, port: int = 111, patience: float = PATIENCE
) -> int:
    """Asks the port mapper of a host for the TCP port of a program. Raises ConnectionError if none is
    registered.
    """
    try:
        mapper = Channel(host, port, patience)
    except ConnectionRefusedError as fault:
        raise _named(fault, f"{fault.strerror}; {ELSEWHERE}") from None
    with mapper:
        found = mapper.do(calls.getport(program, version))
    if found == 0:
        raise ConnectionError(
            f"the port mapper knows no port of program {program:#x}: {host}:{port}"
        )
    return found


class Client(Channel, Core):
    """A connection to the core channel of an instrument.

    Without a port it asks the port mapper. At its end, `with Client(host) as client, client.create_link() as link:`
    ends the link and the connection.
    """

    def __init__(
        self,
        host: str = "127.0.0.1",
        port: int | None = None,
        patience: float = PATIENCE,
        port_mapper: int = 111,
    ) -> None:
        if port is None:
            port = port_of(host, calls.CORE, 1, port_mapper, patience)
        super().__init__(host, port, patience)
        self._requests: ServiceRequests | None = None

    def abort(self, link: Link) -> None:
        """Aborts the call that waits on a link. It uses a connection of its own, so it doesn't wait for other
        calls.
        """
        self.check_open()
        with Channel(self.host, link.abort_port, self.patience) as channel:
            channel.do(calls.device_abort(link.number))

    def listen(self, callback: Callback | None = None) -> ServiceRequests:
        """Makes the interrupt channel. Service requests go to the callback, in a thread, or else into a queue."""
        self.check_open()
        callback = checked_callback(callback)
        address = self.socket.getsockname()[0]
        requests = ServiceRequests(address, callback)
        try:
            number = int.from_bytes(socket.inet_aton(address), "big")
            self.create_intr_chan(number, requests.port)
        except BaseException:
            requests.close()
            raise
        self._requests = requests
        return requests

    def close(self) -> None:
        """Closes the connection, and the interrupt channel's listener."""
        super().close()
        if self._requests is not None:
            self._requests.close()


class ServiceRequests:
    """Listens for one interrupt channel, on a port and in a thread of its own."""

    def __init__(self, address: str, callback: Callback | None = None) -> None:
        self.callback = callback
        self.queue: queue.Queue[ServiceRequest] = queue.Queue()
        self._listener = socket.create_server((address, 0))
        self.port: int = self._listener.getsockname()[1]
        self._channel: socket.socket | None = None
        self._closed = False
        self._thread = threading.Thread(target=self._serve, daemon=True, name="service requests")
        self._thread.start()

    def wait(self, milliseconds: int) -> ServiceRequest:
        """The next service request. Raises TimeoutError if none comes within this many milliseconds."""
        most = checked(milliseconds, "wait")
        try:
            return self.queue.get(timeout=most / 1000)
        except queue.Empty:
            raise TimeoutError(f"no service request within {most} ms") from None

    def close(self) -> None:
        """Stops listening; requests that came stay in the queue."""
        self._closed = True
        for one in (self._listener, self._channel):
            if one is not None:
                _shut(one)
        if self._thread is not threading.current_thread():
            self._thread.join()

    def _serve(self) -> None:
        """Accepts the one connection, and hands on what it carries until it ends."""
        with self._listener:
            channel = self._accepted()
        if channel is None:
            return
        stream = RequestStream()
        with channel:
            self._channel = channel
            while not self._closed:
                try:
                    data = channel.recv(65536)
                except OSError:
                    return
                if not data:
                    return
                for request in stream.push(data):
                    self._hand(request)

    def _accepted(self) -> socket.socket | None:
        """The connection from the instrument; None if this is closed before one comes."""
        self._listener.settimeout(0.2)
        while not self._closed:
            try:
                channel = self._listener.accept()[0]
            except socket.timeout:
                continue
            except OSError:
                return None
            channel.settimeout(None)
            return channel
        return None

    def _hand(self, request: ServiceRequest) -> None:
        """Hands on a service request. If the callback raises, that is reported like an exception of a thread."""
        if self.callback is None:
            self.queue.put(request)
            return
        try:
            self.callback(request)
        except Exception:
            kind, fault, trace = sys.exc_info()
            threading.excepthook(threading.ExceptHookArgs((kind, fault, trace, self._thread)))


def _shut(one: socket.socket) -> None:
    """Shuts down a socket on which another thread waits."""
    try:
        one.shutdown(socket.SHUT_RDWR)
    except OSError:
        pass
