"""Clients that behave while others attack, and must lose nothing."""
import socket
import threading
import time

from scanvolt.vxi11 import calls

from .calls import PATIENCE, Lost, Peer

# The service requests that come. The xid of each is one more than that of the request before.
HANDLE = b"beside"
REQUEST = calls.device_intr_srq(HANDLE)
SIZE = len(REQUEST.encode(0))


class Beside(threading.Thread):
    """The client that must lose no reply."""

    def __init__(self, port: int) -> None:
        super().__init__(daemon=True)
        self.peer = Peer(port)
        self.peer.make_link()
        self.replies = 1
        self.slowest = 0.0
        self.fault: str | None = None
        self.going = True
        # While somebody holds this lock, the client is silent.
        self.turn = threading.Lock()

    def run(self) -> None:
        try:
            while self.going:
                with self.turn:
                    begun = time.monotonic()
                    self.replies += self.peer.session()
                    self.slowest = max(self.slowest, time.monotonic() - begun)
                time.sleep(0.002)
        except (OSError, Lost) as fault:
            self.fault = f"the client beside lost a reply, after {self.replies}: {fault}"


class Requests(threading.Thread):
    """A client that makes the server request service again and again, and must get each request."""

    def __init__(self, port: int) -> None:
        super().__init__(daemon=True)
        self.peer = Peer(port)
        self.peer.make_link()
        with socket.create_server(("127.0.0.1", 0)) as listener:
            listener.settimeout(PATIENCE)
            self.peer.do(calls.create_intr_chan(calls.LOOPBACK, listener.getsockname()[1]))
            self.channel = listener.accept()[0]
        self.peer.do(calls.device_enable_srq(self.peer.link, HANDLE))
        self.count = 0  # service requests that came; other clients may have caused some
        self.asked = 0  # service requests that this client caused
        self.data = b""
        self.fault: str | None = None
        self.going = True
        self.turn = threading.Lock()

    def take(self, patience: float) -> bool:
        """Reads service requests that came, or waits up to `patience` seconds for one. Checks their xids."""
        self.channel.settimeout(patience)
        try:
            piece = self.channel.recv(65536)
        except (BlockingIOError, socket.timeout):
            return False
        if not piece:
            raise Lost("the interrupt channel was closed")
        self.data += piece
        while len(self.data) >= SIZE:
            self.count += 1
            if self.data[:SIZE] != REQUEST.encode(self.count):
                raise Lost(f"request {self.count} has other bytes: {self.data[:SIZE].hex()}")
            self.data = self.data[SIZE:]
        return True

    def ask(self) -> None:
        """Causes one service request, while it holds the lock, so that no other client causes one."""
        self.peer.lock()
        self.peer.write(b"*CLS;*SRE 4\n")
        self.peer.poll()
        while self.take(0):
            pass
        before = self.count
        self.peer.write(b"UNKNOWN\n")
        end = time.monotonic() + PATIENCE
        while self.count == before and time.monotonic() < end:
            self.take(0.5)
        self.peer.poll()
        if self.count != before + 1:
            raise Lost(f"{self.count - before} requests came instead of one")
        self.asked += 1
        self.peer.unlock()

    def run(self) -> None:
        try:
            while self.going:
                with self.turn:
                    self.ask()
                time.sleep(0.01)
        except (OSError, Lost) as fault:
            self.fault = f"a request was lost, after {self.asked}: {fault}"
