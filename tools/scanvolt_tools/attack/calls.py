"""A client that makes calls of VXI-11, and may break off within one."""
import random
import socket
import struct
from typing import Any

from scanvolt.vxi11 import DeviceError, Records, XdrError, calls, encode_reply, opaque, words
from scanvolt.vxi11.calls import Call
from scanvolt.vxi11.errors import OUT_OF_RESOURCES
from scanvolt.vxi11.rpc import RESULT_AT

NAME = b"SCANVOLT,SV32,0,1.0\n"
PATIENCE = 20  # seconds within which a reply has to come
TIMEOUT = 15000  # the timeout of calls, in milliseconds


class Lost(Exception):
    """Something that the server should have sent didn't come."""


class NoRoom(Lost):
    """The server refused a link since it had no room."""


class Dropped(Exception):
    """A peer has sent as many bytes as it should, and broke off."""


def reset(connection: socket.socket) -> None:
    """Closes a connection so that the other side sees a reset."""
    connection.setsockopt(socket.SOL_SOCKET, socket.SO_LINGER, struct.pack("ii", 1, 0))
    connection.close()


class Peer:
    """A connection. With a limit it breaks off, and raises Dropped, after that many bytes were sent. With `narrow`
    it has little room for bytes from the server.
    """

    def __init__(self, port: int, limit: int | None = None, narrow: bool = False) -> None:
        self.socket = socket.socket()
        self.socket.settimeout(PATIENCE)
        if narrow:
            self.socket.setsockopt(socket.IPPROTO_TCP, socket.TCP_MAXSEG, 536)
            self.socket.setsockopt(socket.SOL_SOCKET, socket.SO_RCVBUF, 4096)
        self.socket.connect(("127.0.0.1", port))
        self.socket.setsockopt(socket.IPPROTO_TCP, socket.TCP_NODELAY, 1)
        self.limit = limit
        self.xid = 0
        self.link = 0

    def __enter__(self) -> "Peer":
        return self

    def __exit__(self, *_: object) -> None:
        self.socket.close()

    def drop(self, chance: random.Random) -> None:
        """Closes the connection so that the other side sees an end or a reset, by chance."""
        if chance.random() < 0.5:
            reset(self.socket)
        self.socket.close()

    def send(self, data: bytes) -> None:
        if self.limit is not None:
            if len(data) > self.limit:
                self.socket.sendall(data[: self.limit])
                raise Dropped
            self.limit -= len(data)
        self.socket.sendall(data)

    def take(self, count: int) -> bytes:
        data = b""
        while len(data) < count:
            piece = self.socket.recv(count - len(data))
            if not piece:
                raise ConnectionError("closed")
            data += piece
        return data

    def reply(self) -> bytes:
        """The bytes of the next record, with the marks of its fragments."""
        records, data = Records(), b""
        while True:
            data += self.take(1 if records.left is None else records.left)
            if records.push(data[records.count :]):
                return data

    def result(self, call: Call[Any]) -> bytes:
        """Makes a call. Returns the bytes of its result."""
        self.xid += 1
        self.send(call.encode(self.xid))
        reply = self.reply()
        if reply != encode_reply(self.xid, reply[RESULT_AT:]):
            raise Lost(f"call {self.xid} has another reply: {reply.hex()}")
        return reply[RESULT_AT:]

    def do(self, call: Call[Any], expected: bytes = b"") -> None:
        """Makes a call of the core channel. Checks that its result is error 0 and then these bytes."""
        found = self.result(call)
        if found != words(0) + expected:
            raise Lost(f"{call.name} returns something else: {found.hex()}")

    def make_link(self) -> None:
        call = calls.create_link(client=1)
        found = self.result(call)
        if found == words(OUT_OF_RESOURCES, 0, 0, 0):
            raise NoRoom("no room for a link")
        try:
            made = call.read(found)
        except (DeviceError, XdrError) as fault:
            raise Lost(f"no link: {fault}") from None
        self.link = made.link

    def write(self, text: bytes) -> None:
        self.do(calls.device_write(self.link, text, TIMEOUT), words(len(text)))

    def lock(self) -> None:
        """Takes the lock, and waits for it."""
        self.do(calls.device_lock(self.link, TIMEOUT))

    def unlock(self) -> None:
        self.do(calls.device_unlock(self.link))

    def session(self) -> int:
        """Takes the lock, clears the device, asks for its name, polls, and frees the lock. Returns the number of replies."""
        self.lock()
        self.do(calls.device_clear(self.link, TIMEOUT, TIMEOUT))
        self.write(b"*IDN?\n")
        self.do(calls.device_read(self.link, 1024, TIMEOUT), words(calls.ENDED) + opaque(NAME))
        self.poll()
        self.unlock()
        return 6

    def poll(self) -> int:
        """Reads the status byte."""
        call = calls.device_readstb(self.link, TIMEOUT, TIMEOUT)
        found = self.result(call)
        try:
            return call.read(found)
        except (DeviceError, XdrError) as fault:
            raise Lost(f"no status byte: {fault}") from None
