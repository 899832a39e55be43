"""How connections, links and meters end: what was raised in their `with` block comes out of it, and what is closed
says so.
"""

from __future__ import annotations

import contextlib
import socket
import struct
import threading
import unittest
from collections.abc import Callable, Iterator
from typing import cast

from scanvolt.program import ProgramError, Server
from scanvolt.virtual import Connection, Meter, NoAnswer
from scanvolt.vxi11 import Channel, Client, Link, calls, encode_reply, words

from .processes import ctrl_c

LINK = encode_reply(1, words(0, 1, 4097, 4096))
WAITING = "TRIG:SOUR EXT;:INIT;*OPC?"  # the response never comes


@contextlib.contextmanager
def peer(resets: bool = False) -> Iterator[int]:
    """A port where a peer makes a link, and then answers nothing; with `resets` it resets the connection."""

    def answer() -> None:
        with listener.accept()[0] as one:
            one.recv(1000)
            one.sendall(LINK)
            one.recv(1000)
            if resets:
                one.setsockopt(socket.SOL_SOCKET, socket.SO_LINGER, struct.pack("ii", 1, 0))
            else:
                one.recv(1000)

    with socket.create_server(("127.0.0.1", 0)) as listener:
        thread = threading.Thread(target=answer)
        thread.start()
        yield listener.getsockname()[1]
        thread.join()


class OverSockets(unittest.TestCase):
    """Blocks of Client and of its links."""

    def link(self, port: int, patience: float = 10) -> contextlib.AbstractContextManager[Link]:
        """`with Client(..) as client, client.create_link() as link:`"""

        @contextlib.contextmanager
        def both() -> Iterator[Link]:
            with Client(port=port, patience=patience) as client, client.create_link() as link:
                yield link

        return both()

    def test_ctrl_c(self) -> None:
        with Server() as server, ctrl_c(), self.assertRaises(KeyboardInterrupt), self.link(
            server.core
        ) as link:
            link.query(WAITING)

    def test_a_reset(self) -> None:
        with peer(resets=True) as port, self.assertRaises(ConnectionResetError), self.link(
            port
        ) as link:
            link.readstb()

    def test_a_server_that_is_killed(self) -> None:
        with Server() as server, self.assertRaises(ConnectionError), self.link(server.core) as link:
            server.process.kill()
            server.process.wait()
            link.query("*IDN?")

    def test_no_reply(self) -> None:
        text = "no reply to device_readstb within 0.1 s"
        with peer() as port, self.assertRaisesRegex(ConnectionError, text), self.link(
            port, 0.1
        ) as link:
            link.io_timeout = 0
            link.readstb()

    def test_an_exception_of_the_test(self) -> None:
        """The link can't be destroyed any more: the exception comes out all the same."""
        with peer() as port, self.assertRaisesRegex(LookupError, "first"), self.link(port, 0.1):
            raise LookupError("first")

    def test_what_is_closed(self) -> None:
        with Server() as server:
            client = Client(port=server.core)
            link = client.create_link()
            client.close()
            client.close()
            channel = Channel("127.0.0.1", server.core)
            channel.close()
        uses: tuple[Callable[[], object], ...] = (
            link.readstb,
            link.destroy,
            link.abort,
            client.create_link,
            client.listen,
            client.destroy_intr_chan,
            lambda: client.do(calls.null()),
            lambda: channel.do(calls.null()),
        )
        for use in uses:
            with self.subTest(use), self.assertRaisesRegex(
                ConnectionError, "the connection is closed"
            ):
                use()


class InVirtualTime(unittest.TestCase):
    """Blocks of Meter, of its connections and of their links."""

    def setUp(self) -> None:
        self.meter = Meter()
        self.addCleanup(self.meter.close)

    @contextlib.contextmanager
    def link(self) -> Iterator[Link]:
        """`with meter.connect() as connection, connection.create_link() as link:`"""
        with self.meter.connect() as connection, connection.create_link() as link:
            yield link

    def kill(self) -> None:
        process = self.meter._replay.program.process
        process.kill()
        process.wait()

    def test_ctrl_c(self) -> None:
        self.meter.patience = 2**32 - 1
        with ctrl_c(), self.assertRaises(KeyboardInterrupt), self.link() as link:
            link.io_timeout = 2**32 - 1
            link.query(WAITING)

    def test_a_program_that_is_killed(self) -> None:
        with self.assertRaisesRegex(ProgramError, "by signal 9"), self.link() as link:
            self.kill()
            link.readstb()

    def test_an_exception_of_the_test(self) -> None:
        with self.assertRaisesRegex(LookupError, "first"), self.link():
            self.kill()
            raise LookupError("first")

    def test_a_call_that_waits_too_long(self) -> None:
        """Behind it, no call of the link is answered."""
        self.meter.patience = 100
        with self.assertRaisesRegex(NoAnswer, "device_read waits"), self.link() as link:
            link.io_timeout = 2**32 - 1
            link.query(WAITING)

    def test_it_closes_quietly(self) -> None:
        """The program was killed, and everything is closed after that."""
        with self.meter, self.link() as link:
            connection = cast(Connection, link.carrier)
            requests = connection.listen()
            other = self.meter.connect()
            self.kill()
            requests.close()
            other.close()
            self.meter.drop(other)
            connection.close()

    def test_each_closes_quietly(self) -> None:
        closings: tuple[Callable[[Connection], object], ...] = (
            Connection.close,
            lambda one: one.requests.close(),
            lambda one: one.meter.drop(one),
            lambda one: one.meter.close(),
        )
        for close in closings:
            with self.subTest(close):
                self.meter = Meter()
                self.addCleanup(self.meter.close)
                connection = self.meter.connect()
                connection.listen()
                self.kill()
                close(connection)

    def test_what_is_closed(self) -> None:
        connection = self.meter.connect()
        link = connection.create_link()
        connection.close()
        other = self.meter.connect()
        self.meter.drop(connection)
        self.assertTrue(other.is_open)
        uses: tuple[Callable[[], object], ...] = (
            link.readstb,
            link.destroy,
            link.abort,
            connection.create_link,
            connection.listen,
            lambda: connection.start(calls.null()),
            lambda: connection.do(calls.null()),
        )
        for use in uses:
            with self.subTest(use), self.assertRaisesRegex(
                ConnectionError, "the connection is closed"
            ):
                use()


if __name__ == "__main__":
    unittest.main()
