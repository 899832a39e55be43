"""What errors and objects say: the call, the link, the timeout and the moment, host and port, and what is closed."""

from __future__ import annotations

import pickle
import socket
import unittest
from collections.abc import Callable
from unittest import mock

from scanvolt.program import Server
from scanvolt.virtual import Meter
from scanvolt.vxi11 import CORE, Channel, Client, DeviceError, calls, client, port_of

WAITING = "TRIG:SOUR EXT;:INIT;*OPC?"  # the response never comes


class Told(unittest.TestCase):
    """Helpers."""

    def says(self, text: str, call: Callable[[], object]) -> DeviceError:
        with self.assertRaises(DeviceError) as caught:
            call()
        self.assertEqual(str(caught.exception), text)
        self.assertIsNone(caught.exception.__context__)
        return caught.exception


class InVirtualTime(Told):
    """Errors of the instrument, with the meter's clock."""

    def setUp(self) -> None:
        self.meter = Meter()
        self.addCleanup(self.meter.close)
        self.connection = self.meter.connect()
        self.link = self.connection.create_link(io_timeout=2000)

    def test_timeouts(self) -> None:
        self.says(
            "device_read on link 1: I/O timeout (15), after 0 of 2000 ms, at 0 ms of the meter's clock",
            self.link.read,
        )
        self.link.write("*CLS;:" + WAITING)
        fault = self.says(
            "device_read on link 1: I/O timeout (15), after 2000 ms, at 2000 ms of the meter's clock",
            self.link.read,
        )
        self.assertEqual(
            (fault.number, fault.name, fault.args), (15, "I/O timeout", (15, "I/O timeout"))
        )
        self.assertEqual(
            (fault.call, fault.timeout, fault.waited, fault.clock),
            ("device_read on link 1", 2000, 2000, 2000),
        )
        self.assertEqual(str(pickle.loads(pickle.dumps(fault))), str(fault))

    def test_locks(self) -> None:
        other = self.meter.connect().create_link()
        other.lock()
        self.meter.advance(5)
        locked = "device locked by another link (11)"
        self.says(
            f"device_readstb on link 1: {locked}, after 0 ms, at 5 ms of the meter's clock",
            self.link.readstb,
        )
        self.says(
            f"device_lock on link 1: {locked}, after 70 ms, at 75 ms of the meter's clock",
            lambda: self.link.lock(70),
        )
        self.says(
            f"create_link: {locked}, after 30 ms, at 105 ms of the meter's clock",
            lambda: self.connection.create_link("inst0", True, 30),
        )
        self.says(
            "device_unlock on link 1: no lock held by this link (12), at 105 ms of the meter's clock",
            self.link.unlock,
        )
        other.unlock()
        self.link.lock_timeout = 40
        other.lock()
        reading = self.connection.start(self.link.calls.read())
        self.meter.advance(10)
        other.unlock()
        self.says(
            "device_read on link 1: I/O timeout (15), after 10 of 2000 ms, at 115 ms of the meter's clock",
            reading.result,
        )

    def test_without_a_call(self) -> None:
        self.assertEqual(str(DeviceError(15)), "I/O timeout (VXI-11 error 15)")

    def test_objects(self) -> None:
        self.assertEqual(repr(self.meter), "<Meter at 0 ms, 1 connection>")
        abort = self.meter.connect("abort")
        self.meter.advance(2048)
        self.assertEqual(repr(self.meter), "<Meter at 2048 ms, 2 connections>")
        self.assertEqual(
            (repr(self.connection), repr(abort)), ("<Connection 0, core>", "<Connection 1, abort>")
        )
        other = self.connection.create_link()
        other.destroy()
        self.assertEqual(
            (repr(self.link), repr(other)),
            ("<Link 1 of connection 0>", "<Link 2 of connection 0, closed>"),
        )
        self.link.write(WAITING)
        done = self.connection.start(self.link.calls.readstb())
        reading = self.connection.start(self.link.calls.read())
        self.assertEqual(
            (repr(done), repr(reading)),
            (
                "<Pending device_readstb on link 1, answered at 2048 ms>",
                "<Pending device_read on link 1, not answered>",
            ),
        )
        self.connection.close()
        self.assertEqual(
            (repr(self.connection), repr(self.link), repr(reading)),
            (
                "<Connection 0, core, closed>",
                "<Link 1 of connection 0, closed>",
                "<Pending device_read on link 1, ended at 2048 ms: the connection was closed>",
            ),
        )
        self.meter.close()
        self.assertEqual(
            (repr(self.meter), repr(abort)),
            ("<Meter, closed at 2048 ms>", "<Connection 1, abort, closed>"),
        )


class OverSockets(Told):
    """Errors of the instrument, and of connections, which name host and port."""

    def test_timeouts(self) -> None:
        with Server() as server, Client(port=server.core) as one, one.create_link(
            io_timeout=5000
        ) as link:
            with self.assertRaisesRegex(
                DeviceError, r"on link 1: I/O timeout \(15\), after \d+ of 5000 ms$"
            ):
                link.read()
            link.write("*CLS;:" + WAITING)
            link.io_timeout = 50
            self.says("device_read on link 1: I/O timeout (15), after 50 ms", link.read)

    def test_objects(self) -> None:
        with Server() as server:
            name = f"127.0.0.1:{server.core}"
            with Client(port=server.core) as one, one.create_link() as link, Channel(
                "127.0.0.1", server.core
            ) as other:
                self.assertEqual(
                    (repr(one), repr(link), repr(other)),
                    (f"<Client of {name}>", f"<Link 1 of {name}>", f"<Channel of {name}>"),
                )
                with Channel(
                    "", 0, connected=socket.create_connection(("127.0.0.1", server.core))
                ) as given:
                    self.assertEqual(repr(given), f"<Channel of {name}>")
            self.assertEqual(
                (repr(one), repr(link), repr(other)),
                (
                    f"<Client of {name}, closed>",
                    f"<Link 1 of {name}, closed>",
                    f"<Channel of {name}, closed>",
                ),
            )
            with self.assertRaisesRegex(ConnectionError, f"the connection is closed: {name}$"):
                one.do(calls.null())

    def test_nobody_listens(self) -> None:
        with socket.create_server(("127.0.0.1", 0)) as listener:
            port = listener.getsockname()[1]
        told = rf"\[Errno 111\] Connection refused: 127.0.0.1:{port}"
        self.refused(told + "$", lambda: Client(port=port))
        hint = (
            r"; no port mapper is there.*Client\(port_mapper=4111\), say.*Client\(port=4096\), say$"
        )
        self.refused(told + hint, lambda: Client(port_mapper=port))
        self.refused(told + hint, lambda: port_of("127.0.0.1", CORE, 1, port))

    def refused(self, text: str, call: Callable[[], object]) -> None:
        with self.assertRaisesRegex(ConnectionRefusedError, text) as caught:
            call()
        self.assertEqual(caught.exception.errno, 111)
        self.assertTrue(caught.exception.__suppress_context__)

    def test_no_such_host(self) -> None:
        with self.assertRaisesRegex(socket.gaierror, "nohost.invalid:4096"):
            Client("nohost.invalid", 4096)

    def test_a_host_that_is_silent(self) -> None:
        with mock.patch("socket.create_connection", side_effect=socket.timeout("timed out")):
            with self.assertRaisesRegex(
                TimeoutError, "^no connection within 0.5 s: 127.0.0.1:4096$"
            ):
                Client(port=4096, patience=0.5)

    def test_a_program_that_is_not_registered(self) -> None:
        with Server() as server:
            text = f"the port mapper knows no port of program 0x1: 127.0.0.1:{server.port_mapper}"
            with self.assertRaisesRegex(ConnectionError, text):
                port_of("127.0.0.1", 1, 1, server.port_mapper)

    def test_a_connection_that_fails(self) -> None:
        """Each failure has the call, host and port, and the system's error in its own class."""
        faults: tuple[tuple[OSError, type[OSError], str], ...] = (
            (
                ConnectionResetError(104, "Connection reset by peer"),
                ConnectionResetError,
                r"^\[Errno 104\] Connection reset by peer within device_readstb: %s$",
            ),
            (
                socket.timeout("timed out"),
                ConnectionError,
                "^no reply to device_readstb within 20 s: %s$",
            ),
        )
        with Server() as server:
            for fault, kind, text in faults:
                one = Client(port=server.core)
                link = one.create_link()
                with mock.patch.object(
                    client.Channel, "_record", side_effect=fault
                ), self.assertRaisesRegex(kind, text % one.name):
                    link.readstb()
                self.assertFalse(one.is_open)


if __name__ == "__main__":
    unittest.main()
