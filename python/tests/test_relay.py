"""A relay between a client and a server on sockets: bytes that are cut, late, split or dropped."""

from __future__ import annotations

import socket
import time
import unittest
from typing import ClassVar

from scanvolt.faults import Relay
from scanvolt.program import Server, free_ports
from scanvolt.vxi11 import Client

IDN = "SCANVOLT,SV32,0,1.0"


class Relayed(unittest.TestCase):
    """Each test has a relay of its own, in front of one server."""

    server: ClassVar[Server]

    @classmethod
    def setUpClass(cls) -> None:
        cls.server = Server()
        cls.addClassCleanup(cls.server.close)

    def setUp(self) -> None:
        self.relay = Relay(self.server.core)
        self.addCleanup(self.relay.close)

    def client(self, patience: float = 5.0) -> Client:
        client = Client(port=self.relay.port, patience=patience)
        self.addCleanup(client.close)
        return client

    def test_nothing_is_changed_without_an_order(self) -> None:
        with self.client() as client, client.create_link() as link:
            link.clear()
            self.assertEqual(link.query("*IDN?"), IDN)
        self.assertEqual(self.relay.told, [])

    def test_cut(self) -> None:
        link = self.client().create_link()
        self.relay.cut(after=3)
        with self.assertRaisesRegex(ConnectionError, "the connection ended within device_readstb"):
            link.readstb()
        self.assertRegex(
            self.relay.told[0],
            "connection 0, towards the client: the relay ends the connection; 33 bytes",
        )
        with self.client() as again, again.create_link() as other:
            self.assertEqual(other.query("*IDN?"), IDN)

    def test_cut_on_the_way_there(self) -> None:
        """The server gets half a call, and the end: it isn't executed."""
        link = self.client().create_link()
        self.relay.cut(after=20, towards="server")
        self.assertRaises(ConnectionError, link.write, "CALC:LIM:UPP 5")
        with Client(port=self.server.core) as client, client.create_link() as other:
            self.assertEqual(other.query("CALC:LIM:UPP?"), "+1000.000000")

    def test_delay(self) -> None:
        link = self.client().create_link()
        self.relay.delay(150)
        began = time.monotonic()
        link.readstb()
        self.assertGreaterEqual(time.monotonic() - began, 0.15)
        self.assertRegex(self.relay.told[0], "waits 150 ms$")

    def test_split(self) -> None:
        """A client that reads once gets the first piece alone; one that puts pieces together gets all."""
        link = self.client().create_link()
        link.clear()
        self.relay.split(1)
        self.assertEqual(link.query("*IDN?"), IDN)
        self.assertIn("into pieces of 1", self.relay.told[0])
        self.relay.split(0)
        count = len(self.relay.told)
        link.readstb()
        self.assertEqual(len(self.relay.told), count)

    def test_drop(self) -> None:
        """Without its last bytes a reply isn't whole, and the client waits in vain."""
        client = self.client()
        link = client.create_link(io_timeout=0)
        client.patience = 0.3
        self.relay.drop(2, after=34)
        self.assertRaisesRegex(
            ConnectionError, "no reply to device_readstb within 0.3 s", link.readstb
        )
        self.assertRegex(self.relay.told[0], "drops 2 bytes: [0-9a-f]{4}$")

    def test_drop_of_several_replies(self) -> None:
        """What a reply hasn't enough bytes for is dropped of the next one, on whatever connection that comes."""
        client = self.client()
        link = client.create_link(io_timeout=0)
        client.patience = 0.3
        self.relay.drop(40)
        self.assertRaises(ConnectionError, link.readstb)
        self.assertRaises(ConnectionError, self.client(0.3).create_link)
        self.assertEqual(
            [line.split("relay ")[1].split(":")[0] for line in self.relay.told],
            ["drops 36 bytes", "drops 4 bytes"],
        )

    def test_orders_are_done_in_their_order(self) -> None:
        link = self.client().create_link()
        self.relay.delay(1)
        self.relay.cut(after=36)
        link.readstb()
        self.assertRaises(ConnectionError, link.readstb)
        self.assertEqual(
            [line.split("relay ")[1].split()[0] for line in self.relay.told], ["waits", "ends"]
        )

    def test_no_server(self) -> None:
        with Relay(free_ports(1)[0]) as relay, socket.create_connection(
            ("127.0.0.1", relay.port), 5
        ) as one:
            self.assertEqual(one.recv(1), b"")

    def test_what_cannot_be_ordered(self) -> None:
        self.assertRaisesRegex(
            ValueError,
            "towards the client or the server, and not 'both'",
            self.relay.cut,
            0,
            "both",
        )
        self.assertRaisesRegex(ValueError, "drop wants a number of bytes", self.relay.drop, 0)
        self.assertRaisesRegex(TypeError, "delay wants milliseconds", self.relay.delay, 1.5)
        self.assertRaisesRegex(ValueError, "wants the port of a server", Relay, 0)


if __name__ == "__main__":
    unittest.main()
