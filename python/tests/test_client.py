"""The client over sockets: sessions of docs/INSTRUMENT.md with the program, and faults of peers that these tests
make.
"""

from __future__ import annotations

import pathlib
import socket
import tempfile
import threading
import time
import unittest
from collections.abc import Callable
from unittest import mock

from scanvolt.program import Server
from scanvolt.vxi11 import (
    CORE,
    BadReply,
    Channel,
    Client,
    DeviceError,
    GarbageArguments,
    Link,
    ProcedureUnavailable,
    ProgramMismatch,
    ProgramUnavailable,
    calls,
    encode_reply,
    mark,
    port_of,
    record,
    words,
)

SCENARIO = "0 input 1 1250000\n0 input 2 -300000\n0 input 3 7500000\n"


class Served(unittest.TestCase):
    """One server for all tests. Each has a client and a link, and the instrument is as `*RST` leaves it."""

    server: Server

    @classmethod
    def setUpClass(cls) -> None:
        with tempfile.TemporaryDirectory() as folder:
            scenario = pathlib.Path(folder, "voltages")
            scenario.write_text(SCENARIO)
            cls.server = Server(scenario)
        cls.addClassCleanup(cls.server.close)

    def setUp(self) -> None:
        self.client = self.enterClient()
        self.link = self.client.create_link()
        self.link.clear()
        self.link.write("*RST;*CLS;*ESE 0;*SRE 0;:STAT:PRES;:ROUT:SCAN (@1)")

    def enterClient(self) -> Client:
        client = Client(port=self.server.core)
        self.addCleanup(client.close)
        return client

    def error(self, number: int, call: Callable[[], object]) -> None:
        with self.assertRaises(DeviceError) as caught:
            call()
        self.assertEqual(caught.exception.number, number)


class Sessions(Served):
    """What calls return, by docs/INSTRUMENT.md."""

    def test_the_session(self) -> None:
        link = self.link
        link.write("*RST;*CLS\n")
        link.write("CONF:VOLT (@1:3);:CALC:LIM:UPP 5;STAT ON\n")
        link.write("STAT:QUES:ENAB 512;*SRE 24\n")
        self.assertEqual(link.query("READ?\n"), "+1.250000,-0.300000,+7.500000")
        self.assertEqual(link.readstb(), 64 + 8)  # bit 4 is 0: the response is no longer available
        self.assertEqual(link.query("STAT:QUES?;QUES:LIM?\n"), "512;2")
        self.assertEqual(link.query("VOLT:RANG:AUTO ON;:SYST:ERR?\n"), '-113,"Undefined header"')
        self.assertEqual(link.query("SYST:ERR?\n"), '0,"No error"')
        link.write("TRIG:SOUR BUS;:INIT;*OPC?\n")
        link.trigger()
        self.assertEqual(link.read(), b"1\n")
        self.assertEqual(link.query("FETC?"), "+1.250000,-0.300000,+7.500000")

    def test_pieces(self) -> None:
        self.link.write("*ID", end=False)
        self.assertEqual(self.link.write("N?"), 2)
        piece = self.link.read_piece(8)
        self.assertEqual((piece.data, piece.reason, piece.ended), (b"SCANVOLT", 1, False))
        piece = self.link.read_piece(100, termination=ord(","))
        self.assertEqual((piece.data, piece.reason), (b",", 2))
        self.assertEqual(self.link.read(termination=ord(",")), b"SV32,")
        self.assertEqual(self.link.read(3), b"0,1")
        self.assertEqual(self.link.read(), b".0\n")

    def test_a_long_response_and_a_long_message(self) -> None:
        """4,101 bytes are written in two calls; 10,240 are read in two."""
        settings = "CONF:VOLT (@1:128);:TRIG:COUN 8"
        self.assertEqual(self.link.write("*CLS\n*CLS\n" + " " * 4060 + settings), 4101)
        response = self.link.query("READ?")
        self.assertEqual((len(response), response[:20]), (8 * 128 * 10 - 1, "+1.250000,-0.300000,"))

    def test_calls_that_do_nothing(self) -> None:
        self.link.remote()
        self.link.local()
        self.client.do(calls.null())
        self.error(8, lambda: self.link.docmd(1))

    def test_a_timeout(self) -> None:
        self.link.write("TRIG:SOUR EXT;:INIT;*OPC?")
        self.link.io_timeout = 50
        began = time.monotonic()
        self.error(15, self.link.read)
        self.assertGreaterEqual(time.monotonic() - began, 0.045)
        self.link.clear()

    def test_nothing_asked(self) -> None:
        self.error(15, self.link.read)
        self.assertEqual(self.link.query("SYST:ERR?"), '-420,"Query UNTERMINATED"')

    def test_links(self) -> None:
        self.error(3, lambda: self.client.create_link("inst1"))
        with self.client.create_link() as other:
            self.assertGreater(other.number, self.link.number)
        self.error(4, other.readstb)

    def test_locks(self) -> None:
        other = self.enterClient().create_link(lock=True)
        self.error(11, self.link.lock)
        self.error(11, self.link.readstb)
        self.error(12, self.link.unlock)
        self.error(11, lambda: self.enterClient().create_link(lock=True, lock_timeout=10))
        began = time.monotonic()
        self.error(11, lambda: self.link.lock(50))
        self.assertGreaterEqual(time.monotonic() - began, 0.045)
        self.link.lock_timeout = 5000
        unlock = threading.Timer(0.05, other.unlock)
        unlock.start()
        self.addCleanup(unlock.join)
        self.assertEqual(self.link.readstb(), 0)

    def test_abort(self) -> None:
        self.link.write("TRIG:SOUR EXT;:INIT;*OPC?")
        abort = threading.Timer(0.05, self.link.abort)
        abort.start()
        self.addCleanup(abort.join)
        self.error(23, self.link.read)
        self.error(4, Link(self.client, calls.Made(9999, self.server.abort, 0)).abort)
        self.link.clear()

    def test_what_a_client_that_died_leaves(self) -> None:
        """The next client's first `*IDN?` fails. If it clears the device first, it doesn't."""
        for left, end in (("*ID", False), ("TRIG:SOUR EXT;:INIT;*OPC?", True)):
            for clears in (False, True):
                with self.subTest(left, clears=clears):
                    dying = self.enterClient()
                    dying.create_link().write(left, end)
                    dying.socket.close()
                    link = self.enterClient().create_link(io_timeout=100)
                    if clears:
                        link.clear()
                        self.assertEqual(link.query("*IDN?"), "SCANVOLT,SV32,0,1.0")
                    else:
                        self.error(15, lambda: link.query("*IDN?"))
                    link.clear()
                    link.write("ABOR;:TRIG:SOUR IMM;*CLS")

    def test_service_requests(self) -> None:
        requests = self.client.listen()
        self.link.enable_srq(b"meter 1")
        self.link.write("*CLS;*SRE 4;UNKNOWN")
        found = requests.wait(5000)
        self.assertEqual((found.handle, found.xid), (b"meter 1", 1))
        self.assertEqual(self.link.readstb(), 68)
        self.error(29, lambda: self.client.create_intr_chan(calls.LOOPBACK, requests.port))
        self.link.disable_srq()
        self.link.write("*CLS;UNKNOWN")
        self.assertRaises(TimeoutError, requests.wait, 50)
        self.client.destroy_intr_chan()
        self.error(6, self.client.destroy_intr_chan)
        requests._thread.join(5)
        self.assertFalse(requests._thread.is_alive())

    def test_a_callback_may_call(self) -> None:
        """The callback makes a call over the same connection."""
        polls: list[int] = []
        came = threading.Event()

        def poll(_request: object) -> None:
            polls.append(self.link.readstb())
            came.set()

        self.client.listen(poll)
        self.link.enable_srq()
        self.link.write("*CLS;*SRE 4;UNKNOWN")
        self.assertTrue(came.wait(5))
        self.assertEqual(polls, [68])

    def test_a_callback_that_raises(self) -> None:
        """Its exception is reported like that of a thread, and the next request still comes."""
        came = threading.Semaphore(0)

        def refuse(_request: object) -> None:
            came.release()
            raise LookupError

        with mock.patch("threading.excepthook") as told:
            self.client.listen(refuse)
            self.link.enable_srq()
            for _ in range(2):
                self.link.write("*CLS;*SRE 4;UNKNOWN")
                self.assertTrue(came.acquire(timeout=5))
                self.link.readstb()
            self.client.close()
        self.assertEqual([call.args[0].exc_type for call in told.call_args_list], [LookupError] * 2)

    def test_an_interrupt_channel_that_cannot_be(self) -> None:
        self.error(21, lambda: self.client.create_intr_chan(0x08080808, 4000))
        self.error(8, lambda: self.client.create_intr_chan(calls.LOOPBACK, 4000, family=1))

    def test_the_port_mapper(self) -> None:
        self.assertEqual(port_of("127.0.0.1", CORE, 1, self.server.port_mapper), self.server.core)
        self.assertRaises(ConnectionError, port_of, "127.0.0.1", 1, 1, self.server.port_mapper)
        with Client(port_mapper=self.server.port_mapper) as client:
            self.assertEqual(client.create_link().abort_port, self.server.abort)

    def test_calls_that_are_refused(self) -> None:
        def call(program: int, procedure: int, arguments: bytes = b"") -> None:
            self.client.do(calls.Call(program, procedure, arguments, lambda _result: None))

        self.assertRaises(ProgramUnavailable, call, calls.ABORT, 1)
        self.assertRaises(ProcedureUnavailable, call, CORE, 21)
        self.assertRaises(GarbageArguments, call, CORE, 11, b"\0\0\0\1")
        self.assertEqual(self.link.readstb(), 0)  # the connection goes on
        with Channel("127.0.0.1", self.server.port_mapper) as mapper, self.assertRaises(
            ProgramMismatch
        ):
            mapper.do(OldVersion(calls.PORT_MAPPER, 0, b"", lambda _result: None))


class OldVersion(calls.Call[None]):
    """A call of version 3."""

    @property
    def version(self) -> int:
        return 3


class Peers(unittest.TestCase):
    """Servers of one connection that send the bytes given here."""

    LINK = encode_reply(1, words(0, 1, 4097, 4096))

    def link(self, *answers: bytes, patience: float = 5) -> Link:
        """A link to a peer that sends one of these after each call, and then closes."""
        listener = socket.create_server(("127.0.0.1", 0))
        thread = threading.Thread(target=self.answer, args=(listener, answers))
        thread.start()
        client = Client(port=listener.getsockname()[1], patience=patience)
        self.addCleanup(thread.join)
        self.addCleanup(client.close)
        return client.create_link(io_timeout=0)

    @staticmethod
    def answer(listener: socket.socket, answers: tuple[bytes, ...]) -> None:
        with listener, listener.accept()[0] as peer:
            for answer in (Peers.LINK, *answers):
                if not peer.recv(1000):
                    return
                peer.sendall(answer)
            peer.recv(1000)

    def test_an_end(self) -> None:
        with self.assertRaisesRegex(ConnectionError, "ended within device_readstb"):
            self.link().readstb()

    def test_no_reply(self) -> None:
        link = self.link(b"", patience=0.1)
        with self.assertRaisesRegex(ConnectionError, "no reply to device_readstb within 0.1 s"):
            link.readstb()
        with self.assertRaises(OSError):  # the connection isn't used again
            link.readstb()

    def test_another_reply(self) -> None:
        with self.assertRaises(BadReply):
            self.link(record(words(9))).readstb()

    def test_a_reply_in_fragments(self) -> None:
        body = encode_reply(2, words(0, 88))[len(mark(0)) :]
        link = self.link(mark(5, last=False) + body[:5] + mark(len(body) - 5) + body[5:])
        self.assertEqual(link.readstb(), 88)

    def test_a_result_that_cannot_be_read(self) -> None:
        link = self.link(encode_reply(2, words(0)[:2]))
        self.assertRaisesRegex(BadReply, "device_readstb", link.readstb)

    def test_writes_that_take_less(self) -> None:
        """Bytes that weren't taken are written again. If none is taken, that is a fault."""
        link = self.link(
            *(encode_reply(xid, words(0, size)) for xid, size in ((2, 2), (3, 4), (4, 0)))
        )
        self.assertEqual(link.write("*IDN?\n"), 6)
        self.assertRaisesRegex(BadReply, "took no byte of 6", link.write, "*IDN?\n")

    def test_nobody(self) -> None:
        with socket.create_server(("127.0.0.1", 0)) as listener:
            port = listener.getsockname()[1]
        self.assertRaises(ConnectionError, Client, port=port)


if __name__ == "__main__":
    unittest.main()
