"""The sessions of the clients in examples/, over sockets and in virtual time. They print what is stored there. Their
replies are the same bytes both ways, and the service requests are the same ones, each sent once.

tools/clients does that with the clients themselves, whose sessions it captures.
"""

from __future__ import annotations

import pathlib
import queue
import tempfile
import time
import unittest
from collections.abc import Callable
from typing import Union
from unittest import mock

from scanvolt.program import Server
from scanvolt.virtual import Connection, Meter
from scanvolt.vxi11 import Client, Link, ServiceRequest, calls, words

EXAMPLES = pathlib.Path(__file__).resolve().parents[2] / "examples"
# The voltages of examples/bench.scenario, and external triggers 20 times a second.
SCENARIO = "".join(
    f"0 input {channel} {micro}\n"
    for channel, micro in ((1, 1250000), (2, -300000), (3, 7500000), (4, 12000000))
)
SCENARIO += "".join(f"{clock} external\n" for clock in range(50, 60000, 50))
REQUEST = 64  # bit 6 of the status byte
PATIENCE = 20000  # milliseconds
ABORT_PORT = 4097  # in virtual time
Carrier = Union[Client, Connection]
Pause = Callable[[], None]


def polled(link: Link, pause: Pause) -> int:
    """Polls until the instrument requests service. Returns the status byte."""
    while True:
        status = link.readstb()
        if status & REQUEST:
            return status
        pause()


def begun(link: Link) -> None:
    """Clears what earlier sessions left, and resets the instrument."""
    link.clear()
    link.write("*RST;*CLS;*ESE 0;*SRE 0;:STAT:PRES\n")


def scan(carrier: Carrier, pause: Pause) -> list[str]:
    """What scan.py does and prints."""
    link = carrier.create_link()
    begun(link)
    told = ["instrument: " + link.query("*IDN?\n")]
    link.write("CONF:VOLT (@1,4,2);:TRIG:COUN 2;*ESE 1;*SRE 32\n")
    link.write("INIT;*OPC\n")
    told.append(f"scan done, status byte: {polled(link, pause)}")
    told.append("standard events: " + link.query("*ESR?\n"))
    for place, text in enumerate(link.query("FETC?\n").split(",")):
        shown = "overload" if "E+37" in text else text + " V"
        channel = (1, 4, 2)[place % 3]
        told.append(f"scan {place // 3 + 1}, channel {channel}: {shown}")
    link.write("*CLS;ROUT:MON (@3);:CALC:LIM:UPP 5;STAT ON;:STAT:QUES:ENAB 512;*SRE 8\n")
    told.append(f"outside the limits, status byte: {polled(link, pause)}")
    told.append("questionable events: " + link.query("STAT:QUES?\n"))
    told.append("events of the limits: " + link.query("STAT:QUES:LIM?\n"))
    measured = link.query("MEAS:VOLT? (@3)\n")
    told.append(f"channel 3: {measured} V")
    link.write("VOLT:RANGE:AUTO ON\n")
    return told + ["error: " + link.query("SYST:ERR?\n") for _ in range(2)]


def service_request(carrier: Carrier, pause: Pause) -> list[str]:
    """What service_request.c does and prints."""
    link = carrier.create_link()
    begun(link)
    requests = carrier.listen()
    link.enable_srq(b"the scan")
    told = ["the interrupt channel is open", "*IDN? " + link.query("*IDN?\n")]
    link.write("CONF:VOLT (@1,4,2);:TRIG:SOUR EXT;*ESE 1;*SRE 32\n")
    told.append(f"status byte before: {link.readstb()}")
    link.write("INIT;*OPC\n")
    request: ServiceRequest = requests.wait(PATIENCE)
    told.append("service request of: " + request.handle.decode())
    told.append(f"status byte afterwards: {link.readstb()}, and once more: {link.readstb()}")
    told += [query + " " + link.query(query + "\n") for query in ("*ESR?", "FETC?", "SYST:ERR?")]
    carrier.destroy_intr_chan()
    link.destroy()
    assert (
        isinstance(requests.queue, queue.Queue) and requests.queue.empty()
    ), "a second service request"
    return told


def several_requests(carrier: Carrier, pause: Pause) -> list[str]:
    """Requests of two links, one after the other: returns handles and numbers."""
    links = [carrier.create_link(), carrier.create_link()]
    begun(links[0])
    requests = carrier.listen()
    for number, link in enumerate(links):
        link.enable_srq(b"link %d" % number)
    told = []
    for _ in range(3):
        links[1].write("*CLS;*SRE 4;UNKNOWN\n")
        told += [
            f"{one.handle!r} {one.xid}"
            for one in (requests.wait(PATIENCE), requests.wait(PATIENCE))
        ]
        told.append(f"{links[0].readstb()}")
    assert requests.queue.empty(), "one more service request"
    return told


def identify(carrier: Carrier, pause: Pause) -> list[str]:
    """What identify.sh does and prints."""
    link = carrier.create_link()
    link.write("*RST;*CLS\n")
    told = [link.query(query + "\n") for query in ("*IDN?", "SYST:VERS?", "MEAS:VOLT? (@1:2)")]
    link.write("CALC:LIM:UPP 2.5;STAT ON\n")
    return told + [link.query(query + "\n") for query in ("CALC:LIM:UPP?;STAT?", "SYST:ERR?")]


class BothWays(unittest.TestCase):
    def setUp(self) -> None:
        temporary = tempfile.TemporaryDirectory(prefix="both-ways-")
        self.addCleanup(temporary.cleanup)
        self.scenario = pathlib.Path(temporary.name) / "scenario"
        self.scenario.write_text(SCENARIO)

    def recorded(self, run: Callable[[], list[str]]) -> tuple[list[str], list[tuple[str, bytes]]]:
        """What a session prints, and its replies, each after its number. Polls that come too early are left out:
        how many there are depends on the clock.
        """
        replies: list[tuple[str, bytes]] = []
        answer = calls.Call.answer

        def recording(call: calls.Call[object], body: bytes, xid: int) -> object:
            found = answer(call, body, xid)
            # it has the port of the abort channel, which the server chose
            if isinstance(found, calls.Made):
                body = body.replace(words(found.abort_port), words(ABORT_PORT))
            if not (call.procedure == calls.DEVICE_READSTB and found == 0):
                replies.append((call.name, body[4:]))
            return found

        with mock.patch.object(calls.Call, "answer", recording):
            return run(), replies

    def session(self, session: Callable[[Carrier, Pause], list[str]]) -> list[str]:
        """What a session prints both ways. Its replies have to be the same."""

        def over_sockets() -> list[str]:
            with Server(self.scenario) as server, Client(port=server.core) as client:
                return session(client, lambda: time.sleep(0.01))

        def in_virtual_time() -> list[str]:
            with Meter(scenario=self.scenario) as meter, meter.connect() as connection:
                return session(connection, lambda: meter.advance(10))

        told, replies = self.recorded(over_sockets)
        self.assertEqual(self.recorded(in_virtual_time), (told, replies))
        self.assertGreater(len(replies), len(told))
        return told

    def is_stored(self, session: Callable[[Carrier, Pause], list[str]]) -> None:
        stored = (EXAMPLES / (session.__name__ + ".out")).read_text().splitlines()
        self.assertEqual(self.session(session), stored)

    def test_scan(self) -> None:
        self.is_stored(scan)

    def test_service_request(self) -> None:
        self.is_stored(service_request)

    def test_identify(self) -> None:
        self.is_stored(identify)

    def test_several_requests(self) -> None:
        self.assertEqual(
            self.session(several_requests),
            [
                "b'link 0' 1",
                "b'link 1' 2",
                "68",
                "b'link 0' 3",
                "b'link 1' 4",
                "68",
                "b'link 0' 5",
                "b'link 1' 6",
                "68",
            ],
        )


if __name__ == "__main__":
    unittest.main()
