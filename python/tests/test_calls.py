"""The arguments and results of VXI-11 1.0, B.6, and of RFC 1833, section 3. The bytes are written down by hand as
the standards have them, so scanvolt.vxi11 isn't tested with itself.
"""

from __future__ import annotations

import pickle
import unittest
from collections.abc import Callable

from scanvolt.vxi11 import DeviceError, RequestStream, calls, words

CORE = "000607af 00000001 "


class Arguments(unittest.TestCase):
    """Each call's arguments, in the order of the standard."""

    def arguments(self, call: calls.Call[object], head: str, text: str) -> None:
        """Checks the bytes of a call: its program, version and procedure, and its arguments."""
        self.assertEqual(words(call.program, call.version, call.procedure).hex(" ", 4), head)
        self.assertEqual(call.arguments.hex(" ", 4), text)

    def test_create_link(self) -> None:
        self.arguments(
            calls.create_link(),
            "000607af 00000001 0000000a",
            "00000000 00000000 00000000 00000005 696e7374 30000000",
        )
        self.arguments(
            calls.create_link("gpib0,5", True, 700, -3),
            "000607af 00000001 0000000a",
            "fffffffd 00000001 000002bc 00000007 67706962 302c3500",
        )

    def test_device_write(self) -> None:
        self.arguments(
            calls.device_write(1, b"*IDN?\n", 1000),
            "000607af 00000001 0000000b",
            "00000001 000003e8 00000000 00000008 00000006 2a49444e 3f0a0000",
        )
        self.arguments(
            calls.device_write(2, b"*IDN", 5, 6, end=False),
            "000607af 00000001 0000000b",
            "00000002 00000005 00000006 00000001 00000004 2a49444e",
        )

    def test_device_read(self) -> None:
        self.arguments(
            calls.device_read(1, 256, 1000),
            "000607af 00000001 0000000c",
            "00000001 00000100 000003e8 00000000 00000000 00000000",
        )
        self.arguments(
            calls.device_read(1, 9, 2, 3, termination=44),
            "000607af 00000001 0000000c",
            "00000001 00000009 00000002 00000003 00000081 0000002c",
        )

    def test_generic_calls(self) -> None:
        makers: dict[str, Callable[..., calls.Call[object]]] = {
            "0000000d": calls.device_readstb,
            "0000000e": calls.device_trigger,
            "0000000f": calls.device_clear,
            "00000010": calls.device_remote,
            "00000011": calls.device_local,
        }
        for procedure, make in makers.items():
            with self.subTest(procedure):  # link, flags, lock timeout, I/O timeout
                self.arguments(
                    make(7, 1000), CORE + procedure, "00000007 00000000 00000000 000003e8"
                )
                self.arguments(
                    make(7, 1000, 5), CORE + procedure, "00000007 00000001 00000005 000003e8"
                )

    def test_locks(self) -> None:
        self.arguments(
            calls.device_lock(7), "000607af 00000001 00000012", "00000007 00000000 00000000"
        )
        self.arguments(
            calls.device_lock(7, 5), "000607af 00000001 00000012", "00000007 00000001 00000005"
        )
        self.arguments(calls.device_unlock(7), "000607af 00000001 00000013", "00000007")

    def test_device_enable_srq(self) -> None:
        self.arguments(
            calls.device_enable_srq(7, b"abc"),
            "000607af 00000001 00000014",
            "00000007 00000001 00000003 61626300",
        )
        self.arguments(
            calls.device_enable_srq(7, None),
            "000607af 00000001 00000014",
            "00000007 00000000 00000000",
        )
        self.assertRaises(ValueError, calls.device_enable_srq, 7, bytes(41))

    def test_device_docmd(self) -> None:
        self.arguments(
            calls.device_docmd(7, 0x20000, b"\1", 1000, 5),
            "000607af 00000001 00000016",
            "00000007 00000001 000003e8 00000005 00020000 00000001 00000001 00000001 01000000",
        )

    def test_what_ends_a_link_and_channels(self) -> None:
        self.arguments(calls.destroy_link(7), "000607af 00000001 00000017", "00000007")
        self.arguments(
            calls.create_intr_chan(calls.LOOPBACK, 4000),
            "000607af 00000001 00000019",
            "7f000001 00000fa0 000607b1 00000001 00000000",
        )
        self.arguments(calls.destroy_intr_chan(), "000607af 00000001 0000001a", "")
        self.arguments(calls.device_abort(7), "000607b0 00000001 00000001", "00000007")

    def test_getport(self) -> None:
        call = calls.getport(calls.CORE, 1)
        self.arguments(call, "000186a0 00000002 00000003", "000607af 00000001 00000006 00000000")
        self.assertEqual(call.read(bytes.fromhex("00001000")), 4096)

    def test_set_and_unset(self) -> None:
        call = calls.set_port(calls.ABORT, 1, 4097)
        self.arguments(call, "000186a0 00000002 00000001", "000607b0 00000001 00000006 00001001")
        self.assertEqual(
            [call.read(bytes.fromhex("0000000" + word)) for word in "01"], [False, True]
        )
        call = calls.unset_port(calls.INTERRUPT, 1)
        self.arguments(call, "000186a0 00000002 00000002", "000607b1 00000001 00000000 00000000")
        self.assertEqual(
            [call.read(bytes.fromhex("0000000" + word)) for word in "01"], [False, True]
        )

    def test_device_intr_srq(self) -> None:
        self.arguments(
            calls.device_intr_srq(b"abc"), "000607b1 00000001 0000001e", "00000003 61626300"
        )

    def test_a_whole_call(self) -> None:
        self.assertEqual(
            calls.destroy_link(1).encode(2).hex(" ", 4),
            "8000002c 00000002 00000000 00000002 000607af 00000001 00000017 00000000 00000000 "
            "00000000 00000000 00000001",
        )

    def test_names(self) -> None:
        self.assertEqual(calls.device_readstb(1, 2).name, "device_readstb")
        self.assertEqual(calls.null().name, "the null procedure")
        self.assertEqual(calls.name_of(calls.CORE, 21), "procedure 21 of program 0x607af")


class Results(unittest.TestCase):
    """What is read from results."""

    def test_create_link(self) -> None:
        found = calls.create_link().read(bytes.fromhex("00000000 00000001 00001001 00001000"))
        self.assertEqual((found.link, found.abort_port, found.most), (1, 4097, 4096))

    def test_device_write(self) -> None:
        self.assertEqual(calls.device_write(1, b"", 1).read(bytes.fromhex("00000000 00000006")), 6)

    def test_device_read(self) -> None:
        found = calls.device_read(1, 1, 1).read(
            bytes.fromhex("00000000 00000005 00000002 310a0000")
        )
        self.assertEqual((found.data, found.reason, found.ended), (b"1\n", 5, True))

    def test_status_byte(self) -> None:
        self.assertEqual(calls.device_readstb(1, 1).read(bytes.fromhex("00000000 00000058")), 88)

    def test_errors(self) -> None:
        """Table B.2. The other fields of a result with an error are ignored."""
        named = {
            1: "syntax error",
            3: "device not accessible",
            4: "invalid link identifier",
            5: "parameter error",
            6: "channel not established",
            8: "operation not supported",
            9: "out of resources",
            11: "device locked by another link",
            12: "no lock held by this link",
            15: "I/O timeout",
            17: "I/O error",
            21: "invalid address",
            23: "abort",
            29: "channel already established",
        }
        for number, name in named.items():
            made: list[calls.Call[object]] = [
                calls.create_link(),
                calls.device_read(1, 1, 1),
                calls.device_unlock(1),
            ]
            for call in made:
                with self.subTest(number=number, call=call.name), self.assertRaises(
                    DeviceError
                ) as caught:
                    call.read(number.to_bytes(4, "big"))
                self.assertEqual((caught.exception.number, caught.exception.name), (number, name))

    def test_an_error_as_text(self) -> None:
        fault = DeviceError(11, "device locked by another link")
        self.assertEqual(repr(fault), "DeviceError(11, 'device locked by another link')")
        self.assertEqual(repr(DeviceError(11)), repr(fault))
        self.assertEqual(str(fault), "device locked by another link (VXI-11 error 11)")
        self.assertEqual(pickle.loads(pickle.dumps(fault)).number, 11)


class ServiceRequests(unittest.TestCase):
    """Calls of device_intr_srq (30) on an interrupt channel."""

    def test_handles(self) -> None:
        head = "00000000 00000002 000607b1 00000001 0000001e 00000000 00000000 00000000 00000000"
        stream = bytes.fromhex(
            "80000030 00000001" + head + "00000003 61626300" "8000002c 00000002" + head + "00000000"
        )
        for size in (1, 5, len(stream)):
            requests = RequestStream()
            found = [
                one
                for start in range(0, len(stream), size)
                for one in requests.push(stream[start : start + size])
            ]
            self.assertEqual([(one.handle, one.xid) for one in found], [(b"abc", 1), (b"", 2)])

    def test_other_records_are_skipped(self) -> None:
        self.assertEqual(RequestStream().push(bytes.fromhex("80000004 00000001")), [])


if __name__ == "__main__":
    unittest.main()
