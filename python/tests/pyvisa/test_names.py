"""Names of resources that a file of settings gives to instruments."""

from __future__ import annotations

import pathlib
import tempfile
import unittest
from typing import Any

import pyvisa
from pyvisa.constants import InterfaceType, ResourceAttribute, StatusCode
from pyvisa_scanvolt import meter_of

SETTINGS = """# the bench of the second floor
GPIB0::8::INSTR = scanvolt
TCPIP::192.168.1.7::INSTR = scanvolt2      # the other one
USB0::0x1234::0x5678::0042::INSTR = scanvolt

scenario = stand.scenario
call_time = 1
patience = 700
"""


class Names(unittest.TestCase):
    """A folder with settings and a scenario."""

    def setUp(self) -> None:
        temporary = tempfile.TemporaryDirectory()
        self.addCleanup(temporary.cleanup)
        self.folder = pathlib.Path(temporary.name)
        self.folder.joinpath("stand.scenario").write_text("0 input 1 1250000\n")

    def manager(self, text: str) -> Any:
        path = self.folder / "settings"
        path.write_text(text)
        manager = pyvisa.ResourceManager(f"{path}@scanvolt")
        self.addCleanup(manager.close)
        return manager

    def test_fixed_addresses(self) -> None:
        """One instrument may have several names; each resource is of the class that PyVISA has for its name."""
        manager = self.manager(SETTINGS)
        one: Any = manager.open_resource("GPIB0::8::INSTR", read_termination="\n")
        other: Any = manager.open_resource("TCPIP::192.168.1.7::INSTR", read_termination="\n")
        third: Any = manager.open_resource(
            "USB0::0x1234::0x5678::0042::INSTR", read_termination="\n"
        )
        self.assertEqual(
            [type(one).__name__ for one in (one, other, third)],
            ["GPIBInstrument", "TCPIPInstrument", "USBInstrument"],
        )
        self.assertEqual(one.query("MEAS:VOLT? (@1)"), "+1.250000")
        self.assertIs(meter_of(one), meter_of(third))
        self.assertIsNot(meter_of(one), meter_of(other))
        self.assertEqual(
            (meter_of(other).clock, meter_of(other).call_time, meter_of(other).patience),
            (1, 1, 700),
        )

    def test_attributes(self) -> None:
        one: Any = self.manager(SETTINGS).open_resource("GPIB0::8::INSTR")
        self.assertEqual(
            (one.primary_address, one.secondary_address, one.interface_type, one.interface_number),
            (8, 0xFFFF, InterfaceType.gpib, 0),
        )
        with self.assertRaises(pyvisa.VisaIOError) as caught:
            one.get_visa_attribute(ResourceAttribute.tcpip_hostname)
        self.assertEqual(caught.exception.error_code, StatusCode.error_nonsupported_attribute)

    def test_a_service_request_by_gpib(self) -> None:
        """GPIBInstrument.wait_for_srq, as such drivers call it."""
        one: Any = self.manager(SETTINGS).open_resource("GPIB0::8::INSTR")
        one.write("*SRE 16;:CONF:VOLT (@1:9);:INIT;*OPC?")
        one.wait_for_srq(500)
        self.assertEqual(one.read_raw(), b"1\n")

    def test_which_names_are_listed(self) -> None:
        manager = self.manager(SETTINGS)
        self.assertEqual(manager.list_resources("GPIB?*"), ("GPIB0::8::0::INSTR",))
        self.assertRaises(pyvisa.VisaIOError, manager.open_resource, "GPIB0::9::INSTR")

    def test_what_cannot_be_read(self) -> None:
        for line, told in (
            ("GPIB0::8::INSTR", "not KEY = VALUE: GPIB0::8::INSTR"),
            ("bench = scanvolt", "no resource name " "of an instrument: 'bench'"),
            ("TCPIP::host::5025::SOCKET = scanvolt", "no resource name"),
            ("patience = long", "patience wants milliseconds, and not long"),
        ):
            with self.subTest(line), self.assertRaisesRegex(
                ValueError, "settings, line 2: " + told
            ):
                self.manager(f"call_time = 1\n{line}\n")


if __name__ == "__main__":
    unittest.main()
