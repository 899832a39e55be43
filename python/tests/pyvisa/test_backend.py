"""The backend of PyVISA: what a driver does with it, and VISA's statuses for what it doesn't have."""

from __future__ import annotations

import inspect
import os
import pathlib
import tempfile
import unittest
import warnings
from collections.abc import Callable
from typing import Any
from unittest import mock

import pyvisa
from pyvisa.constants import (
    AccessModes,
    BufferOperation,
    EventMechanism,
    EventType,
    Lock,
    RENLineOperation,
    ResourceAttribute,
    StatusCode,
)
from pyvisa_scanvolt import meter_of
from pyvisa_scanvolt.library import UNSUPPORTED
from scanvolt.program import ProgramError
from scanvolt.virtual import Meter, NoAnswer

SRQ = EventType.service_request
QUEUE = EventMechanism.queue
HANDLER = EventMechanism.handler
SUSPENDED = EventMechanism.suspend_handler


class WithResource(unittest.TestCase):
    """Each test has a manager with instruments of its own. Channels 1 to 3 have 1.25 V, -0.3 V and 7.5 V."""

    def setUp(self) -> None:
        self.manager = pyvisa.ResourceManager("@scanvolt")
        self.addCleanup(self.manager.close)
        self.resource = self.open()
        self.meter = self.meter_of(self.resource)
        for channel, volts in enumerate(("1.25", "-0.3", "7.5"), 1):
            self.meter.set_input(channel, volts)
        self.resource.write("*CLS")

    def open(self, name: str = "TCPIP::scanvolt::INSTR", **named: Any) -> Any:
        return self.manager.open_resource(
            name, read_termination="\n", write_termination="\n", **named
        )

    def meter_of(self, resource: object) -> Meter:
        library: Any = self.manager.visalib
        meter = library.meter(resource)
        assert isinstance(meter, Meter)
        return meter

    def error(self, status: StatusCode, call: Callable[[], object], milliseconds: int = 0) -> None:
        """Checks that a call raises this status, after this much virtual time."""
        began = self.meter.clock
        with self.assertRaises(pyvisa.VisaIOError) as caught:
            call()
        self.assertEqual(StatusCode(caught.exception.error_code), status)
        self.assertEqual(self.meter.clock - began, milliseconds)


class Names(WithResource):
    """Which instruments there are."""

    def test_list(self) -> None:
        self.assertEqual(self.manager.list_resources(), ("TCPIP0::scanvolt::inst0::INSTR",))
        self.open("TCPIP::scanvolt2")
        self.assertEqual(
            self.manager.list_resources("TCPIP?*"),
            ("TCPIP0::scanvolt2::inst0::INSTR", "TCPIP0::scanvolt::inst0::INSTR"),
        )
        self.assertEqual(self.manager.list_resources("GPIB?*"), ())

    def test_instruments_of_their_own(self) -> None:
        other = self.open("TCPIP0::scanvolt-left::inst0::INSTR")
        self.meter_of(other).set_input(1, 2)
        self.meter_of("TCPIP::Scanvolt-Left").advance(5)
        self.assertEqual(
            (other.query("MEAS:VOLT? (@1)"), self.resource.query("MEAS:VOLT? (@1)")),
            ("+2.000000", "+1.250000"),
        )
        self.assertEqual((self.meter_of(other).clock, self.meter.clock), (6, 1))

    def test_two_sessions_to_one(self) -> None:
        other = self.open()
        other.write("*IDN?")
        self.assertEqual(self.resource.read(), "SCANVOLT,SV32,0,1.0")
        self.assertIs(self.meter_of(other), self.meter)

    def test_meter_of(self) -> None:
        other = self.open("TCPIP::scanvolt2")
        self.assertIs(meter_of(self.resource), self.meter)
        self.assertIs(meter_of(other), self.meter_of(other))
        self.assertIsNot(meter_of(other), self.meter)
        wrong: Any
        for wrong in ("TCPIP::scanvolt::INSTR", None, mock.Mock(spec=pyvisa.resources.Resource)):
            with self.assertRaisesRegex(TypeError, "no resource of this backend, .*@scanvolt"):
                meter_of(wrong)

    def test_other_names(self) -> None:
        for name, status in (
            ("TCPIP::192.168.0.1::INSTR", StatusCode.error_resource_not_found),
            ("GPIB::1::INSTR", StatusCode.error_resource_not_found),
            ("TCPIP::scanvolt::5025::SOCKET", StatusCode.error_resource_not_found),
            ("TCPIP::scanvolt::inst1::INSTR", StatusCode.error_resource_not_found),
            ("TCPIP::scanvolt::hislip0::INSTR", StatusCode.error_resource_not_found),
            ("TCPIP1::scanvolt::INSTR", StatusCode.error_interface_number_not_configured),
            ("scanvolt", StatusCode.error_invalid_resource_name),
        ):
            with self.subTest(name):
                self.error(status, lambda: self.manager.open_resource(name))

    def test_sixteen_sessions(self) -> None:
        others = [self.open() for _ in range(15)]
        self.error(StatusCode.error_allocation, self.open)
        others[0].close()
        self.open().query("*IDN?")

    def test_a_scenario(self) -> None:
        with tempfile.TemporaryDirectory() as folder:
            path = pathlib.Path(folder, "scenario")
            path.write_text("0 input 1 4000000\n5 input 1 5000000\n")
            manager = pyvisa.ResourceManager(f"{path}@scanvolt")
            self.addCleanup(manager.close)
            resource: Any = manager.open_resource("TCPIP::scanvolt::INSTR", read_termination="\n")
            found = [resource.query("MEAS:VOLT? (@1)") for _ in range(7)]
        self.assertEqual(found, ["+4.000000"] * 5 + ["+5.000000"] * 2)


class Messages(WithResource):
    """What is written and read."""

    def test_the_session(self) -> None:
        resource = self.resource
        resource.write("*RST;*CLS")
        resource.write("CONF:VOLT (@1:3);:CALC:LIM:UPP 5;STAT ON")
        resource.write("STAT:QUES:ENAB 512;*SRE 24")
        resource.write("READ?")
        self.assertEqual(resource.read_stb(), 0)
        self.meter.advance(3)
        self.assertEqual((resource.read_stb(), resource.stb), (88, 24))
        self.assertEqual(resource.read(), "+1.250000,-0.300000,+7.500000")
        self.assertEqual(resource.query("STAT:QUES?;QUES:LIM?"), "512;2")
        self.assertEqual(resource.query("VOLT:RANG:AUTO ON;:SYST:ERR?"), '-113,"Undefined header"')
        resource.write("TRIG:SOUR BUS;:INIT;*OPC?")
        resource.assert_trigger()
        self.assertEqual(resource.read(), "1")
        self.assertEqual(resource.query_ascii_values("FETC?"), [1.25, -0.3, 7.5])
        self.assertEqual(self.meter.clock, 6)

    def test_whole_responses(self) -> None:
        """Also a response of 20,480 bytes, as many as PyVISA reads at once."""
        self.resource.timeout = 5000
        for count in (1, 8, 15, 16):
            self.resource.write(f"CONF:VOLT (@1:128);:TRIG:COUN {count}")
            self.resource.write("READ?")
            for chunk in (20480, 4096, 10240, 8192, 10**5):
                with self.subTest(count=count, chunk=chunk):
                    self.resource.chunk_size = chunk
                    self.assertEqual(len(self.resource.read_raw()), 1280 * count)
                    self.resource.write("FETC?")
            self.resource.read_raw()
        self.assertEqual(self.resource.query("SYST:ERR?"), '0,"No error"')

    def test_statuses_of_reads(self) -> None:
        library, session = self.manager.visalib, self.resource.session
        self.resource.write("*IDN?")
        self.resource.set_visa_attribute(ResourceAttribute.termchar, ord(","))
        with warnings.catch_warnings():
            warnings.simplefilter("ignore")
            self.assertEqual(library.read(session, 3), (b"SCA", StatusCode.success_max_count_read))
            self.resource.set_visa_attribute(ResourceAttribute.termchar_enabled, True)
            self.assertEqual(
                library.read(session, 99),
                (b"NVOLT,", StatusCode.success_termination_character_read),
            )
            self.assertEqual(
                library.read(session, 5), (b"SV32,", StatusCode.success_termination_character_read)
            )
            self.resource.set_visa_attribute(ResourceAttribute.termchar, 10)
            self.assertEqual(library.read(session, 6), (b"0,1.0\n", StatusCode.success))

    def test_a_message_in_parts(self) -> None:
        self.resource.send_end = False
        self.resource.write_raw(b"*ID")
        self.resource.send_end = True
        self.assertEqual(self.resource.write_raw(b"N?"), 2)
        self.assertEqual(self.resource.read_bytes(8), b"SCANVOLT")
        self.assertEqual(self.resource.read(), ",SV32,0,1.0")

    def test_timeouts(self) -> None:
        self.error(StatusCode.error_timeout, self.resource.read)
        self.resource.write("*CLS;:TRIG:SOUR EXT;:INIT;*OPC?")
        for timeout in (1, 500, 2000):
            self.resource.timeout = timeout
            self.error(StatusCode.error_timeout, self.resource.read, timeout)
            self.error(StatusCode.error_timeout, lambda: self.resource.write("*CLS"), timeout)
        self.meter.patience = 3000
        self.resource.timeout = None
        self.assertRaises(NoAnswer, self.resource.read)

    def test_the_notes_of_an_error(self) -> None:
        """VisaIOError says what the call waited for, and why."""
        self.resource.write("TRIG:SOUR EXT;:INIT;*OPC?")
        self.resource.timeout = 50
        with self.assertRaises(pyvisa.VisaIOError) as caught:
            self.resource.read()
        first, second = getattr(caught.exception, "__notes__")
        self.assertRegex(first, "device_read .*had waited since 0 ms for a response")
        self.assertIn("the scan waits for an EXTernal trigger (scan 1 of 1)", second)

    def test_faults_on_order(self) -> None:
        """Their statuses, and notes that say that they were ordered."""
        faults = self.meter.faults
        faults.next("device_read", error=17)
        self.error(StatusCode.error_io, lambda: self.resource.query("*IDN?"))
        faults.delay(70)
        self.resource.clear()
        self.assertEqual(self.meter.clock, 70)
        faults.drop_after(bytes=3)
        with self.assertRaises(pyvisa.VisaIOError) as caught:
            self.resource.read_stb()
        self.assertEqual(caught.exception.error_code, StatusCode.error_connection_lost)
        self.assertEqual(
            getattr(caught.exception, "__notes__"),
            [
                "the connection ended after 3 of 36 bytes of the reply to device_readstb: on order of meter.faults"
            ],
        )

    def test_clear(self) -> None:
        self.resource.write("*IDN?")
        self.resource.clear()
        self.assertEqual(self.resource.query("*OPC?"), "1")

    def test_what_does_nothing(self) -> None:
        for mode in RENLineOperation:
            self.resource.control_ren(mode)
        self.resource.flush(BufferOperation.discard_read_buffer)
        self.assertEqual(self.resource.last_status, StatusCode.success)


class Locks(WithResource):
    """Exclusive locks."""

    def test_another_session(self) -> None:
        other = self.open(timeout=700)
        self.resource.lock_excl()
        self.error(StatusCode.error_timeout, other.lock_excl, 700)
        self.error(StatusCode.error_resource_locked, lambda: other.lock_excl(0))
        for call in (
            other.read,
            other.read_stb,
            other.clear,
            other.assert_trigger,
            lambda: other.write("*CLS"),
        ):
            self.error(StatusCode.error_resource_locked, call)
        self.assertEqual(
            (other.lock_state, self.resource.lock_state),
            (AccessModes.exclusive_lock, AccessModes.exclusive_lock),
        )
        self.resource.unlock()
        self.assertEqual(other.lock_state, AccessModes.no_lock)
        with other.lock_context():
            self.assertEqual(other.query("*IDN?"), "SCANVOLT,SV32,0,1.0")
        self.assertEqual(self.resource.read_stb(), 0)

    def test_nested(self) -> None:
        library, session = self.manager.visalib, self.resource.session
        other = self.open()
        self.assertEqual(library.lock(session, Lock.exclusive, 0)[1], StatusCode.success)
        self.assertEqual(
            library.lock(session, Lock.exclusive, 0)[1], StatusCode.success_nested_exclusive
        )
        self.assertEqual(library.unlock(session), StatusCode.success_nested_exclusive)
        self.error(StatusCode.error_resource_locked, other.read_stb)
        self.assertEqual(library.unlock(session), StatusCode.success)
        self.error(StatusCode.error_session_not_locked, self.resource.unlock)
        self.assertEqual(other.read_stb(), 0)

    def test_a_session_that_locks_as_it_opens(self) -> None:
        first = self.open(access_mode=AccessModes.exclusive_lock)
        self.error(StatusCode.error_resource_locked, self.resource.read_stb)
        self.error(
            StatusCode.error_resource_locked,
            lambda: self.open(access_mode=AccessModes.exclusive_lock, open_timeout=30),
            30,
        )
        first.close()
        self.assertEqual(self.resource.read_stb(), 0)

    def test_other_locks(self) -> None:
        library: Any = self.manager.visalib
        session = self.resource.session
        self.error(StatusCode.error_invalid_lock_type, lambda: library.lock(session, 3, 0))
        self.error(
            StatusCode.error_invalid_access_mode,
            lambda: self.open(access_mode=AccessModes.shared_lock),
        )


class Events(WithResource):
    """Service requests."""

    def setUp(self) -> None:
        super().setUp()
        self.resource.write("CONF:VOLT (@1:3);:CALC:LIM:UPP 5;STAT ON;:STAT:QUES:ENAB 512;*SRE 8")

    def test_a_queue(self) -> None:
        self.resource.enable_event(SRQ, QUEUE)
        self.resource.write("INIT")
        response = self.resource.wait_on_event(SRQ, 100)
        self.assertEqual(
            (response.event.event_type, response.timed_out, self.meter.clock), (SRQ, False, 3)
        )
        self.assertEqual(self.resource.read_stb(), 72)
        self.error(StatusCode.error_timeout, lambda: self.resource.wait_on_event(SRQ, 250), 250)
        self.assertTrue(self.resource.wait_on_event(SRQ, 250, capture_timeout=True).timed_out)
        self.meter.patience = 10
        self.assertRaises(NoAnswer, self.resource.wait_on_event, SRQ, None)

    def test_it_is_enabled_and_disabled(self) -> None:
        library, session = self.manager.visalib, self.resource.session
        self.error(StatusCode.error_not_enabled, lambda: self.resource.wait_on_event(SRQ, 0))
        self.assertEqual(library.enable_event(session, SRQ, QUEUE), StatusCode.success)
        self.assertEqual(
            library.enable_event(session, SRQ, QUEUE), StatusCode.success_event_already_enabled
        )
        self.resource.write("INIT")
        self.meter.advance(10)
        self.assertEqual(library.disable_event(session, SRQ, QUEUE), StatusCode.success)
        status = library.disable_event(session, SRQ, QUEUE)
        self.assertEqual(status, StatusCode.success_event_already_disabled)
        self.assertEqual(library.discard_events(session, SRQ, QUEUE), StatusCode.success)
        self.assertEqual(
            library.discard_events(session, SRQ, QUEUE), StatusCode.success_queue_already_empty
        )
        self.resource.read_stb()
        self.resource.write("*CLS;:INIT")
        self.meter.advance(10)
        self.resource.enable_event(SRQ, QUEUE)
        self.assertTrue(self.resource.wait_on_event(SRQ, 10, capture_timeout=True).timed_out)

    def test_a_handler(self) -> None:
        """A handler runs at the millisecond of its request, and may poll."""
        found: list[object] = []

        def handle(resource: Any, event: Any, user_handle: object) -> None:
            found.append((self.meter.clock, resource.read_stb(), event.event_type, user_handle))

        wrapped = self.resource.wrap_handler(handle)
        handle_of_user = self.resource.install_handler(SRQ, wrapped, "the user's")
        self.resource.enable_event(SRQ, HANDLER)
        self.resource.write("INIT")
        self.meter.advance(10)
        self.assertEqual(found, [(3, 72, SRQ, "the user's")])
        self.resource.disable_event(SRQ, HANDLER)
        self.resource.uninstall_handler(SRQ, wrapped, handle_of_user)
        self.assertRaises(
            pyvisa.errors.UnknownHandler, self.resource.uninstall_handler, SRQ, wrapped
        )

    def test_a_handler_that_is_suspended(self) -> None:
        found: list[int] = []
        self.resource.install_handler(SRQ, lambda *_: found.append(self.meter.clock))
        self.resource.enable_event(SRQ, SUSPENDED)
        self.resource.write("INIT")
        self.meter.advance(10)
        self.assertEqual(found, [])
        self.resource.enable_event(SRQ, HANDLER)
        self.assertEqual(found, [10])

    def test_two_sessions(self) -> None:
        other = self.open()
        for one in (self.resource, other):
            one.enable_event(SRQ, QUEUE)
        self.resource.write("INIT")
        for one in (other, self.resource):
            self.assertFalse(one.wait_on_event(SRQ, 100).timed_out)
        self.assertEqual(self.meter.clock, 3)

    def test_what_cannot_be_enabled(self) -> None:
        enable = self.resource.enable_event
        self.error(StatusCode.error_invalid_event, lambda: enable(EventType.io_completion, QUEUE))
        self.error(StatusCode.error_handler_not_installed, lambda: enable(SRQ, HANDLER))
        self.error(StatusCode.error_invalid_mechanism, lambda: enable(SRQ, EventMechanism.all))
        self.error(
            StatusCode.error_invalid_event,
            lambda: self.resource.install_handler(EventType.clear, print),
        )
        self.error(
            StatusCode.error_invalid_event, lambda: self.resource.wait_on_event(EventType.clear, 1)
        )


class Others(WithResource):
    """Attributes, unsupported operations, and what happens at the end."""

    def test_attributes(self) -> None:
        resource = self.resource
        self.assertEqual(
            (resource.timeout, resource.resource_name, resource.resource_class),
            (2000, "TCPIP0::scanvolt::inst0::INSTR", "INSTR"),
        )
        self.assertEqual(
            (resource.interface_type, resource.interface_number, resource.spec_version),
            (pyvisa.constants.InterfaceType.tcpip, 0, 0x500800),
        )
        for attribute, state in (
            (ResourceAttribute.tcpip_hostname, "scanvolt"),
            (ResourceAttribute.tcpip_device_name, "inst0"),
            (ResourceAttribute.interface_instrument_name, "TCPIP0 (scanvolt)"),
            (ResourceAttribute.tcpip_is_hislip, False),
        ):
            self.assertEqual(resource.get_visa_attribute(attribute), state)

    def test_attributes_that_are_refused(self) -> None:
        put, get = self.resource.set_visa_attribute, self.resource.get_visa_attribute
        serial = ResourceAttribute(pyvisa.constants.VI_ATTR_ASRL_BAUD)
        self.error(
            StatusCode.error_attribute_read_only,
            lambda: put(ResourceAttribute.tcpip_hostname, "other"),
        )
        self.error(
            StatusCode.error_nonsupported_attribute_state,
            lambda: put(ResourceAttribute.termchar, 256),
        )
        self.error(
            StatusCode.error_nonsupported_attribute_state,
            lambda: put(ResourceAttribute.suppress_end_enabled, True),
        )
        self.error(StatusCode.error_nonsupported_attribute, lambda: put(serial, 9600))
        self.error(StatusCode.error_nonsupported_attribute, lambda: get(serial))

    def test_operations_that_are_not_there(self) -> None:
        for name in UNSUPPORTED:
            with self.subTest(name):
                self.error(
                    StatusCode.error_nonsupported_operation,
                    lambda: getattr(self.manager.visalib, name)(self.resource.session),
                )

    def test_all_of_the_library(self) -> None:
        """The backend has every operation that PyVISA may call."""
        library: Any = type(self.manager.visalib)
        left = [
            name
            for name in dir(pyvisa.highlevel.VisaLibraryBase)
            if not name.startswith("_")
            and "raise NotImplementedError"
            in source(getattr(pyvisa.highlevel.VisaLibraryBase, name))
            and getattr(library, name) is getattr(pyvisa.highlevel.VisaLibraryBase, name)
        ]
        self.assertEqual(left, [])

    def test_the_end(self) -> None:
        process = self.meter._replay.program.process
        session, library = self.resource.session, self.manager.visalib
        self.resource.close()
        self.error(StatusCode.error_invalid_object, lambda: library.read_stb(session))
        self.assertIsNone(process.returncode)
        self.manager.close()
        self.assertIsNotNone(process.returncode)
        self.manager = pyvisa.ResourceManager("@scanvolt")
        self.addCleanup(self.manager.close)
        self.assertIsNot(self.meter_of(self.open()), self.meter)

    def test_a_program_that_ends(self) -> None:
        self.resource.enable_event(SRQ, QUEUE)
        self.meter._replay.program.process.kill()
        self.assertRaisesRegex(ProgramError, "ended by signal 9", self.resource.read_stb)
        self.error(StatusCode.error_connection_lost, self.resource.read_stb)

    def test_no_program(self) -> None:
        with mock.patch.dict(os.environ, SCANVOLT="/nonexistent"):
            self.assertRaisesRegex(ProgramError, "names no program", self.open, "TCPIP::scanvolt3")


def source(member: Any) -> str:
    """The text of a method."""
    return inspect.getsource(member) if inspect.isfunction(member) else ""


if __name__ == "__main__":
    unittest.main()
