"""The fixture `visa_meter`, used by tests that pytest runs on its own."""

from __future__ import annotations

import pathlib

import pytest

pytest.importorskip("pyvisa")
TOP = pathlib.Path(__file__).resolve().parents[2]
PLUGIN = ("-p", "scanvolt.pytest_plugin", "--strict-markers")
DRIVER = """
    import time
    import pyvisa

    class Driver:
        '''One with a fixed address, and its own manager. It polls.'''
        def __init__(self):
            self.resource = pyvisa.ResourceManager().open_resource("GPIB0::8::INSTR", read_termination="\\n", timeout=5000)

        def scan(self):
            self.resource.write("CONF:VOLT (@1:50);:INIT")
            while int(self.resource.query("STAT:OPER:COND?")):
                time.sleep(0.02)
            return self.resource.query("FETC?").split(",")
"""


@pytest.fixture(autouse=True)
def path(pytester: pytest.Pytester, monkeypatch: pytest.MonkeyPatch) -> None:
    monkeypatch.setenv("PYTHONPATH", str(TOP))
    pytester.makefile("", voltages="0 input 1 1250000\n")
    pytester.makepyfile(driver=DRIVER)


def test_both_ways(pytester: pytest.Pytester) -> None:
    """One test runs in virtual time and on sockets; a driver with a fixed address and a manager of its own runs unchanged."""
    pytester.makepyfile(
        """
        import pytest
        from driver import Driver

        @pytest.mark.scanvolt(scenario="voltages", backend=("virtual", "sockets"), names={"GPIB0::8::INSTR": "scanvolt"})
        def test_driver(visa_meter):
            readings = Driver().scan()
            assert readings[0] == "+1.250000" and len(readings) == 50
            if visa_meter.backend == "virtual":
                assert visa_meter.meter.clock == 60
            else:
                assert visa_meter.server.core > 0
    """
    )
    result = pytester.runpytest_subprocess(*PLUGIN, "-v")
    result.assert_outcomes(passed=2)
    result.stdout.fnmatch_lines(["*test_driver?virtual? PASSED*", "*test_driver?sockets? PASSED*"])


def test_sessions(pytester: pytest.Pytester) -> None:
    pytester.makepyfile(
        """
        import pytest
        import pyvisa

        def test_two_sessions(visa_meter):
            visa_meter.meter.set_input(1, 2.5)
            other = visa_meter.open(timeout=50)
            assert visa_meter.resource.query("MEAS:VOLT? (@1)") == "+2.500000"
            visa_meter.resource.lock_excl()
            with pytest.raises(pyvisa.VisaIOError, match="VI_ERROR_RSRC_LOCKED"):
                other.query("*IDN?")

        def test_the_next_test_has_another_instrument(visa_meter):
            assert visa_meter.resource.query("MEAS:VOLT? (@1)") == "+0.000000"
            assert visa_meter.open().timeout == 5000

        @pytest.mark.scanvolt(call_time=1)
        def test_call_time(visa_meter):
            visa_meter.resource.read_stb()
            assert visa_meter.meter.clock > 0

        @pytest.mark.scanvolt(backend="sockets")
        def test_sockets(visa_meter):
            assert visa_meter.open("TCPIP::scanvolt::INSTR").query("*IDN?") == "SCANVOLT,SV32,0,1.0"
            with pytest.raises(AttributeError, match="visa_meter.server"):
                visa_meter.meter
    """
    )
    pytester.runpytest_subprocess(*PLUGIN).assert_outcomes(passed=4)


def test_what_is_wrong_with_a_marker(pytester: pytest.Pytester) -> None:
    pytester.makepyfile(
        """
        import pytest

        @pytest.mark.scanvolt(backend="real")
        def test_backend(visa_meter):
            pass

        @pytest.mark.scanvolt(names={"bench": "scanvolt"})
        def test_names(visa_meter):
            pass

        @pytest.mark.scanvolt(names={"GPIB0::8::INSTR": "scanvolt", "GPIB0::9::INSTR": "scanvolt2"}, backend="sockets")
        def test_two_instruments(visa_meter):
            pass
    """
    )
    result = pytester.runpytest_subprocess(*PLUGIN)
    result.assert_outcomes(errors=3)
    result.stdout.fnmatch_lines(
        [
            "*the marker scanvolt wants as backend virtual or sockets, and not 'real'",
            "*no resource name of an instrument: 'bench'",
            "*on sockets there is one instrument, and the names are of several: scanvolt, scanvolt2",
        ]
    )


def test_a_failure_shows_what_the_instrument_saw(pytester: pytest.Pytester) -> None:
    pytester.makepyfile(
        """
        import pytest

        def test_that_fails(visa_meter):
            visa_meter.meter.faults.next("device_read", error=17)
            visa_meter.resource.query("*IDN?")

        @pytest.mark.scanvolt(backend="sockets")
        def test_on_sockets(visa_meter):
            visa_meter.server.set_input(1, 2.5)
            assert visa_meter.resource.query("MEAS:VOLT? (@1)") == ""
    """
    )
    result = pytester.runpytest_subprocess(*PLUGIN)
    result.assert_outcomes(failed=2)
    result.stdout.fnmatch_lines(
        [
            "*VI_ERROR_IO*",
            "*what the instrument saw*",
            "*fault on order: device_read was answered*",
            "*what the instrument saw*",
            "*input 1 = 2.5 V*",
            '*device_read up to * -> "+2.500000*',
        ]
    )
