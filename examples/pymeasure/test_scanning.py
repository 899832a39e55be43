"""Tests of the driver: each runs in virtual time, and over sockets by PyVISA-py."""

import pytest
import pyvisa
from scanning import ScanningVoltmeter, VoltmeterError

NAME = "TCPIP::192.168.1.7::INSTR"  # a fixed address
pytestmark = pytest.mark.scanvolt(
    scenario="stand.scenario", names={NAME: "scanvolt"}, backend=("virtual", "sockets")
)


@pytest.fixture
def voltmeter(visa_meter):
    return ScanningVoltmeter(NAME)


def test_its_name(voltmeter):
    assert voltmeter.id == "SCANVOLT,SV32,0,1.0"


def test_a_scan(voltmeter):
    voltmeter.span = 100
    assert voltmeter.scan([2, 1, 4]) == [-0.3, 1.25, 12]
    assert voltmeter.span == 100


def test_limits(voltmeter):
    voltmeter.upper, voltmeter.lower = 5, -0.2
    assert (voltmeter.upper, voltmeter.lower) == (5, -0.2)
    with pytest.raises(ValueError):
        voltmeter.upper = 1001


def test_an_alarm(voltmeter, visa_meter):
    """1.5 seconds after power on channel 3 rises from 2.5 V to 7.5 V."""
    voltmeter.upper = 5
    voltmeter.wait_for_alarm(3, 10)
    if visa_meter.backend == "virtual":
        assert visa_meter.meter.clock == 1500
    assert voltmeter.scan([3]) == [7.5]


def test_no_alarm(voltmeter):
    with pytest.raises(TimeoutError):
        voltmeter.wait_for_alarm(1, 0.3)


def test_an_error(voltmeter):
    with pytest.raises(VoltmeterError, match='-222,"Data out of range"'):
        voltmeter.scan([1, 129])
    assert voltmeter.scan([1]) == [1.25]


# faults are ordered in virtual time
@pytest.mark.scanvolt(scenario="stand.scenario", names={NAME: "scanvolt"})
def test_a_read_that_fails(voltmeter, visa_meter):
    visa_meter.meter.faults.next("device_read", error=17)
    with pytest.raises(pyvisa.VisaIOError, match="VI_ERROR_IO"):
        voltmeter.scan([1])
    assert voltmeter.scan([1]) == [1.25]
