"""Tests of the driver: scans, limits, alarms, errors, and two controllers that share an instrument."""

import pytest
import pyvisa
from voltmeter import Limits, VoltmeterError

pytestmark = pytest.mark.scanvolt(scenario="stand.scenario")


def test_its_name(voltmeter):
    assert voltmeter.resource.query("*IDN?") == "SCANVOLT,SV32,0,1.0"


def test_a_scan(voltmeter):
    voltmeter.configure([2, 1, 4])
    assert voltmeter.scan() == [[-0.3, 1.25, None]]


def test_several_scans_at_another_range(voltmeter):
    voltmeter.configure([4, 1], volts=100, scans=3)
    assert voltmeter.scan() == [[12.0, 1.25]] * 3


def test_the_longest_scan(voltmeter):
    """2,048 readings take 2,048 ms, and 20,480 bytes."""
    voltmeter.configure(list(range(1, 129)), scans=16)
    scans = voltmeter.scan()
    assert [len(scan) for scan in scans] == [128] * 16
    assert {scan[0] for scan in scans} == {1.25}


def test_limits_of_a_scan(voltmeter):
    voltmeter.watch(1, lower=-0.2, upper=5)
    voltmeter.configure([1, 2])
    voltmeter.scan()
    assert voltmeter.limits() == Limits.BELOW
    voltmeter.configure([4])
    voltmeter.scan()
    assert voltmeter.limits() == Limits.ABOVE  # an overload is above each limit
    assert voltmeter.limits() == 0


def test_an_alarm(voltmeter, stand):
    """1.5 seconds after power on channel 3 rises from 2.5 V to 7.5 V."""
    voltmeter.watch(3, lower=-5, upper=5)
    assert voltmeter.wait_for_alarm(10) == 64 + 8
    if stand.is_virtual:
        assert stand.manager.visalib.meter(stand.address).clock == 1500
    assert voltmeter.limits() == Limits.OUTSIDE
    voltmeter.configure([3])
    assert voltmeter.scan() == [[7.5]]


def test_no_alarm(voltmeter):
    voltmeter.watch(1, lower=-5, upper=5)
    with pytest.raises(TimeoutError):
        voltmeter.wait_for_alarm(0.3)


def test_an_error(voltmeter):
    with pytest.raises(VoltmeterError) as caught:
        voltmeter.configure([1, 129])
    assert (caught.value.number, caught.value.text) == (-222, "Data out of range")
    voltmeter.configure([1])  # the queue is empty again
    assert voltmeter.scan() == [[1.25]]


def test_two_controllers(voltmeter, connect):
    other = connect()
    with voltmeter.alone():
        with pytest.raises(pyvisa.errors.VisaIOError):
            other.resource.lock_excl(100)
        assert voltmeter.scan() == [[1.25]]
    with other.alone():
        other.configure([2])
        assert other.scan() == [[-0.3]]
