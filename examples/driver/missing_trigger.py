"""A test that fails on purpose: no trigger comes. Its report says what the instrument saw. pytest doesn't run it by itself."""


def test_a_trigger_is_missing(voltmeter):
    voltmeter.configure([1, 2, 3], scans=2)
    voltmeter.resource.query("TRIG:SOUR EXT;:INIT;*OPC?")
