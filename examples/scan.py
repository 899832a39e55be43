#!/usr/bin/python3
"""A scan and a limit, with PyVISA over VXI-11: scan.py [PORTMAP [ADDRESS]]

PORTMAP is the port of the instrument's port mapper, 4111 if not said: that of `make serve`. Real
instruments have 111.
"""

import sys
import time

import pyvisa
from pyvisa_py.protocols import rpc

REQUEST = 64  # bit 6 of the status byte: the instrument requests service


def wait_for_request(meter, seconds=30):
    """Polls until the instrument requests service. Returns the status byte; a poll clears its bit 6."""
    end = time.monotonic() + seconds
    while time.monotonic() < end:
        status = meter.read_stb()
        if status & REQUEST:
            return status
        time.sleep(0.01)
    raise TimeoutError(f"no service request in {seconds} seconds")


def voltages(answer):
    """The numbers in an answer. An overload is 9.9E+37 or -9.9E+37."""
    return [float(text) for text in answer.split(",")]


rpc.PMAP_PORT = int(sys.argv[1]) if len(sys.argv) > 1 else 4111  # PyVISA-py would ask port 111
address = sys.argv[2] if len(sys.argv) > 2 else "127.0.0.1"
manager = pyvisa.ResourceManager("@py")
meter = manager.open_resource(f"TCPIP::{address}::inst0::INSTR")
meter.read_termination = meter.write_termination = "\n"
meter.timeout = 5000  # milliseconds; longer than any scan

# Clear what earlier users left: first their unread answers, then their settings and events, then
# what they enabled, which *RST keeps.
meter.clear()
meter.write("*RST;*CLS;*ESE 0;*SRE 0;:STAT:PRES")
print("instrument:", meter.query("*IDN?"))

# Two scans of three channels. *OPC sets bit 0 of the standard events when both are done; *ESE lets
# that set bit 5 (32) of the status byte; and *SRE lets bit 5 request service.
meter.write("CONF:VOLT (@1,4,2);:TRIG:COUN 2;*ESE 1;*SRE 32")
meter.write("INIT;*OPC")
print("scan done, status byte:", wait_for_request(meter))
print("standard events:", meter.query("*ESR?"))
for place, volts in enumerate(voltages(meter.query("FETC?"))):
    shown = "overload" if abs(volts) > 1e37 else f"{volts:+.6f} V"
    channel = (1, 4, 2)[place % 3]
    print(f"scan {place // 3 + 1}, channel {channel}: {shown}")

# A limit on channel 3, without a scan. Bit 9 (512) of the questionable register says that a limit
# was passed, and sets bit 3 (8) of the status byte. Bit 2 (4) of the limits says that the monitored
# input did. Channel 3 has 7.5 V, so the request comes as soon as there is a limit of 5 V.
meter.write("*CLS;ROUT:MON (@3);:CALC:LIM:UPP 5;STAT ON;:STAT:QUES:ENAB 512;*SRE 8")
print("outside the limits, status byte:", wait_for_request(meter))
print("questionable events:", meter.query("STAT:QUES?"))
print("events of the limits:", meter.query("STAT:QUES:LIM?"))
(measured,) = voltages(meter.query("MEAS:VOLT? (@3)"))
print(f"channel 3: {measured:+.6f} V")

# A mistake, and what the instrument says about it.
meter.write("VOLT:RANGE:AUTO ON")
print("error:", meter.query("SYST:ERR?"))
print("error:", meter.query("SYST:ERR?"))

meter.close()
manager.close()
