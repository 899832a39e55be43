"""A driver for the voltmeter, with pymeasure."""

import time

import pyvisa
from pymeasure.instruments import Instrument
from pymeasure.instruments.validators import strict_discrete_set, strict_range

REQUEST = 64  # bit 6 of the status byte: the instrument requests service
WHOLE = 32768  # bytes of the longest response
POLLS = 0.01  # seconds between two polls


class VoltmeterError(Exception):
    """An entry of the instrument's error queue."""


class ScanningVoltmeter(Instrument):
    """The voltmeter with this resource name. Other links to it may exist."""

    span = Instrument.control(
        "VOLT:RANG?",
        "VOLT:RANG %g",
        "The range: 1, 10 or 100 V.",
        validator=strict_discrete_set,
        values=(1, 10, 100),
        check_set_errors=True,
    )
    upper = Instrument.control(
        "CALC:LIM:UPP?",
        "CALC:LIM:UPP %g",
        "The upper limit, in volts.",
        validator=strict_range,
        values=(-1000, 1000),
        check_set_errors=True,
    )
    lower = Instrument.control(
        "CALC:LIM:LOW?",
        "CALC:LIM:LOW %g",
        "The lower limit, in volts.",
        validator=strict_range,
        values=(-1000, 1000),
        check_set_errors=True,
    )

    def __init__(self, resource_name, **options):
        super().__init__(
            resource_name,
            "scanning voltmeter",
            read_termination="\n",
            write_termination="\n",
            chunk_size=WHOLE,
            timeout=5000,
            **options,
        )
        self.adapter.connection.clear()  # of what an earlier session left
        self.write("*RST;*CLS;*SRE 0;:STAT:PRES")

    def check_errors(self):
        """Raises the first entry of the error queue, and discards the others."""
        entry = self.ask("SYST:ERR?")
        if not entry.startswith("0,"):
            self.write("*CLS")
            raise VoltmeterError(entry)

    def scan(self, channels):
        """The voltages of these channels, 1 to 128, in their order."""
        try:
            listed = ",".join(map(str, channels))
            self.write(f"ROUT:SCAN (@{listed})")
            self.check_errors()
            return self.values("READ?")
        except pyvisa.VisaIOError:
            # drops the response that wasn't read; else the next message fails (-410)
            self.adapter.connection.clear()
            raise

    def wait_for_alarm(self, channel, seconds):
        """Waits until the input of a channel is outside the limits. Raises TimeoutError."""
        enabled = "STAT:QUES:LIM:ENAB 4;:STAT:QUES:ENAB 512;*CLS;*SRE 8"
        self.write(f"ROUT:MON (@{channel});:{enabled};:CALC:LIM:STAT ON")
        self.check_errors()
        end = time.monotonic() + seconds
        while time.monotonic() < end:
            if self.adapter.connection.read_stb() & REQUEST:
                return
            time.sleep(POLLS)
        raise TimeoutError(f"no alarm in {seconds:g} seconds")
