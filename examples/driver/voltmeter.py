"""A driver for the voltmeter, over a PyVISA resource of any backend. The tests test this driver."""

from __future__ import annotations

import contextlib
import enum
import time
from collections.abc import Iterator

import pyvisa
from pyvisa.constants import EventMechanism, EventType
from pyvisa.resources import MessageBasedResource

LARGEST = 1e37  # an overload reads as 9.9E+37 or -9.9E+37
REQUEST = 64  # bit 6 of the status byte: the instrument requests service
LIMIT = 512  # bit 9 of the questionable register: a limit was passed
WHOLE = 32768  # bytes of the longest response
POLLS = 0.01  # seconds between two polls


class Limits(enum.IntFlag):
    """Events of the register of limits."""

    BELOW = 1  # the last reading was below the lower limit
    ABOVE = 2  # the last reading was above the upper limit
    OUTSIDE = 4  # the input of the monitored channel is outside the limits; this needs no scan


class VoltmeterError(Exception):
    """An entry of the instrument's error queue."""

    def __init__(self, entry: str) -> None:
        number, _, text = entry.partition(",")
        super().__init__(entry)
        self.number, self.text = int(number), text.strip('"')


class Voltmeter:
    """One link to the voltmeter. Other links to the same voltmeter may exist: see `alone`."""

    def __init__(self, resource: MessageBasedResource) -> None:
        self.resource = resource
        self._channels = 1  # how many channels the scan list has
        resource.read_termination = resource.write_termination = "\n"
        resource.chunk_size = WHOLE
        try:
            resource.enable_event(EventType.service_request, EventMechanism.queue)
            self._has_events = True
        except (NotImplementedError, pyvisa.Error):  # PyVISA-py has no events
            self._has_events = False

    def reset(self) -> None:
        """Clears what earlier users left: responses, settings, events, and what they enabled."""
        self.resource.clear()
        self.resource.write("*RST;*CLS;*ESE 0;*SRE 0;:STAT:PRES")
        self._channels = 1
        if self._has_events:
            self.resource.discard_events(EventType.service_request, EventMechanism.queue)

    def command(self, text: str) -> None:
        """Writes a command. Raises the first error that it causes, and discards the others."""
        self.resource.write(text)
        first = entry = self.resource.query("SYST:ERR?")
        while not entry.startswith("0,"):
            entry = self.resource.query("SYST:ERR?")
        if not first.startswith("0,"):
            raise VoltmeterError(first)

    def configure(self, channels: list[int], volts: float = 10, scans: int = 1) -> None:
        """Sets which channels are scanned, in which order, at which range (1, 10 or 100 V), and how often."""
        listed = ",".join(str(channel) for channel in channels)
        self.command(f"CONF:VOLT (@{listed});:VOLT:RANG {volts:g};:TRIG:COUN {scans}")
        self._channels = len(channels)

    def scan(self) -> list[list[float | None]]:
        """The voltages of each scan, in the order of the channels; None for an overload."""
        answer = self.resource.query("READ?")
        readings = [float(text) for text in answer.split(",")]
        found = [None if abs(volts) > LARGEST else volts for volts in readings]
        return [
            found[start : start + self._channels] for start in range(0, len(found), self._channels)
        ]

    def watch(self, channel: int, lower: float, upper: float) -> None:
        """Enables the alarm: from now on it is raised when a reading, or the input of this channel, is outside
        the limits.
        """
        self.command("CALC:LIM:STAT OFF;:STAT:QUES:ENAB 0;*CLS")
        self.command(f"ROUT:MON (@{channel});:CALC:LIM:LOW {lower:f};UPP {upper:f}")
        self.command(f"STAT:QUES:LIM:ENAB {sum(Limits):d};:STAT:QUES:ENAB {LIMIT};*SRE 8")
        self.command("CALC:LIM:STAT ON")

    def limits(self) -> Limits:
        """Reads the events of the limits. That clears them, and with them the reason of an alarm."""
        _, limits = self.resource.query("STAT:QUES?;QUES:LIM?").split(";")
        return Limits(int(limits))

    def wait_for_alarm(self, seconds: float) -> int:
        """Waits for a service request. Returns the status byte, and clears its bit 6."""
        if self._has_events:
            response = self.resource.wait_on_event(
                EventType.service_request, int(1000 * seconds), True
            )
            if not response.timed_out:
                return self.resource.read_stb()
        else:
            end = time.monotonic() + seconds
            while time.monotonic() < end:
                status = self.resource.read_stb()
                if status & REQUEST:
                    return status
                time.sleep(POLLS)
        raise TimeoutError(f"no alarm in {seconds:g} seconds")

    @contextlib.contextmanager
    def alone(self) -> Iterator[Voltmeter]:
        """Locks the instrument: no other link can use it meanwhile."""
        self.resource.lock_excl()
        try:
            yield self
        finally:
            self.resource.unlock()
