"""VISA's statuses for what the instrument and its connection return."""

from __future__ import annotations

from pyvisa import errors
from pyvisa.constants import StatusCode
from scanvolt.vxi11 import DeviceError, RpcError

__tracebackhide__ = True  # pytest shows the line that calls the package, and not these frames
OF_DEVICE: dict[int, StatusCode] = {
    3: StatusCode.error_resource_not_found,
    4: StatusCode.error_connection_lost,
    5: StatusCode.error_invalid_parameter,
    8: StatusCode.error_nonsupported_operation,
    9: StatusCode.error_allocation,
    11: StatusCode.error_resource_locked,
    12: StatusCode.error_session_not_locked,
    15: StatusCode.error_timeout,
    23: StatusCode.error_abort,
}


class Refusal(Exception):
    """An operation that a session refuses, with its status."""

    def __init__(self, status: StatusCode) -> None:
        super().__init__(status)
        self.status = status


class VisaIOError(errors.VisaIOError):
    """VISA's exception for a fault of the instrument. Its notes are those of the fault: why the call ended so."""

    def __init__(self, status: int, fault: Exception) -> None:
        super().__init__(status)
        self._fault = fault

    @property
    def __notes__(self) -> list[str]:
        """The lines that a traceback shows below the error."""
        if isinstance(self._fault, ConnectionError):
            return [str(self._fault)]
        found: list[str] = getattr(self._fault, "__notes__", [])
        return found


FAULTS: tuple[type[Exception], ...] = (Refusal, DeviceError, RpcError, ConnectionError)


def status_of(fault: Exception) -> StatusCode:
    """The status of an operation that ends with this exception."""
    if isinstance(fault, Refusal):
        return fault.status
    if isinstance(fault, ConnectionError):
        return StatusCode.error_connection_lost
    if isinstance(fault, DeviceError):
        return OF_DEVICE.get(fault.number, StatusCode.error_io)
    return StatusCode.error_io
