"""Service requests: what an interrupt channel carries (B.6, device_intr_srq)."""

from __future__ import annotations

from collections.abc import Callable
from dataclasses import dataclass

from .calls import DEVICE_INTR_SRQ, read_service_request
from .rpc import CallMessage, Records, read_call
from .xdr import XdrError

__tracebackhide__ = True  # pytest shows the line that calls the package, and not these frames


@dataclass(frozen=True)
class ServiceRequest:
    """A service request: the handle of its link, its xid, and in virtual time its millisecond."""

    handle: bytes
    xid: int
    clock: int | None = None


Callback = Callable[[ServiceRequest], object]


class RequestStream:
    """The service requests of an interrupt channel whose bytes come in pieces. Skips records that are other
    calls.
    """

    def __init__(self) -> None:
        self._records = Records()

    def push(self, data: bytes, clock: int | None = None) -> list[ServiceRequest]:
        """Takes a piece. Returns the service requests that are complete now."""
        found = [_request(one.body, clock) for one in self._records.push(data)]
        return [one for one in found if one is not None]


def checked_callback(callback: Callback | None) -> Callback | None:
    """The callback of service requests, if it may be one: a function, or None."""
    if callback is not None and not callable(callback):
        raise TypeError(f"a callback of service requests is a function, and not {callback!r}")
    return callback


def _request(body: bytes, clock: int | None) -> ServiceRequest | None:
    """The service request in a record, if it is one."""
    try:
        call: CallMessage = read_call(body)
        if call.procedure != DEVICE_INTR_SRQ:
            return None
        return ServiceRequest(read_service_request(call.arguments), call.xid, clock)
    except XdrError:
        return None
