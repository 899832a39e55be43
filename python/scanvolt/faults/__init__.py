"""Faults on order, so that a driver is tested for what goes wrong.

`Meter.faults` has those of virtual time: a call is answered with an error, a reply comes late or is cut off, a service
request is lost, a connection ends. `Relay` stands between clients and a server on sockets, and cuts, delays, splits and
drops bytes. The instrument itself never lies: a fault happens on the way to it, and each trace says that it was ordered.
"""

from .ordered import Faults
from .relay import Relay
from .told import Told

__all__ = ["Faults", "Relay", "Told"]
