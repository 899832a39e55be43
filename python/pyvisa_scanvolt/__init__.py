"""A backend of PyVISA: `pyvisa.ResourceManager("@scanvolt")` has simulated voltmeters in virtual time.

Names are `TCPIP[0]::HOST[::inst0][::INSTR]`: `TCPIP::scanvolt::INSTR` is one instrument, `TCPIP::scanvolt2::INSTR` another, and
so on for each HOST that begins with `scanvolt`. One is turned on when it is first named. `manager.visalib.meter(name)` is the
Meter of a resource name, `meter_of(resource)` that of a resource. `manager.close()`, or the end of the script, turns all
instruments off.

`ResourceManager("FILE@scanvolt")` gives them the scenario FILE. If FILE has lines such as `GPIB0::8::INSTR = scanvolt`, these are
further names, so that drivers with fixed addresses run unchanged; there may also be lines such as `scenario = stand.scenario`,
`patience = 5000` and `call_time = 1`.

Service requests use the session's interrupt channel. Handlers are called in the call that raises the request or waits, and in
`advance` of the Meter. If a driver polls with time.sleep, run it in `with meter_of(resource).keeping_time():`.

While another session has the lock, `lock_excl` waits, and all other calls return VI_ERROR_RSRC_LOCKED at once. `lock` shares it
by an access key: the instrument's one lock goes to the session that makes a call. What isn't supported raises VisaIOError with
VISA's status, such as VI_ERROR_NSUP_OPER.
"""

from __future__ import annotations

from typing import TYPE_CHECKING, Any

if TYPE_CHECKING:
    from pyvisa.resources import Resource
    from scanvolt.virtual import Meter

    from .library import ScanvoltLibrary

__tracebackhide__ = True  # pytest shows the line that calls the package, and not these frames


def meter_of(resource: Resource) -> Meter:
    """The instrument of a resource that a manager of this backend opened. Raises TypeError for any other resource."""
    from .library import ScanvoltLibrary

    library = getattr(resource, "visalib", None)
    if not isinstance(library, ScanvoltLibrary):
        raise TypeError(
            f"no resource of this backend, pyvisa.ResourceManager('@scanvolt'): {resource!r}"
        )
    return library.meter(resource)


def resource_of(meter: Meter, **options: Any) -> Any:
    """Opens a session to a Meter, such as a fork, with these options of `open_resource`. So `Meter.interleavings` runs drivers
    over PyVISA: each controller makes its driver with `resource_of(meter)`, and closes that at its end. The resource manager
    doesn't turn such a meter off.
    """
    import pyvisa

    manager = pyvisa.ResourceManager("@scanvolt")
    library: Any = manager.visalib
    return manager.open_resource(f"TCPIP::{library.host_of(meter)}::INSTR", **options)


def __getattr__(name: str) -> type[ScanvoltLibrary]:
    """WRAPPER_CLASS, for which PyVISA asks. PyVISA is imported only then."""
    if name not in ("WRAPPER_CLASS", "ScanvoltLibrary"):
        raise AttributeError(f"module {__name__} has no attribute {name}")
    from .library import ScanvoltLibrary

    return ScanvoltLibrary
