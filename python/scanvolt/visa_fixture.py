"""What the fixture `visa_meter` is: an instrument by PyVISA, in virtual time or on sockets.

While it is there, `pyvisa.ResourceManager()` is the manager of this instrument, also for a driver that makes its own, and
the names that the marker gives lead to it. In virtual time, the time of the test's thread is the meter's.
"""

from __future__ import annotations

import contextlib
import importlib
import pathlib
from typing import TYPE_CHECKING, Any

from .program import Server
from .virtual import Meter

if TYPE_CHECKING:
    import pytest

__tracebackhide__ = True  # pytest shows the line that calls the package, and not these frames
BACKENDS = ("virtual", "sockets")
VIRTUAL, SOCKETS = "TCPIP::scanvolt::INSTR", "TCPIP::127.0.0.1::inst0::INSTR"
END = "\n"
TIMEOUT = 5000  # milliseconds of a resource


class VisaMeter:
    """An instrument that has just been turned on, by PyVISA: `manager`, and `resource`, a session that is open.

    `backend` is virtual or sockets. `name` is the instrument's resource name: the first that the marker gives, or its own.
    """

    def __init__(
        self,
        backend: str,
        options: dict[str, Any],
        monkeypatch: pytest.MonkeyPatch,
        folder: pathlib.Path,
    ) -> None:
        self.backend = backend
        self._names: dict[str, str] = dict(options.pop("names", None) or {})
        self._ends = contextlib.ExitStack()
        self.server: Server | None = None
        self._meter: Meter | None = None
        try:
            if backend == "virtual":
                own = self._virtual(options, monkeypatch, folder)
            else:
                own = self._sockets(options, monkeypatch)
            self.name = next(iter(self._names), own)
            self.resource = self.open()
        except BaseException:
            self._ends.close()
            raise

    def __enter__(self) -> VisaMeter:
        return self

    def __exit__(self, kind: type[BaseException] | None, *_: object) -> None:
        self._ends.close()

    @property
    def meter(self) -> Meter:
        """The instrument in virtual time. Raises AttributeError on sockets, where `server` is the Server."""
        if self._meter is None:
            raise AttributeError(
                "on sockets there is no Meter, but visa_meter.server; backend='virtual' has one"
            )
        return self._meter

    def open(self, name: str | None = None, **options: Any) -> Any:
        """Opens a further session, to this instrument unless another one's name is given. The options are those of
        open_resource; messages end with a new line, and the timeout is 5 s, unless they say otherwise.
        """
        given: dict[str, Any] = {
            "read_termination": END,
            "write_termination": END,
            "timeout": TIMEOUT,
            **options,
        }
        return self.manager.open_resource(name or self.name, **given)

    def _manage(self) -> None:
        import pyvisa

        self.manager = pyvisa.ResourceManager()
        self._ends.callback(self.manager.close)

    def _virtual(
        self, options: dict[str, Any], monkeypatch: pytest.MonkeyPatch, folder: pathlib.Path
    ) -> str:
        """An instrument in virtual time, whose settings are in a file. Returns its name."""
        from pyvisa_scanvolt.settings import written

        path = folder / "settings"
        path.write_text(written(self._names, **options), encoding="utf-8")
        monkeypatch.setenv("PYVISA_LIBRARY", f"{path}@scanvolt")
        self._manage()
        library: Any = self.manager.visalib
        meter: Meter = library.meter(next(iter(self._names), VIRTUAL))
        self._ends.enter_context(meter.keeping_time())
        self._meter = meter
        return VIRTUAL

    def _sockets(self, options: dict[str, Any], monkeypatch: pytest.MonkeyPatch) -> str:
        """An instrument on sockets, by PyVISA-py, which would otherwise ask port 111. Its name in virtual time leads to it too.
        Returns its name.
        """
        import pyvisa

        rpc = importlib.import_module("pyvisa_py.protocols.rpc")
        from pyvisa_scanvolt.settings import Settings

        settings = Settings()
        if len({host.lower() for host in self._names.values()}) > 1:
            hosts = ", ".join(sorted(set(self._names.values())))
            raise ValueError(
                f"on sockets there is one instrument, and the names are of several: {hosts}"
            )
        for name, host in {VIRTUAL: "scanvolt", **self._names}.items():
            settings.add(name, host)
        self.server = self._ends.enter_context(
            Server(options.get("scenario"), record=True, control=True)
        )
        monkeypatch.setattr(rpc, "PMAP_PORT", self.server.port_mapper)
        monkeypatch.setenv("PYVISA_LIBRARY", "@py")
        real = pyvisa.ResourceManager.open_resource

        def open_resource(manager: Any, name: str, *given: Any, **named: Any) -> Any:
            return real(manager, SOCKETS if settings.host(name) else name, *given, **named)

        monkeypatch.setattr(pyvisa.ResourceManager, "open_resource", open_resource)
        self._manage()
        return SOCKETS
