"""What a client does on a connection to the core channel, over whatever carries its calls."""

from __future__ import annotations

from typing import TypeVar

from . import calls
from .calls import Call
from .link import IO_TIMEOUT, Link
from .timeouts import milliseconds

__tracebackhide__ = True  # pytest shows the line that calls the package, and not these frames
Value = TypeVar("Value")


class Core:
    """The links and the interrupt channel of a connection. A subclass says how a call is made, how one is
    aborted, and whether the connection is open.
    """

    is_open: bool

    def do(self, call: Call[Value]) -> Value:
        """Makes a call, and waits for its result."""
        raise NotImplementedError

    def abort(self, link: Link) -> None:
        """Aborts the call that waits on a link, over an abort channel of its own. It may be a link of any connection."""
        raise NotImplementedError

    def create_link(
        self,
        device: str = "inst0",
        lock: bool = False,
        lock_timeout: int = 0,
        io_timeout: int = IO_TIMEOUT,
    ) -> Link:
        """Makes a link; with `lock` the link has the lock. The link keeps these timeouts, in milliseconds."""
        io_timeout = milliseconds(io_timeout, "io_timeout")
        made = self.do(calls.create_link(device, lock, lock_timeout))
        return Link(self, made, io_timeout, lock_timeout)

    def create_intr_chan(
        self,
        address: int,
        port: int,
        program: int = calls.INTERRUPT,
        version: int = 1,
        family: int = calls.BY_TCP,
    ) -> None:
        """Has the instrument connect to a port of an address, which is given as a number."""
        self.do(calls.create_intr_chan(address, port, program, version, family))

    def destroy_intr_chan(self) -> None:
        """Closes the interrupt channel."""
        self.do(calls.destroy_intr_chan())
