"""A server while it runs: its control port, which sets inputs, and the record that it writes (docs/INSTRUMENT.md)."""

from __future__ import annotations

import os
import pathlib
import select
import shutil
import socket
import tempfile
import threading
import time
import weakref
from collections.abc import Callable

from .stimulus import Name, Volts, input_line

__all__ = ["Control", "ControlError"]
__tracebackhide__ = True  # pytest shows the line that calls the package, and not these frames
HOST = "127.0.0.1"
PATIENCE = 10.0  # seconds that the server may take to answer a line
DONE, BAD = b"ok\n", b"bad line\n"
LONGEST_ANSWER = 4096  # bytes; answers are `ok` and `bad line`
SETTLED = 0.02  # seconds after which a record has what was answered
COARSE = 10  # milliseconds that the time of a file may be too early


class ControlError(ConnectionError):
    """The control port doesn't answer, or not as docs/INSTRUMENT.md says."""


class Control:
    """A client of the control port. It connects when it is first used, and again if the server closed the connection. Threads
    may share it. Each process of a fork connects for itself.
    """

    def __init__(self, port: int, patience: float = PATIENCE) -> None:
        self.port, self.patience = port, patience
        self._guard = threading.Lock()
        self._socket: socket.socket | None = None
        self._owner = os.getpid()

    def set_input(self, channel: int, volts: Volts) -> None:
        """Sets the voltage of a channel, 1 to 128: -1000 to 1000 V, in whole microvolts. A float is rounded to the nearest one.
        When it returns, the next call that the server reads finds this voltage. Raises ValueError and TypeError as
        `Meter.set_input` does, and ControlError.
        """
        self._done(input_line(channel, volts))

    def external(self) -> None:
        """Fires the external trigger. Raises ControlError."""
        self._done(b"external\n")

    def pass_by(self) -> None:
        """Waits until the server has looked at its control port once more. Nothing of it comes to a record."""
        self._said(b"\n", BAD)

    def close(self) -> None:
        """Closes the connection."""
        with self._guard:
            self._close()

    def _done(self, line: bytes) -> None:
        self._said(line, DONE)

    def _said(self, line: bytes, wanted: bytes) -> None:
        """Sends a line, and takes its answer."""
        with self._guard:
            if self._owner != os.getpid():
                self._close()
                self._owner = os.getpid()
            try:
                answer = self._answer(line)
            except OSError as fault:
                self._close()
                raise ControlError(
                    f"the control port {self.port} doesn't answer: {fault.strerror or fault}"
                ) from None
            if answer != wanted:
                self._close()
                raise ControlError(
                    f"the control port answered {answer!r} to {line!r}, and not {wanted!r}"
                )

    def _answer(self, line: bytes) -> bytes:
        """The answer to a line. A connection that the server closed meanwhile is made anew, once."""
        if self._socket is not None and self._is_closed(self._socket):
            self._close()
        if self._socket is None:
            self._socket = socket.create_connection((HOST, self.port), self.patience)
        self._socket.sendall(line)
        answer = b""
        while not answer.endswith(b"\n"):
            piece = self._socket.recv(LONGEST_ANSWER)
            if not piece:
                raise ConnectionError("the server closed the connection")
            answer += piece
        return answer

    @staticmethod
    def _is_closed(connection: socket.socket) -> bool:
        """Whether the other side closed a connection: no answer is due on it, so else nothing comes."""
        return bool(select.select([connection], [], [], 0)[0])

    def _close(self) -> None:
        if self._socket is not None:
            self._socket.close()
            self._socket = None


def _gone(folder: str, owner: int) -> None:
    """Removes a folder, unless in a fork of the process that made it."""
    if os.getpid() == owner:
        shutil.rmtree(folder, ignore_errors=True)


class Record:
    """The file to which a server writes its session as a script: none, one that stays, or (for True) one that `end` removes."""

    def __init__(self, wanted: None | bool | Name) -> None:
        self.path: str | None = None
        self._remove: Callable[[], object] | None = None
        if wanted is True:
            folder = tempfile.mkdtemp(prefix="scanvolt-")
            self._remove = weakref.finalize(self, _gone, folder, os.getpid())
            self.path = os.path.join(folder, "record.replay")
        elif wanted is not None and wanted is not False:
            self.path = os.path.abspath(wanted)

    def check(self) -> None:
        """Raises the OSError that explains why the record can't be written, if there is one now. A pipe isn't tried."""
        if self.path is not None and not pathlib.Path(self.path).is_fifo():
            with open(self.path, "ab"):
                pass

    def lines(self, control: Control | None, runs: bool) -> list[str]:
        """The whole lines, with all that the server has answered, and the time that has passed since. Raises OSError.

        The server writes at the end of a sweep, so perhaps just after an answer. It takes lines of its control port between two
        sweeps: after two of them, the sweep of the answer has ended. Without a control port, a moment has to do. Time comes to a
        record only before the next event: so if the server still runs, what has passed since is told by the clock, and a few
        milliseconds are left out.
        """
        from .replay import ticks  # which imports this module

        assert self.path is not None
        try:
            if control is not None:
                control.pass_by()
                control.pass_by()
        except ControlError:  # it ended: then the record is as long as it will be
            pass
        time.sleep(SETTLED)
        with open(self.path, "rb") as file:
            text = file.read()
            passed = int(1000 * (time.time() - os.fstat(file.fileno()).st_mtime)) - COARSE
        whole = text[: text.rfind(b"\n") + 1]
        return (
            (whole + (ticks(passed) if runs and whole and passed > 0 else b""))
            .decode("latin-1")
            .splitlines()
        )

    def end(self) -> None:
        """Removes the file that isn't to stay."""
        if self._remove is not None:
            self._remove()
