"""Follows a server: reads its record from a pipe, always and at once, and lets `scanvolt explain` say what happened.

What the program says goes to a Front. Time alone comes to a record only before the next event. So while a reading or a timeout is
due, the server is asked over its control port whether it still runs: then at least the time that passed until the question has
passed for it too, and the program gets these milliseconds. When the answer comes, all that happened before is in the pipe.
"""

from __future__ import annotations

import fcntl
import os
import selectors
import socket
import subprocess
import tempfile
import threading
import time

from ..explaining.running import command
from ..lifeline import Tied
from ..live import HOST
from ..program import Name, ProgramError, Server, in_a_line
from ..replay import LONGEST_TICK, PROBE, SEEN, ticks
from .front import Front
from .spool import Spool
from .state import State, state_of

__tracebackhide__ = True  # pytest shows the line that calls the package, and not these frames
PIPE = 1 << 20  # bytes that the pipe holds
PIECE = 1 << 15  # bytes that are read at once
# bytes of the record that are explained at once: at least a line, which has up to 65,537
LONGEST = 1 << 17
SWEEPS = 4294967295  # the most that there are
DUE, IDLE = 0.04, 0.5  # seconds between two questions, while something is due and else
MARGIN = 3  # milliseconds that the server's clock may be behind when it answers
# seconds without a sign of the server after which it is not known how much time passed for it
PAUSE = 0.9
MOST_PASSED = 1000  # milliseconds that pass at most for the server after a pause
SILENT = 1.0  # seconds without an answer after which the server is said not to answer
LATE = 0.01  # seconds that the record may be read late
SOON = 1.0  # seconds that a state may take while events follow each other
SAID = 200  # bytes of what a server said at its end that are shown
ENDS = 2.0  # seconds that a server may take to end once its record has ended
DIFFERS = "the record isn't what the server answered; start the panel anew"


class _Clock:
    """A lower bound of the server's clock, from when it was known, and from its signs of life."""

    def __init__(self) -> None:
        self._base, self._at, self.seen = 0, time.monotonic(), time.monotonic()

    def known(self, clock: int, at: float) -> None:
        """The server's clock was at least this at this time, when the record came."""
        self._base, self._at, self.seen = clock, at, max(self.seen, at)

    def sign(self, asked: float) -> None:
        """The server answered a question of this time."""
        if asked - self.seen > PAUSE:
            self._base, self._at = self.least(self.seen), asked
        self.seen = asked

    def least(self, until: float | None = None) -> int:
        """What the clock is at least: at this time, or when the server gave its last sign."""
        passed = (self.seen if until is None else until) - self._at
        return self._base + max(0, int(1000 * passed) - MARGIN)


class Watch(threading.Thread):
    """Starts a server, and follows it in a thread of its own. `changed` is notified when `version` rises. The record is kept in a
    file if `record` names one. Raises what Server raises, and OSError if the record can't be made.
    """

    def __init__(
        self,
        scenario: Name | None = None,
        program: Name | None = None,
        record: str | None = None,
        ports: list[int] | None = None,
    ) -> None:
        super().__init__(name="scanvolt-panel", daemon=True)
        self.server, self._record = _served(scenario, program, ports)
        try:
            self.spool = Spool(record)
        except OSError:
            self.server.close()
            os.close(self._record)
            raise
        self._began = time.time()
        self.front, self.version = Front(), 0  # what the panel shows, and how often that changed
        self.changed = threading.Condition()
        self.ended = ""  # how the server ended
        self.fault = ""  # why it isn't followed any further
        self._silent = False  # whether the server doesn't answer
        self.clock = _Clock()
        self._shot: State = state_of(self.front)
        self._shot_of, self._is_wanted, self._is_over, self._is_last = 0, False, False, False
        self._settled = self._due_since = self._came = 0.0
        self._waker, self._wake = os.pipe()
        self._asked: float | None = None
        self._next = 0.0
        self._control: socket.socket | None = None
        self._selector = selectors.DefaultSelector()
        self._begin()

    # the life of the thread
    def run(self) -> None:
        """Follows the server until `close`, and after the server's end what is left of its record."""
        try:
            self._selector.register(self._record, selectors.EVENT_READ, self._drain)
            self._selector.register(self._waker, selectors.EVENT_READ, None)
            while not self._turn():
                pass
        except Exception as fault:  # whatever it is, the page says it, and the pipe is read on
            self._lost(f"the panel failed: {type(fault).__name__}: {fault}")
            while not self._only_drain():
                pass

    def _turn(self) -> bool:
        """Waits, and does what there is to do. Returns whether it is to end."""
        for key, _ in self._selector.select(
            max(0.0, self._next - time.monotonic()) if not self.ended else None
        ):
            if key.data is not None:
                key.data()
            elif self._is_over:
                return True
            else:  # somebody waits for what has happened until now
                os.read(self._waker, PIECE)
                self._next = min(self._next, self._due_since)
        if not self.ended and time.monotonic() >= self._next:
            self._ask()
        if not self.fault:
            self._feed()
        return False

    def _only_drain(self) -> bool:
        """Reads the pipe, and drops what comes. Returns whether it is to end."""
        for key, _ in self._selector.select():
            if key.data is None and self._is_over:
                return True
            if key.fileobj == self._record:
                self._drain()
            elif key.data is None:
                os.read(self._waker, PIECE)
            elif key.fd in self._selector.get_map():  # which the end of the record may have closed
                self._selector.unregister(key.fd)
        return False

    def close(self) -> None:
        """Ends the thread, the server and the program that explains."""
        if self.is_alive():
            self._is_over = True
            os.write(self._wake, b"x")
            self.join()
        self.server.close()
        self._tied.end()
        for number in (self._wake, self._waker, self._record):
            os.close(number)
        self._hang_up()
        self._selector.close()
        self.spool.close()

    def _tell(self) -> None:
        """Says that something is new. Whoever waits for a state while events follow each other gets one now."""
        with self.changed:
            self.version += 1
            if self._is_wanted:
                self._shoot()
            self.changed.notify_all()

    def _shoot(self) -> None:
        self._shot, self._shot_of, self._is_wanted = state_of(self.front), self.version, False

    def state(self) -> State:
        """What the panel shows, as of the end of an event, and how server and panel do."""
        with self.changed:
            if not self._flight and self._shot_of != self.version:
                self._shoot()
            elif self._flight:
                self._is_wanted = True
                self.changed.wait_for(lambda: not self._is_wanted or not self.is_alive(), SOON)
            clock = max(
                self.front.clock,
                self.clock.least(None if self._silent or self.ended else time.monotonic()),
            )
            return {"version": self._shot_of, "clock": clock, "server": self._about(), **self._shot}

    def explained(self) -> tuple[int, int]:
        """How many bytes of the record are explained, and how many milliseconds after them."""
        with self.changed:
            return self.place, self._ahead

    def catch_up(self, seconds: float = SOON) -> None:
        """Waits until all is explained that the server has answered before, but at most so many seconds."""
        now = time.monotonic() + LATE
        with self.changed:
            if self.is_alive() and not self.fault:
                self._due_since = now
                os.write(self._wake, b"x")
                self.changed.wait_for(lambda: self._settled >= now or bool(self.fault), seconds)

    def _about(self) -> State:
        """How server and panel do."""
        server = self.server
        ports = {
            "core": server.core,
            "abort": server.abort,
            "port_mapper": server.port_mapper,
            "control": server.control,
        }
        return {
            "program": server.program,
            "process": server.process.pid,
            "started": self._began,
            "ended": self.ended,
            "silent": self._silent,
            "fault": self.fault,
            "record": self.spool.path,
            "bytes": self.spool.size,
            "behind": self.spool.size - self.place,
            "ports": ports,
        }

    def _lost(self, fault: str) -> None:
        if not self.fault:
            self.fault = fault
            self._tell()

    # the record
    def _drain(self) -> None:
        """Reads what is in the pipe."""
        for _ in range(PIPE // PIECE):
            try:
                piece = os.read(self._record, PIECE)
            except BlockingIOError:
                return
            if not piece:
                self._selector.unregister(self._record)
                self._server_ended()
                return
            self.spool.add(piece)
            self._came = time.monotonic()
            if self.spool.fault:
                self._lost(self.spool.fault)

    def _server_ended(self) -> None:
        """The record has ended, as it does when the server does."""
        process = self.server.process
        try:
            process.wait(ENDS)
        except subprocess.TimeoutExpired:
            pass
        status = process.returncode
        if status is None:
            self.ended = "the server runs, but writes no record"
        else:
            self.ended = _how(status, process)
        self._hang_up()
        self._tell()

    # questions at the control port
    def _ask(self) -> None:
        """Asks the server for a sign of life, unless it owes one."""
        self._next = time.monotonic() + (DUE if self.front.is_due() else IDLE)
        if self._asked is not None:
            self._is_silent(time.monotonic() - self._asked > SILENT)
            return
        try:
            if self._control is None:
                assert self.server.control is not None
                self._control = socket.create_connection((HOST, self.server.control), IDLE)
                self._control.setblocking(False)
                self._selector.register(self._control, selectors.EVENT_READ, self._answered)
            self._asked = time.monotonic()
            self._control.send(b"\n")
        except OSError:
            self._hang_up()

    def _answered(self) -> None:
        """The server gave a sign of life. What happened before is in the pipe."""
        if self._control is None:  # the end of the record came with it
            return
        try:
            answer = self._control.recv(100)
        except OSError:
            answer = b""
        asked, self._asked = self._asked, None
        if not answer:
            self._hang_up()
        elif asked is not None and not self.ended:
            self._is_silent(False)
            self._drain()
            self.clock.sign(asked)

    def _is_silent(self, is_so: bool) -> None:
        if self._silent != is_so:
            self._silent = is_so
            self._tell()

    def _hang_up(self) -> None:
        if self._control is not None:
            try:
                self._selector.unregister(self._control)
            except (KeyError, ValueError):
                pass
            self._control.close()
            self._control = None
        self._asked = None

    # explaining
    def _begin(self) -> None:
        """Starts the program that explains, from the start of the record."""
        self._tied = Tied(
            command(self.server.program, (self.server.core, self.server.abort)), subprocess.PIPE, 0
        )
        process = self._tied.process
        assert process.stdin is not None and process.stdout is not None
        self._input, self._output = process.stdin.fileno(), process.stdout.fileno()
        os.set_blocking(self._input, False)
        os.set_blocking(self._output, False)
        self._selector.register(self._output, selectors.EVENT_READ, self._read)
        self.place, self._line, self._fed, self._ahead = 0, 0, 0, 0
        # the words of the lines that are being explained, a probe the last
        self._flight: list[list[str]] = []
        self._base, self._left, self._rest = 0, b"", b""

    def _again(self) -> None:
        """Explains the record anew, since more time was let pass than did."""
        self._selector.unregister(self._output)
        self._tied.end()
        self.front = Front()
        self._begin()

    def _feed(self) -> None:
        """Gives the program the next lines, once the last ones are explained: of the record, or the time that passed since."""
        if self._flight:
            return
        if self.place < self.spool.size:
            piece = self.spool.read(self.place, LONGEST)
            piece = piece[: piece.rfind(b"\n") + 1]
            if piece:
                self._give(piece)
            if piece or not self.ended:  # a server that was killed may leave half a line
                return
        passed = min(self.clock.least() - self.front.clock, LONGEST_TICK)
        if passed > 0 and self.front.is_due() and not self.ended:
            self._ahead += passed
            self._send([ticks(passed)])
        elif self._settled < self._due_since:
            with self.changed:
                self._settled = time.monotonic() + LATE if self.ended else self.clock.seen
                self.changed.notify_all()
            self._next = min(self._next, max(time.monotonic(), self._due_since))

    def _give(self, piece: bytes) -> None:
        """Gives lines of the record, without the time that was let pass already."""
        lines: list[bytes] = []
        for line in piece.splitlines(keepends=True):
            kind, _, said = line.partition(b" ")
            if kind == b"tick":
                count = int(said)
                already = min(self._ahead, count)
                self._ahead -= already
                lines += [ticks(count - already)] if count > already else []
            elif self._ahead:
                self._again()
                self._feed()
                return
            else:
                lines.append(line)
        self.place += len(piece)
        self._send(lines)

    def _send(self, lines: list[bytes]) -> None:
        self._base = self._fed
        self._flight = [line.decode("latin-1").rstrip("\n").split(" ") for line in lines] + [
            PROBE.decode().split()
        ]
        self._fed += len(self._flight)
        self._left = b"".join(lines) + PROBE
        self._write()

    def _write(self) -> None:
        """Writes as much as the program takes now."""
        try:
            self._left = self._left[os.write(self._input, self._left) :]
        except BlockingIOError:
            pass
        except OSError:
            self._left = b""
            self._lost(DIFFERS)
        wanted = selectors.EVENT_WRITE
        is_there = self._input in self._selector.get_map()
        if self._left and not is_there:
            self._selector.register(self._input, wanted, self._write)
        elif not self._left and is_there:
            self._selector.unregister(self._input)

    def _read(self) -> None:
        """Takes what the program prints."""
        piece = os.read(self._output, 2 * PIECE)
        if not piece:
            self._selector.unregister(self._output)
            self._lost(DIFFERS)
            return
        *lines, self._rest = (self._rest + piece).split(b"\n")
        with self.changed:
            for line in lines:
                self._take(line.decode("ascii", "replace"))

    def _take(self, line: str) -> None:
        """Takes a line that the program prints. The last one of a piece is that of the probe."""
        words: list[str] = []
        if line.startswith("@ "):
            number = int(line.split(" ")[1]) - self._base
            words = self._flight[number - 1]
            self._is_last = number == len(self._flight)
            if self._is_last:
                self._explained(int(line.split(" ")[2]))
                return
        elif line == SEEN.decode().strip() and self._is_last:
            self._flight, self._is_last = [], False
            if self.front.is_due():
                self._next = min(self._next, time.monotonic() + DUE)
            self._tell()
            return
        self.front.take(line, words)

    def _explained(self, clock: int) -> None:
        """All lines that were given are explained. If no time was let pass after them, the clock is that of the record."""
        self.front.settle(clock)
        if not self._ahead and self.place == self.spool.size:
            self.clock.known(clock, self._came)


class _Lasting(Server):
    """A server that goes on as long as it can."""

    _sweeps = SWEEPS


def _how(status: int, process: subprocess.Popen[bytes]) -> str:
    """How a server ended, with what it wrote to standard error."""
    said = b""
    if process.stderr is not None:
        os.set_blocking(process.stderr.fileno(), False)
        said = process.stderr.read(SAID) or b""
    if status < 0:
        return f"the server was ended by signal {-status}"
    why = ": " + in_a_line(said) if said else ""
    return f"the server ended with status {status}{why}"


def _served(
    scenario: Name | None, program: Name | None, ports: list[int] | None
) -> tuple[Server, int]:
    """A server that writes its record to a pipe, and the end of the pipe that is read."""
    with tempfile.TemporaryDirectory(prefix="scanvolt-") as folder:
        path = os.path.join(folder, "record")
        os.mkfifo(path, 0o600)
        source = os.open(path, os.O_RDONLY | os.O_NONBLOCK | os.O_CLOEXEC)
        try:
            fcntl.fcntl(source, getattr(fcntl, "F_SETPIPE_SZ", 1031), PIPE)
        except OSError:  # what a user may have is less
            pass
        try:
            return _Lasting(scenario, program, record=path, control=True, ports=ports), source
        except ProgramError as fault:
            os.close(source)
            raise ProgramError(str(fault).replace(path, "the record")) from None
        except BaseException:
            os.close(source)
            raise
