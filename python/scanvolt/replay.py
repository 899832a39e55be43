"""Runs the program as `scanvolt replay`, in lock step: writes lines, and knows when all that they print has come.

After the lines comes a probe, an event that is always refused in the same way: an input of channel 255, which
prints `refused 8`. No other line prints that here. When it is printed, all that the lines before it print has
been printed: the program flushes its output before it reads on (docs/REPLAY.md).
"""

from __future__ import annotations

import os
import select
import subprocess
import zlib
from collections.abc import Iterator, Sequence

from .program import ProgramError, check_fits, started

__tracebackhide__ = True  # pytest shows the line that calls the package, and not these frames
PROBE, SEEN = b"input 255 0\n", b"refused 8\n"
FORKED = "this process was forked from the one that made the meter; make a meter in each process that uses one"
PATIENCE = 60.0  # seconds that the program may take to answer
PIECE = 30000  # bytes of lines that are written at once; a pipe holds 65,536
LONGEST_TICK = 1000000  # milliseconds of one line
LONGEST_ASK = 50000  # milliseconds that pass before the program has to answer
STEPS = 64  # single milliseconds that are tried before longer steps, the cells
CELLS = 64  # cells that are tried at once
FIRST_CELL, LAST_CELL = 16, 1024  # milliseconds of the first cells, and of the longest
Moment = tuple[int, int]  # of a session: entries of the log, and milliseconds after them
# bytes of lines that are kept for a second program, which takes about 20 ms to read them
LOG_MOST = 4000000


def ticks(milliseconds: int) -> bytes:
    """Lines that let this many milliseconds pass."""
    whole, rest = divmod(milliseconds, LONGEST_TICK)
    return b"tick %d\n" % LONGEST_TICK * whole + (b"tick %d\n" % rest if rest else b"")


def pieces(text: bytes) -> Iterator[bytes]:
    """A text in pieces of whole lines. Each has at most PIECE bytes, or is one line."""
    start = 0
    while start < len(text):
        end = text.rfind(b"\n", start, start + PIECE) + 1 or text.index(b"\n", start) + 1
        yield text[start:end]
        start = end


class Program:
    """A running program. It ends when it is closed, when this object is collected, and when Python ends, even by SIGKILL."""

    def __init__(self, path: str) -> None:
        self._path, self._owner = path, os.getpid()
        self._tied = started([path, "replay"], subprocess.PIPE, 0)
        self.process, self.close = self._tied.process, self._tied.end
        assert self.process.stdin is not None and self.process.stdout is not None
        self._source, self._target = self.process.stdout.fileno(), self.process.stdin.fileno()
        os.set_blocking(self._target, False)
        self._printed, self._room = select.poll(), select.poll()
        self._printed.register(self._source, select.POLLIN)
        self._room.register(self._source, select.POLLIN)
        self._room.register(self._target, select.POLLOUT)

    def ask(self, lines: bytes, probes: int = 1) -> bytes:
        """Writes lines, `probes` of which are probes, the last line too. Returns what they print, up to the
        answer to the last probe.
        """
        if os.getpid() != self._owner:
            raise ProgramError(FORKED)
        if not self.close.alive:
            raise ProgramError("the program was ended before")
        try:
            found = self._write(lines)
            while not (found.endswith(SEEN) and found.count(SEEN) == probes):
                found += self._read(self._printed)
            return bytes(found)
        except BaseException:
            self.close()
            raise

    def _write(self, lines: bytes) -> bytearray:
        """Writes lines. While the pipe is full, reads what is printed."""
        found = bytearray()
        while lines:
            try:
                lines = lines[os.write(self._target, lines) :]
            except BlockingIOError:
                if self._waits(self._room):
                    found += self._read(self._printed)
            except BrokenPipeError:
                raise self._fault() from None
        return found

    def _waits(self, poll: select.poll) -> bool:
        """Waits until the pipes can be read or written. Returns whether there is something to read."""
        ready = poll.poll(1000 * PATIENCE)
        if not ready:
            raise ProgramError(f"the program says nothing for {PATIENCE:g} s: {self._path}")
        return any(one == self._source for one, _ in ready)

    def _read(self, poll: select.poll) -> bytes:
        self._waits(poll)
        data = os.read(self._source, 65536)
        if not data:
            raise self._fault()
        return data

    def _fault(self) -> ProgramError:
        """The exception that says why the program ended: what it wrote to standard error, or its status."""
        assert self.process.stderr is not None
        told = b""
        ended = select.poll()
        ended.register(self.process.stderr, select.POLLIN)
        while ended.poll(1000):
            piece = os.read(self.process.stderr.fileno(), 4096)
            if not piece:
                break
            told += piece
        else:  # it closed its output, but still runs
            self.process.kill()
        self.process.wait()
        status = self.process.returncode
        text = told.decode("utf-8", "replace").strip()
        how = f"by signal {-status}" if status < 0 else f"with status {status}"
        why = ": " + text if text else ""
        return ProgramError(f"the program ended {how}{why}")


class Replay:
    """An instrument: what happens to it, and the time that passes for it.

    A second program that is given the same lines prints the same. So time can be tried in long steps: if
    something is printed within a step, a second program takes the place of the first, from the time before
    that step.
    """

    def __init__(self, path: str) -> None:
        self.path = path
        # all lines that were executed; None if they became too many
        self.log: list[bytes] | None = []
        self.size = 0  # how many bytes they have
        self._since = 0  # milliseconds that passed after the last of them
        self.checksum = 0  # of all that was printed
        check_fits(path)
        self.program = Program(path)
        self.program.ask(PROBE)

    def close(self) -> None:
        """Ends the program."""
        self.program.close()

    def do(self, lines: bytes) -> bytes:
        """Executes events, given as lines. Returns what they print."""
        return self._kept(lines, self.program.ask(lines + PROBE)[: -len(SEEN)])

    def moment(self) -> Moment:
        """Where the session is: how many entries its log has, and how many milliseconds passed after them."""
        return len(self.log or ()), self._since

    def script(self, moment: Moment | None = None) -> Sequence[str]:
        """The lines of a script that repeats the session, until now or until a moment of it. Raises ProgramError if it became
        too long to be kept.
        """
        if self.log is None:
            raise ProgramError(
                f"the session is too long to be told: its lines have more than {LOG_MOST} bytes"
            )
        count, since = self.moment() if moment is None else moment
        return (b"".join(self.log[:count]) + ticks(since)).decode().splitlines()

    def pass_time(self, milliseconds: int) -> bytes:
        """Lets time pass in one go. Returns what is printed meanwhile, without the moment at which it was."""
        found = b""
        for start in range(0, milliseconds, LONGEST_ASK):
            passed = min(LONGEST_ASK, milliseconds - start)
            found += self._kept(b"", self.program.ask(ticks(passed) + PROBE)[: -len(SEEN)])
            self._since += passed
        return found

    def seek(self, most: int) -> tuple[int, bytes]:
        """Lets time pass up to the first millisecond that prints something, but at most `most`. Returns how
        many passed, and what was printed.
        """
        passed, found = self._steps(min(most, STEPS))
        cell = FIRST_CELL
        while not found and passed < most:
            if self.log is None or cell == 1:
                further, found = self._steps(min(most - passed, STEPS))
            else:
                further, found, cell = self._cells(most - passed, cell)
            passed += further
        return passed, found

    def _kept(self, lines: bytes, found: bytes) -> bytes:
        """Notes the lines that were executed, and the checksum of what they printed. Returns what they printed."""
        self.checksum = zlib.crc32(found, self.checksum)
        if self.log is not None and lines:
            self.log += [ticks(self._since), lines] if self._since else [lines]
            self.size += len(lines)
            self._since = 0
            if self.size > LOG_MOST:
                self.log = None
        return found

    def _steps(self, most: int) -> tuple[int, bytes]:
        """Passes single milliseconds, up to the first that prints."""
        for passed in range(1, most + 1):
            found = self.program.ask(b"tick\n" + PROBE)
            if found != SEEN:
                self._since += passed
                return passed, self._kept(b"", found[: -len(SEEN)])
        self._since += most
        return most, b""

    def _cells(self, most: int, cell: int) -> tuple[int, bytes, int]:
        """Tries cells of this many milliseconds, and after them one of a single millisecond.

        Returns how many milliseconds passed, what the last one printed, and the length of the next cells. If
        something was printed within a cell, time passes only to the start of that cell, and the next cells
        divide it.
        """
        whole = min(CELLS, (most - 1) // cell)
        rest = most - 1 - whole * cell
        lengths = [cell] * whole + ([] if whole == CELLS else [rest, 1] if rest else [1])
        parts = self.program.ask(
            b"".join(ticks(one) + PROBE for one in lengths), len(lengths)
        ).split(SEEN)
        quiet = next((place for place, part in enumerate(parts) if part), len(lengths))
        passed = sum(lengths[:quiet])
        if quiet == len(lengths):
            self._since += passed
            return passed, b"", min(2 * cell, LAST_CELL)
        if quiet == len(lengths) - 1 and lengths[quiet] == 1:
            self._since += passed + 1
            return passed + 1, self._kept(b"", parts[quiet]), cell
        self._begin_again(passed)
        return passed, b"", 1 if cell <= STEPS else cell // CELLS

    def _begin_again(self, further: int) -> None:
        """Replaces the program by a second one, at the same moment or `further` milliseconds later."""
        self.program.close()
        self.program = Program(self.path)
        self._since += further
        self._play_again()

    def repeat(self, other: Replay) -> None:
        """Executes what another session executed, instead of what this one did: nothing. Raises ProgramError if that
        session became too long to be kept.
        """
        other.script()
        self.log = list(other.log or ())
        self.size = other.size
        self._since = other._since
        self.checksum = other.checksum
        self._play_again()

    def _play_again(self) -> None:
        """Gives a program that was just started the lines of the session."""
        assert self.log is not None
        checksum = 0
        for piece in pieces(b"".join(self.log) + ticks(self._since)):
            checksum = zlib.crc32(self.program.ask(piece + PROBE)[: -len(SEEN)], checksum)
        if checksum != self.checksum:
            raise ProgramError(f"a second program prints otherwise: {self.path}")
