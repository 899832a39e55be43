"""The program `scanvolt`: finds it, checks that it fits this package, and starts servers of it on free ports."""

from __future__ import annotations

import os
import pathlib
import select
import shutil
import subprocess
import time
from collections.abc import Callable, Iterable, Mapping, Sequence
from typing import TYPE_CHECKING, TypeVar, Union

from . import __version__
from .lifeline import GRACE, Tied
from .live import Control, Record
from .serving.ports import CONTROL, ROLES, Taken, free
from .stimulus import Volts, read_scenario

if TYPE_CHECKING:
    from .explaining.explanation import Explanation

__all__ = ["ProgramError", "Server", "find_program", "found"]
__tracebackhide__ = True  # pytest shows the line that calls the package, and not these frames
Itself = TypeVar("Itself", bound="Server")
# of a platform's wheel
IN_WHEEL = str(pathlib.Path(__file__).resolve().parent / "program/bin/scanvolt")
BUILT = ("crates/scanvolt/out/scanvolt", "out/unproved/scanvolt")  # in a checkout
# a server that nobody ends ends after this many sweeps, which take an hour at least
SWEEPS = 10**8
# tries to start a server: another process may take a free port before the server listens on it
TRIES = 5
PATIENCE = 30.0  # seconds that a program may take to answer, or to be ready
# bytes of a scenario for which a program with run-time checks may take one more second
READING = 10**5
MISSING = (
    "scanvolt isn't found: set SCANVOLT to its path, install the wheel that has it, put it on PATH, or build it in a "
    "checkout by `tools/serve BUILD=1`"
)
# A replay of these lines prints this, since the instrument has 128 channels.
PROBES, ANSWER = b"input 128 0\ninput 255 0\n", b"refused 8\n"
# what it says if it refuses a scenario, or can't read it
OF_SCENARIO = ("scanvolt: bad line", "scanvolt: input")
BAD_WORDS = {
    "scanvolt: bad words": "scanvolt: bad words; `man scanvolt` has the words that it takes"
}
HEARD_MOST = 65536  # bytes of what a program printed that are kept
SHOWN_MOST = 200  # characters of what a program printed that are shown
Name = Union[str, os.PathLike[str]]


class ProgramError(Exception):
    """The program is missing, ended, printed what it shouldn't, or doesn't fit this package."""


def find_program(start: Name | None = None) -> str:
    """The path of the program: what SCANVOLT says, else the one in the wheel of this package, else the one on PATH, else
    the one built in a checkout. `found` says which.

    The checkout is the one that contains `start`, else this package, else the working folder. Raises ProgramError.
    """
    return found(start)[0]


def found(start: Name | None = None) -> tuple[str, str]:
    """The path of the program, and where it was found: SCANVOLT, the wheel, PATH, or a checkout. Raises ProgramError."""
    if os.environ.get("SCANVOLT"):
        named = os.path.abspath(os.environ["SCANVOLT"])
        if not _runs(named):
            raise ProgramError(f"SCANVOLT names no program: {named}")
        return named, "SCANVOLT"
    if _runs(IN_WHEEL):
        return IN_WHEEL, "the wheel"
    on_path = shutil.which("scanvolt")
    if on_path is not None:
        return on_path, "PATH"
    for folder in _folders(start):
        for built in BUILT:
            if os.access(folder / built, os.X_OK):
                return str(folder / built), "a checkout"
    raise ProgramError(MISSING)


def _runs(path: str) -> bool:
    return os.path.isfile(path) and os.access(path, os.X_OK)


def _folders(start: Name | None) -> Iterable[pathlib.Path]:
    """Folders that may be the top of a checkout."""
    for place in (start, __file__, os.curdir):
        if place is None:
            continue
        resolved = pathlib.Path(place).resolve()
        yield from (resolved, *resolved.parents)


def free_ports(count: int) -> list[int]:
    """Ports of 127.0.0.1 that are free at this moment."""
    return list(free([0] * count))


def serve_command(
    program: str, scenario: str, sweeps: str, ports: Mapping[str, int], record: str | None
) -> list[str]:
    """The command line by which a program serves. `ports` has the port of each role."""
    command = [program, "serve", "--scenario=" + scenario, "--sweeps=" + sweeps]
    command += [f"--{role}={port}" for role, port in ports.items()]
    return command + ([] if record is None else ["--record=" + record])


def started(command: list[str], stdin: int = subprocess.DEVNULL, grace: float = GRACE) -> Tied:
    """Starts a program, which has this many seconds to end. Raises ProgramError if it can't be run."""
    try:
        return Tied(command, stdin, grace)
    except OSError as fault:
        raise ProgramError(f"the program can't be run: {command[0]}: {fault.strerror}") from None


def in_a_line(data: bytes) -> str:
    """A text in one line; of a long one, its start."""
    text = " ".join(data.decode("utf-8", "replace").split())
    return text if len(text) <= SHOWN_MOST else text[:SHOWN_MOST] + ".."


class _Heard:
    """What a program printed and wrote to standard error until it was `enough`, it ended, or the time was over."""

    def __init__(
        self, process: subprocess.Popen[bytes], seconds: float, enough: Callable[[bytes], bool]
    ) -> None:
        assert process.stdout is not None and process.stderr is not None
        self.process = process
        self._out, self._err = process.stdout.fileno(), process.stderr.fileno()
        self._told: dict[int, bytes] = {self._out: b"", self._err: b""}
        self._open: set[int] = {self._out, self._err}
        until = time.monotonic() + seconds
        while self._out in self._open and not enough(self._told[self._out]) and self._more(until):
            pass
        self.late = self._out in self._open and not enough(self._told[self._out])
        if not self.late and not enough(self._told[self._out]):  # its output ended; so should it
            until = time.monotonic() + 1
            while self._open and self._more(until):
                pass
        self.printed = self._told[self._out]

    def _more(self, until: float) -> bool:
        """Waits until a program prints something. Returns whether it did, or ended, by this time."""
        poll = select.poll()
        for number in self._open:
            poll.register(number, select.POLLIN)
        ready = poll.poll(max(0.0, 1000 * (until - time.monotonic())))
        for number, _ in ready:
            piece = os.read(number, 65536)
            self._told[number] = (self._told[number] + piece)[:HEARD_MOST]
            if not piece:
                self._open.discard(number)
        return bool(ready)

    def text(self) -> str:
        """What it wrote to standard error, or else what it printed, in one line."""
        return in_a_line(self._told[self._err] or self.printed)

    def ended(self) -> str:
        """How it ended. If it only closed its output, kills it."""
        if self._open:
            self.process.kill()
        status = self.process.wait()
        return f"it ended by signal {-status}" if status < 0 else f"it ended with status {status}"


# the programs that were found to fit: path, time and size
_fitting: set[tuple[str, int, int]] = set()


def check_fits(path: str) -> None:
    """Raises ProgramError unless the program at this path is a scanvolt that this package can use. Each program is
    asked once, unless its file changes.
    """
    found = shutil.which(path) or path  # a name is looked for on PATH, as it is when it is run
    try:
        status = os.stat(found)
    except OSError as fault:
        raise ProgramError(f"the program can't be run: {path}: {fault.strerror}") from None
    known = (os.path.abspath(found), status.st_mtime_ns, status.st_size)
    if known not in _fitting:
        how = _unlike(path)
        if how:
            release = ".".join(__version__.split(".")[:2])
            raise ProgramError(
                f"{path} isn't scanvolt {release}, or doesn't fit this package: {how}"
            )
        _fitting.add(known)


def _unlike(path: str) -> str:
    """How a program answers otherwise than this package expects; empty if it doesn't."""
    with started([path, "replay"], subprocess.PIPE, 0) as tied:
        assert tied.process.stdin is not None
        try:
            tied.process.stdin.write(PROBES)
            tied.process.stdin.close()
        except BrokenPipeError:
            pass
        heard = _Heard(tied.process, PATIENCE, lambda printed: not ANSWER.startswith(printed))
        if heard.late:
            return f"it says nothing for {PATIENCE:g} s"
        if not ANSWER.startswith(heard.printed):
            asked, answered, right = map(in_a_line, (PROBES, heard.printed, ANSWER))
            return f"to `{asked}` it answered `{answered}` and not `{right}`"
        how = heard.ended()
        if heard.process.returncode or heard.printed != ANSWER:
            return how + (": " + heard.text() if heard.text() else "")
        return ""


class Server:
    """`scanvolt serve` on ports of 127.0.0.1, with the scenario in a file or none. `close` ends it, and so do the end of a `with`
    block and the end of this process.

    `ports` are those of core, abort and port mapper, and of control if it has one; 0 is any free port, and without `ports` all are.
    With `control`, `set_input` and `external` change the inputs while it runs. `record` is the file that gets the session as a
    script; or True for a file that is gone when the server is closed.

    Raises ProgramError if the program doesn't serve, ValueError if a line of the scenario is bad, and OSError if the scenario
    can't be read, or the record can't be written.
    """

    _sweeps = SWEEPS

    def __init__(
        self,
        scenario: Name | None = None,
        program: Name | None = None,
        *,
        record: None | bool | Name = None,
        control: bool = False,
        ports: Sequence[int] | None = None,
    ) -> None:
        self.program = os.fspath(program) if program is not None else find_program()
        self.scenario = os.devnull if scenario is None else os.fspath(scenario)
        check_fits(self.program)
        self._roles = (*ROLES, CONTROL) if control else ROLES
        self._wanted = [0] * len(self._roles) if ports is None else list(ports)
        if len(self._wanted) != len(self._roles):
            raise ValueError(f"{len(self._roles)} ports are wanted, and not {len(self._wanted)}")
        self._record = Record(record)
        self._tied, listening = self._started()
        self.core, self.abort, self.port_mapper = listening[:3]
        self.control: int | None = listening[3] if control else None
        self._inputs = Control(listening[3]) if control else None
        self.process = self._tied.process

    def __enter__(self: Itself) -> Itself:
        return self

    def __exit__(self, kind: type[BaseException] | None, *_: object) -> None:
        self.close()

    def close(self) -> None:
        """Ends the program."""
        if self._inputs is not None:
            self._inputs.close()
        self._tied.end()
        self._record.end()

    @property
    def record(self) -> str | None:
        """The path of the record; None without one."""
        return self._record.path

    def set_input(self, channel: int, volts: Volts) -> None:
        """Sets the voltage of a channel, 1 to 128, as `Meter.set_input` does. The next call that the server reads finds it.

        Raises ControlError if the server doesn't answer, and ProgramError without `control`.
        """
        self._controlled().set_input(channel, volts)

    def external(self) -> None:
        """Fires the external trigger. Raises as `set_input` does."""
        self._controlled().external()

    def explain(self) -> Explanation:
        """What the instrument saw until now, told from the record by the server's own ports.

        Raises OSError if the record can't be read, and ProgramError without `record`.
        """
        if self.record is None:
            raise ProgramError(
                "this server keeps no record: start it by Server(record=True), or with the name of a file"
            )
        from .explaining.explanation import Explanation

        lines = self._record.lines(self._inputs, self.process.poll() is None)
        return Explanation(lines, self.program, ports=(self.core, self.abort))

    def _controlled(self) -> Control:
        if self._inputs is None:
            raise ProgramError("this server has no control port: start it by Server(control=True)")
        return self._inputs

    def _started(self) -> tuple[Tied, tuple[int, ...]]:
        """Starts a program and waits until it listens. Returns the program and its ports."""
        told = ""
        for _ in range(TRIES):
            try:
                ports = free(self._wanted)
            except Taken as fault:
                raise ProgramError(str(fault)) from None
            roles = dict(zip(self._roles, ports))
            tied = started(
                serve_command(self.program, self.scenario, str(self._sweeps), roles, self.record)
            )
            try:
                told = self._told(tied.process, f"ready {' '.join(map(str, ports))}\n")
            except BaseException:
                tied.end()
                raise
            if not told:
                return tied, ports
            tied.end()
            if told != "scanvolt: socket":  # with this message, another process took a port first
                break
        if told.startswith(OF_SCENARIO):
            read_scenario(self.scenario)  # raises the exception that explains it
        if told == "scanvolt: output":
            self._record.check()  # as well
        raise ProgramError(f"{self.program} doesn't serve: {told}")

    def _told(self, process: subprocess.Popen[bytes], ready: str) -> str:
        """Waits until a program prints that it is ready. Returns what it tells instead, or else nothing."""
        patience = PATIENCE + self._size() / READING
        heard = _Heard(process, patience, lambda printed: b"\n" in printed)
        if heard.printed == ready.encode():
            return ""
        if heard.late:
            but = ", but: " + heard.text() if heard.text() else ""
            return f"it didn't print `ready` within {patience:g} s{but}"
        if b"\n" in heard.printed:
            return f"it printed: {heard.text()}"
        how = heard.ended()
        return BAD_WORDS.get(heard.text(), heard.text()) or how

    def _size(self) -> int:
        """How many bytes the scenario has, as far as that can be known."""
        try:
            return os.stat(self.scenario).st_size
        except OSError:
            return 0
