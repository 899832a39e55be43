"""A server that is attacked."""
import os
import pathlib
import shlex
import subprocess
import sys
import time
from collections.abc import Iterable, Sequence

from measures import Found

from scanvolt import program
from scanvolt.vxi11 import words

from ..repository import TOP
from .calls import Lost
from .recorded import compare

HERE = os.path.dirname(os.path.abspath(__file__))
PROVED = TOP + "/crates/scanvolt/out/scanvolt"
# Becomes the program. If that serves, its descriptors may be limited, and libraries are loaded before those of the program.
# What passes on the control port isn't compared: floods of it would fill a disk.
BECOMES = """#!/bin/sh
[ "$1" = serve ] || exec {program} "$@"
{limit}
for word; do
    [ "$before" != --control ] || export TAP_WITHOUT="$word"
    before=$word
done
export TAP={tap} LD_PRELOAD={libraries}
exec {program} "$@"
"""


def whose_aims(name: str) -> str | None:
    """What has to be said about the aims if this program is measured; nothing if it is the proved one."""
    if os.path.realpath(name) == os.path.realpath(PROVED):
        return None
    with open(name, "rb") as file:
        checked = b"__asan_" in file.read()
    what = "is built with run-time checks" if checked else "may be another"
    return f"the aims are of the proved program; {name} {what}"


def told(tool: str, missed: Iterable[str]) -> int:
    """Prints the values that miss their aims. Returns the status."""
    status = 0
    for what in missed:
        print(f"{tool}: beyond its aim: {what}", flush=True)
        status = 3
    return status


class Server(program.Server):
    """The running server, and what the system says about it. `folder` has its scenario, which is empty, its record
    and what is done with its sockets (tap.c). `found` takes what is measured. `libraries` are loaded before those of
    the program. If `descriptors` is given, it has at most so many.
    """

    _sweeps = 2**32 - 1

    def __init__(
        self,
        name: str,
        folder: str,
        found: Found,
        libraries: Sequence[str] = (),
        descriptors: int | None = None,
    ) -> None:
        self.given, self.folder = name, pathlib.Path(folder)
        (self.folder / "scenario").write_text("")
        preloaded = ":".join([*libraries, library("tap", folder)])
        becomes = becoming(name, self.folder, preloaded, descriptors)
        self.found = found
        self.refusals: tuple[int, ...] = ()  # errors that calls may return under a limit
        try:
            super().__init__(
                self.folder / "scenario", becomes, record=self.folder / "record", control=True
            )
        except program.ProgramError as fault:
            raise Lost(str(fault)) from None
        assert self.control is not None
        self.control_port = self.control
        self.ports = self.core, self.abort, self.port_mapper

    def outcomes(self, error: int) -> list[bytes]:
        """The results that a create_intr_chan may have if it should return this error."""
        return [words(error)] + [words(other) for other in self.refusals]

    def alive(self) -> bool:
        return self.process.poll() is None

    def memory(self) -> int:
        """The resident memory in KiB."""
        with open(f"/proc/{self.process.pid}/status") as status:
            return next(int(line.split()[1]) for line in status if line.startswith("VmRSS:"))

    def descriptors(self) -> int:
        """How many file descriptors the process has."""
        return len(os.listdir(f"/proc/{self.process.pid}/fd"))

    def seconds(self) -> float:
        """How many seconds of processor time it has used so far."""
        with open(f"/proc/{self.process.pid}/stat") as stat:
            fields = stat.read().rsplit(")", 1)[1].split()
        return (int(fields[11]) + int(fields[12])) / os.sysconf("SC_CLK_TCK")

    def share(self, seconds: float) -> float:
        """The share of a core, in percent, that it uses during this many seconds."""
        used, begun = self.seconds(), time.monotonic()
        time.sleep(seconds)
        return 100 * (self.seconds() - used) / (time.monotonic() - begun)

    def close(self) -> None:
        """Ends the server. If it has ended before, passes on what it wrote to standard error."""
        said = self.process.stderr
        if said is not None and not said.closed and not self.alive():
            sys.stderr.write(said.read().decode(errors="replace"))
        super().close()

    def compare(self) -> str:
        """Ends the server, and compares the record with what its sockets took. Returns what was compared."""
        time.sleep(1)  # the last sweeps are written
        self.close()
        return compare(self.given, self.folder, self.ports)


def becoming(
    name: str, folder: pathlib.Path, libraries: str, descriptors: int | None
) -> pathlib.Path:
    """Writes a script that becomes the program, into the folder. Returns its path."""
    script = folder / "becomes"
    script.write_text(
        BECOMES.format(
            program=shlex.quote(name),
            limit="" if descriptors is None else f"ulimit -n {descriptors}",
            tap=shlex.quote(str(folder / "tap")),
            libraries=shlex.quote(libraries),
        )
    )
    script.chmod(0o755)
    return script


def library(name: str, folder: str) -> str:
    """Makes the library of this name, whose source is beside this file, in the folder. Returns its path."""
    made = os.path.join(folder, name + ".so")
    subprocess.run(
        ["cc", "-O2", "-shared", "-fPIC", "-o", made, os.path.join(HERE, name + ".c"), "-ldl"],
        check=True,
    )
    return made
