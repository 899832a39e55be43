"""discovered PROGRAM : checks that `lxi` finds an instrument whose ports `scanvolt-portmap` registered with Debian's rpcbind.

All runs in namespaces of network, mounts and processes where nothing else runs, so it needs root. It needs Debian's
packages rpcbind, lxi-tools, iproute2 and util-linux.
Status: 0 lxi finds it by port 111, and no longer after scanvolt-portmap has ended; 1 it doesn't; 2 it can't be tried.
"""
import os
import shutil
import signal
import subprocess
import sys

from scanvolt.program import ProgramError, Server

from ..repository import TOP
from ..runnable import runs
from .capture import with_system_tools

PORTS = (5096, 5097, 5111)
NAME = "SCANVOLT,SV32,0,1.0"
FOUND = f'Found "{NAME}" on address 127.0.0.1'
READY = f"ready: core {PORTS[0]}, abort {PORTS[1]}"
REGISTER = [sys.executable, "-B", "-m", "scanvolt.portmap"]
OF_OURS = ["--core", str(PORTS[0]), "--abort", str(PORTS[1])]
PACKAGES = "rpcbind lxi ip unshare".split()
MOST = 30  # seconds that a command may take


class Wrong(Exception):
    """Something isn't as it should be."""


def ran(*command: str) -> tuple[int, str]:
    """The status of a command, and what it prints."""
    done = subprocess.run(
        command,
        stdout=subprocess.PIPE,
        stderr=subprocess.STDOUT,
        text=True,
        timeout=MOST,
        env=dict(os.environ, PYTHONPATH=TOP + "/python"),
    )
    return done.returncode, done.stdout


def done(*command: str) -> str:
    """What a command prints, whose status has to be 0."""
    status, told = ran(*command)
    if status:
        raise Wrong(f"{' '.join(command)}: status {status}: {told}")
    return told


def inside(program: str) -> None:
    """What runs in the namespaces. Its processes end with them."""
    done("mount", "-t", "tmpfs", "none", "/run")
    os.mkdir("/run/rpcbind")
    done("ip", "link", "set", "lo", "up")
    status, told = ran(*REGISTER, *OF_OURS)
    if status != 2 or "no port mapper answers" not in told:
        raise Wrong(f"without rpcbind: status {status}")
    done("rpcbind", "-w")
    with Server(program=program, ports=PORTS):
        registrar = subprocess.Popen(
            [*REGISTER, *OF_OURS],
            stdout=subprocess.PIPE,
            text=True,
            env=dict(os.environ, PYTHONPATH=TOP + "/python"),
        )
        assert registrar.stdout is not None
        line = registrar.stdout.readline()
        if not line.startswith(READY):
            raise Wrong(f"scanvolt-portmap prints {line!r}")
        told = done("lxi", "discover", "-t", "2")
        if FOUND not in told:
            raise Wrong("lxi discovers none: " + told)
        if done("lxi", "scpi", "--address", "127.0.0.1", "*IDN?").strip() != NAME:
            raise Wrong("lxi gets another name")
        status, told = ran(*REGISTER)
        if status != 1 or f"at port {PORTS[0]};" not in told:
            raise Wrong(f"a second registration: status {status}")
        registrar.send_signal(signal.SIGTERM)
        if registrar.wait(MOST):
            raise Wrong(f"scanvolt-portmap ends with status {registrar.returncode}")
        if str(PORTS[0]) in ran("rpcinfo", "-p", "127.0.0.1")[1]:
            raise Wrong("the registration stays")
    print(
        "discovered: lxi finds it by port 111 of rpcbind, and no longer after scanvolt-portmap has ended"
    )


def main(words: list[str]) -> int:
    with_system_tools()
    if words[:1] == ["--inside"]:
        try:
            inside(words[1])
        except (Wrong, ProgramError, OSError, subprocess.TimeoutExpired) as fault:
            print(f"discovered: {fault}", file=sys.stderr)
            return 1
        return 0
    if len(words) != 1:
        print("discovered: usage: discovered PROGRAM", file=sys.stderr)
        return 2
    if not runs(words[0]):
        return 2
    for one in PACKAGES:
        if shutil.which(one) is None:
            print(
                f"discovered: {one} is missing: Debian's rpcbind, lxi-tools, iproute2, util-linux",
                file=sys.stderr,
            )
            return 2
    here = [TOP + "/tools/discovered", "--inside", os.path.abspath(words[0])]
    os.execvp("unshare", ["unshare", "--net", "--mount", "--pid", "--fork", "--kill-child", *here])
