"""clients PROGRAM : runs the clients of examples/ against `PROGRAM serve` and compares what each
prints with the stored file next to it, such as examples/scan.out for examples/scan.py.

First each client has a server of its own. Then all run twice, in another order, against one server
that has run for a while. Then it runs the PyVISA client of README.md, runs the tests of
examples/driver, which start their own servers, and compares each stored scenario with what the
command in its README writes. At last, the sessions of the clients are captured, replayed, made again
in virtual time, and compared byte by byte (tools/captured); and lxi has to find an instrument whose
ports scanvolt-portmap registered with rpcbind (tools/discovered).

Each server keeps a record, and dumpcap captures what its sockets take. Once it has ended, a replay of
the record has to send these bytes, on each connection and each interrupt channel.

All this runs in a network namespace where nothing else listens, so that the port mapper can have
port 111. It needs root, or a system that gives user namespaces to all users. It installs nothing,
and builds in a temporary folder.
Status: 0 all print what is stored, 1 a client doesn't or a check fails, 2 they can't be run.
"""
import contextlib
import difflib
import os
import pathlib
import re
import signal
import subprocess
import sys
import tempfile
import time
from collections.abc import Iterator, Sequence

from scanvolt.program import ProgramError, Server

from ..repository import TOP as HERE
from ..runnable import runs
from .capture import Failed, captured, network, with_system_tools

TOP = pathlib.Path(HERE)
EXAMPLES = TOP / "examples"
PYTHON = "/usr/bin/python3"  # Debian's own alone sees Debian's packages
CORE, ABORT = 4096, 4097
MOST, AGE = 60, 12  # seconds that a client may take, and after which clients use the shared server
LONGEST = 300  # seconds that a check may take
# Debian's packages, and how it is seen that they are there. Of the documents, which make clients types next, curl.
NEEDED: Sequence[tuple[str, list[str]]] = (
    ("python3-pyvisa", [PYTHON, "-c", "import pyvisa"]),
    ("python3-pyvisa-py", [PYTHON, "-c", "import pyvisa_py"]),
    ("python3-pytest", [PYTHON, "-c", "import pytest"]),
    ("lxi-tools", ["which", "lxi"]),
    ("rpcsvc-proto", ["which", "rpcgen"]),
    ("libtirpc-dev", ["test", "-e", "/usr/include/tirpc/rpc/rpc.h"]),
    ("gcc", ["which", "cc"]),
    ("iproute2", ["which", "ip"]),
    ("tshark", ["which", "tshark"]),
    ("rpcbind", ["which", "rpcbind"]),
    ("curl", ["which", "curl"]),
)
# rpcgen's own files have variables that they don't use.
BUILD = """cp '{examples}/vxi11.x' '{examples}/service_request.c' . && rpcgen vxi11.x &&
cc -O -Wall -Wno-unused-variable -I/usr/include/tirpc -o service_request service_request.c vxi11_clnt.c vxi11_xdr.c -ltirpc"""


class Trial:
    """The clients of a program, and how many of them print what they should."""

    def __init__(self, program: str, folder: str) -> None:
        self.program = program
        self.folder = pathlib.Path(folder)
        self.commands: dict[str, list[str]] = {
            "scan": [PYTHON, str(EXAMPLES / "scan.py")],
            "service_request": [str(self.folder / "service_request")],
            "identify": [str(EXAMPLES / "identify.sh")],
        }
        self.same = self.count = 0

    @contextlib.contextmanager
    def served(self, name: str, port_mapper: int) -> Iterator[Server]:
        """Serves, and captures. Then checks that the record replays with the bytes that the sockets took."""
        session = self.folder / "session.pcapng"
        with captured(session):
            with Server(
                EXAMPLES / "bench.scenario",
                self.program,
                ports=(CORE, ABORT, port_mapper),
                record=self.folder / "session.replay",
            ) as server:
                yield server
                time.sleep(1)  # the last sweeps are written
        told = self.passes(
            name + "_recorded",
            [
                str(TOP / "tools/capture"),
                "recorded",
                str(session),
                "--program",
                self.program,
                "--core",
                str(CORE),
                "--abort",
                str(ABORT),
                "--portmap",
                str(port_mapper),
                "--record",
                str(self.folder / "session.replay"),
            ],
        )
        print("".join(told.splitlines(True)[-1:]), end="")

    def client(self, server: Server, name: str, *words: str) -> None:
        """Runs a client, compares and counts."""
        self.count += 1
        wanted = (EXAMPLES / (name + ".out")).read_text()
        try:
            done = subprocess.run(
                [*self.commands[name], *words],
                stdout=subprocess.PIPE,
                stderr=subprocess.PIPE,
                text=True,
                timeout=MOST,
            )
            ended, printed, said = f"status {done.returncode}", done.stdout, done.stderr
        except subprocess.TimeoutExpired as fault:
            ended, printed, said = (
                f"it takes more than {MOST} s",
                text_of(fault.stdout),
                text_of(fault.stderr),
            )
        if server.process.poll() is not None:
            print(f"{name}: the server ended")
        elif ended != "status 0":
            print(f"{name}: {ended}")
        elif printed != wanted:
            print(f"{name}: differs from what is stored")
        else:
            print(f"{name}: as stored")
            self.same += 1
            return
        lines = difflib.unified_diff(
            wanted.splitlines(), printed.splitlines(), name + ".out", "printed", lineterm=""
        )
        print("\n".join([*lines, said]))

    def passes(self, name: str, command: list[str], **more: str) -> str:
        """Runs a check that passes if its status is 0. Returns what it prints."""
        self.count += 1
        try:
            done = subprocess.run(
                command,
                stdout=subprocess.PIPE,
                stderr=subprocess.STDOUT,
                cwd=TOP,
                env=dict(os.environ, **more),
                timeout=LONGEST,
            )
            passed, printed = done.returncode == 0, text_of(done.stdout)
        except subprocess.TimeoutExpired as fault:
            passed, printed = False, text_of(fault.stdout) + f"it takes more than {LONGEST} s\n"
        self.same += passed
        told = "passes" if passed else "fails\n" + printed.rstrip()
        print(f"{name}: {told}", flush=True)
        return printed

    def alone(self, name: str, port_mapper: int) -> None:
        """Runs a client with a server of its own."""
        with self.served(name, port_mapper) as server:
            self.client(server, name)

    def together(self) -> None:
        """Runs all clients twice with one server, which has run for a while."""
        more = {"service_request": [str(CORE)], "scan": ["111", "127.0.0.1"]}
        with self.served("all", 111) as server:
            time.sleep(AGE)
            for name in (
                "identify",
                "service_request",
                "scan",
                "identify",
                "scan",
                "service_request",
            ):
                self.client(server, name, *more.get(name, []))

    def all(self) -> int:
        """Runs all clients and checks. Returns the status."""
        print("each with a server of its own:", flush=True)
        self.alone("scan", 4111)
        self.alone("service_request", 4111)
        self.alone("identify", 111)
        print(f"with one server, {AGE} seconds after its start:", flush=True)
        self.together()
        with self.served("first_page", 4111):
            self.passes("first_page", ["sh", "-c", first_page((TOP / "README.md").read_text())])
        self.passes(
            "tests",
            [PYTHON, "-m", "pytest", "-q", "-p", "no:cacheprovider", str(EXAMPLES / "driver")],
            SCANVOLT=self.program,
            PYTHONDONTWRITEBYTECODE="1",
        )
        documents = [EXAMPLES / "README.md", EXAMPLES / "driver/README.md"]
        self.passes(
            "scenarios",
            ["sh", "-eux", "-c", scenarios("".join(path.read_text() for path in documents))],
        )
        for name, command in (
            ("scan", [*self.commands["scan"], "111", "127.0.0.1"]),
            ("service_request", self.commands["service_request"]),
            ("identify", self.commands["identify"]),
        ):
            self.passes(name + "_captured", [str(TOP / "tools/captured"), self.program, *command])
        self.passes("discovered", [str(TOP / "tools/discovered"), self.program])
        print(f"clients: {self.same} of {self.count} are as stored, or pass")
        return 0 if self.same == self.count else 1


def text_of(printed: object) -> str:
    """What a command printed before its time was over."""
    return printed.decode(errors="replace") if isinstance(printed, bytes) else str(printed or "")


def first_page(readme: str) -> str:
    """A script that runs the PyVISA client of README.md, and compares what it prints with the line that follows it there."""
    client = re.search(
        r"^\$ (/usr/bin/python3 -c '(.*\n)*?.*'\n)(SCANVOLT.*\n)", readme, flags=re.M
    )
    if client is None:
        return "echo README.md has no client of PyVISA; exit 1"
    command, wanted = client.group(1).rstrip("\n"), client.group(3)
    return (
        f"wanted=$(cat <<'WANTED'\n{wanted}WANTED\n)\nfound=$({command})\n"
        '[ "$found" = "$wanted" ] || { echo "$found"; exit 1; }'
    )


def scenarios(documents: str) -> str:
    """A script that runs each command of the documents that writes a scenario, and compares it with the stored file."""
    found = re.findall(r"^\$ (tools/scenario .*) > (.*)", documents.replace("\\\n", ""), flags=re.M)
    if len(found) != 2:
        return f"echo {len(found)} commands write scenarios; exit 1"
    return "\n".join(f"{command} | cmp - {stored}" for command, stored in found)


def main(words: list[str]) -> int:
    for number in (signal.SIGTERM, signal.SIGHUP):
        signal.signal(number, lambda *_: sys.exit(2))
    with_system_tools()
    if words[:1] == ["--inside"]:
        subprocess.run(["ip", "link", "set", "lo", "up"], check=True)
        try:
            return Trial(*words[1:]).all()
        except (Failed, ProgramError, OSError) as fault:
            print(f"clients: {fault}", file=sys.stderr)
            return 2
    if len(words) != 1:
        print("clients: usage: clients PROGRAM", file=sys.stderr)
        return 2
    if not runs(words[0]):
        return 2
    missing = [
        name for name, command in NEEDED if subprocess.run(command, capture_output=True).returncode
    ]
    if missing:
        print("clients: these Debian packages are missing: " + " ".join(missing), file=sys.stderr)
        return 2
    alone = network()
    if alone is None:
        print(
            "clients: no network namespace can be made: it needs root, or user namespaces for all",
            file=sys.stderr,
        )
        return 2
    with tempfile.TemporaryDirectory(prefix="clients.") as folder:
        built = subprocess.run(
            ["sh", "-c", BUILD.format(examples=EXAMPLES)],
            cwd=folder,
            stdout=subprocess.PIPE,
            stderr=subprocess.STDOUT,
            text=True,
        )
        if built.returncode:
            print(built.stdout + "clients: the example in C isn't built", file=sys.stderr)
            return 2
        return subprocess.run(
            [*alone, str(TOP / "tools/clients"), "--inside", os.path.abspath(words[0]), folder]
        ).returncode
