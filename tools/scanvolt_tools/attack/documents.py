"""documents PROGRAM [FILE..] : types the commands of the documents and compares what they print.

A command is a line of a fenced block that begins with `$ `. The lines below it are what it prints. `..` alone on
a line means any number of lines. If a command has no lines below it, only its status is checked, which has to be
0. A command continues on the next line if a quote is open or a backslash ends the line. The commands of a block
are run one after the other, each in the folder to which those before it changed, the first at the top of the
repository.

A server, and a capture by tshark, run in the background: until the next one starts, or until the end of the
document. `make serve`, crates/scanvolt/out/scanvolt and `scanvolt` mean PROGRAM. The first lines of such a server,
which say that it is built, may be missing. A token is another one each time: what the background prints is taken
for the one in the document. All commands run in a network namespace where nothing else listens, so this
needs root, or user namespaces for all users. Folders that a command makes in /tmp are removed afterwards.
Commands that no script can run are listed below; they are printed with the reason.

Status: 0 all commands print what the documents say, 1 some don't, each with its first difference, 2 it can't run.
"""
import difflib
import os
import re
import shutil
import signal
import subprocess
import sys
import tempfile
import time
from collections.abc import Iterable, Sequence

from ..repository import TOP
from ..runnable import runs

DOCUMENTS = (
    "README.md",
    "examples/README.md",
    "examples/driver/README.md",
    "docs/INSTRUMENT.md",
    "docs/PANEL.md",
    "python/README.md",
)
BUILT = "crates/scanvolt/out/scanvolt"
PATIENCE = 900  # seconds of a command, such as all tests on a busy machine, and of `make serve`, which may build
SOON = 20  # seconds within which another server has to listen
# What runs in the background; and commands that aren't run, with the reason.
BACKGROUND = re.compile(r"make serve\b|\bscanvolt serve\b|-m scanvolt\.panel\b|^tshark -i\b")
TOKEN = re.compile(r"\btoken=[\w-]{16,}")
UNTYPED = (
    (r"\b(apt(-get)?|pip) install\b", "it installs packages"),
    (r"^make (test|check|scanvolt|install|dist)\b|PROVED=1", "it proves, for an hour at first"),
    (r"^make (bench|hostile)\b", "it measures, for minutes"),
    (r"^make clients\b", "it calls this tool"),
    (r"\b(sudo|sysctl|unshare|nsenter|ip netns|systemctl|dpkg)\b", "it needs the machine's root"),
)


class Command:
    """A command of a document: its line there, and the lines below it."""

    def __init__(self, place: str, text: str) -> None:
        self.place = place
        self.text = text
        self.lines: list[str] = []


def is_whole(text: str) -> bool:
    """Whether a command is complete; if not, it continues on the next line."""
    told = subprocess.run(["bash", "-n", "-c", text], capture_output=True, text=True, check=False)
    return not text.endswith("\\") and "unexpected" not in told.stderr


def blocks(text: str, name: str) -> list[list[Command]]:
    """The fenced blocks of a document that have commands."""
    found: list[list[Command]] = []
    block: list[Command] | None = None
    whole = True
    for number, line in enumerate(text.splitlines(), 1):
        if line.startswith("```"):
            if block:
                found.append(block)
            block = [] if block is None else None
        elif block and not whole:
            block[-1].text += "\n" + line
            whole = is_whole(block[-1].text)
        elif block is not None and line.startswith("$ "):
            block.append(Command(f"{name}:{number}", line[2:]))
            whole = is_whole(block[-1].text)
        elif block:
            block[-1].lines.append(line)
    return found


def fits(lines: Sequence[str], printed: Iterable[str]) -> bool:
    """Whether the output is what the document says, where `..` means any lines, and a token any token."""
    pattern = "".join(
        "(?:.*\n)*?"
        if line == ".."
        else TOKEN.pattern.join(map(re.escape, TOKEN.split(line))) + "\n"
        for line in lines
    )
    return re.fullmatch(pattern, "".join(line + "\n" for line in printed)) is not None


def reason(text: str) -> str | None:
    """Why a command isn't run; None if it is."""
    return next((why for pattern, why in UNTYPED if re.search(pattern, text)), None)


class Typist:
    """Types the commands of a document."""

    def __init__(self, program: str, folder: str) -> None:
        self.program = program
        self.folder = folder
        os.mkdir(folder + "/bin")
        os.symlink(program, folder + "/bin/scanvolt")
        path = f"{folder}/bin:{os.environ['PATH']}"
        self.environment = dict(
            os.environ, SERVER=program, SCANVOLT=program, LC_ALL="C.UTF-8", PATH=path
        )
        for name in ("MAKEFLAGS", "MAKELEVEL", "MFLAGS", "MAKEOVERRIDES"):
            self.environment.pop(
                name, None
            )  # this make's variables would change what a command does
        self.background: subprocess.Popen[bytes] | None = None
        self.token: str | None = None  # that the command in the background printed last
        self.typed = 0
        self.left: list[str] = []  # commands that weren't typed, with the reason
        self.faults = 0

    def type_all(self, name: str, text: str) -> None:
        """Types a document."""
        for block in blocks(text, name):
            cwd = TOP
            made: list[str] = []
            for command in block:
                cwd = self.type_one(command, cwd, made)
            for path in made:
                shutil.rmtree(path, ignore_errors=True)
        self.stop()

    def type_one(self, command: Command, cwd: str, made: list[str]) -> str:
        """Runs a command in this folder. Returns the folder after it."""
        why = reason(command.text)
        for path in re.findall(r"\bmkdir (?:-p )?(/tmp/[\w./-]+)", command.text):
            if os.path.exists(path):
                why = why or path + " exists"
            else:
                made.append(path)
        if why:
            self.left.append(f"{command.place}: $ {command.text}: {why}")
            return cwd
        self.typed += 1
        text = command.text.replace(BUILT, self.program) if cwd == TOP else command.text
        text = TOKEN.sub(self.token, text) if self.token else text
        if BACKGROUND.search(command.text):
            self.start(command, text, cwd)
            return cwd
        return self.run(command, text, cwd)

    def run(self, command: Command, text: str, cwd: str) -> str:
        """Runs a command to its end."""
        behind = os.path.join(self.folder, "cwd")
        script = f"{text}\nstatus=$?\npwd > {behind}\nexit $status"
        with open(os.path.join(self.folder, "printed"), "w+b") as printed:
            child = subprocess.Popen(
                ["bash", "-c", script],
                cwd=cwd,
                env=self.environment,
                stdin=subprocess.DEVNULL,
                stdout=printed,
                stderr=subprocess.STDOUT,
                start_new_session=True,
            )
            status = "0"
            try:
                status = str(child.wait(PATIENCE))
            except subprocess.TimeoutExpired:
                status = f"none within {PATIENCE} seconds"
            finally:
                if child.poll() is None:
                    end(child)
            printed.seek(0)
            lines = printed.read().decode(errors="replace").splitlines()
        if status != "0":
            self.fault(command, f"status {status}", lines)
        elif command.lines and not fits(command.lines, lines):
            self.fault(command, "it prints something else", lines)
        try:
            with open(behind) as place:
                return place.read().strip()
        except OSError:
            return cwd

    def start(self, command: Command, text: str, cwd: str) -> None:
        """Starts a command in the background, and waits until it has printed what the document says."""
        self.stop()
        path = os.path.join(self.folder, "background")
        with open(path, "wb") as printed:
            self.background = subprocess.Popen(
                ["bash", "-c", text],
                cwd=cwd,
                env=self.environment,
                stdin=subprocess.DEVNULL,
                stdout=printed,
                stderr=subprocess.STDOUT,
                start_new_session=True,
            )
        most = PATIENCE if "make serve" in command.text else SOON
        until = time.monotonic() + (most if command.lines else 1)
        lines: list[str] = []
        while time.monotonic() < until and self.background.poll() is None:
            with open(path, errors="replace") as printed:
                lines = printed.read().splitlines()
            # PROGRAM exists already, so the first lines, which say that it is built, may be missing.
            if any(fits(command.lines[count:], lines) for count in range(len(command.lines))):
                found = TOKEN.search("\n".join(lines))
                self.token = found.group() if found else None
                return
            # It listens, but printed something else before.
            if command.lines and command.lines[-1] in lines:
                break
            time.sleep(0.05)
        if command.lines or self.background.poll() is not None:
            self.fault(command, "it prints something else, or ended", lines)

    def stop(self) -> None:
        """Ends the command in the background."""
        if self.background is not None:
            end(self.background)
            self.background = None

    def fault(self, command: Command, what: str, lines: Sequence[str]) -> None:
        """Prints a difference."""
        self.faults += 1
        print(f"{command.place}: $ {command.text}: {what}", flush=True)
        for line in list(
            difflib.unified_diff(command.lines, lines, "the document", "printed", lineterm="")
        )[:20]:
            print("  " + line)


def end(child: subprocess.Popen[bytes]) -> None:
    """Ends a process that this tool started, and the processes that it started."""
    for number in (signal.SIGTERM, signal.SIGKILL):
        try:
            os.killpg(child.pid, number)
        except ProcessLookupError:
            break
        try:
            child.wait(5)
            break
        except subprocess.TimeoutExpired:
            pass
    child.wait()


def enter(words: list[str]) -> int:
    """Continues in a network namespace."""
    for kind in (["--net"], ["--user", "--map-root-user", "--net"]):
        command = ["unshare"] + kind
        if subprocess.run(command + ["true"], capture_output=True, check=False).returncode == 0:
            os.execvp("unshare", command + [TOP + "/tools/documents", "--inside"] + words)
    print("documents: no network namespace can be made: it needs root", file=sys.stderr)
    return 2


def main(words: list[str]) -> int:
    signal.signal(signal.SIGTERM, lambda *_: sys.exit(2))
    if words[:1] != ["--inside"]:
        if not words:
            print("usage: documents PROGRAM [FILE..]", file=sys.stderr)
            return 2
        if not runs(words[0]):
            return 2
        return enter([os.path.abspath(words[0])] + words[1:])
    subprocess.run(["ip", "link", "set", "lo", "up"], check=True)
    with tempfile.TemporaryDirectory(prefix="documents.") as folder:
        typist = Typist(words[1], folder)
        try:
            for name in words[2:] or DOCUMENTS:
                path = os.path.join(TOP, name)
                if os.path.exists(path):
                    with open(path, encoding="utf-8") as text:
                        typist.type_all(name, text.read())
        finally:
            typist.stop()
    for line in typist.left:
        print("documents: not typed: " + line)
    print(f"documents: {typist.typed} commands typed, {typist.faults} differ")
    return 1 if typist.faults else 0
