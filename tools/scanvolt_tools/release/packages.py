"""packages [ROOT] : checks that the files that `make dist` left in dist/ can be installed, serve, and can be removed.

The archive is unpacked in a temporary folder. The Debian packages are installed by dpkg in ROOT, and purged at the end; that
needs root. ROOT has to be a clean root such as `debootstrap --variant=minbase bookworm ROOT` makes, with python3-pytest,
python3-pyvisa, python3-pyvisa-py, python3-pytest-xdist and python3-venv installed in it. There pytest runs the tests of
examples/driver, and the commands print their help. pip installs the wheel that has the program in a virtual environment of
ROOT, without an index; there run the first example of python/README.md, and its example of pytest by four workers. Without
ROOT, the Debian packages are unpacked in a temporary folder too.
Each program serves on free ports, answers a client with its name, and replays examples/identity.replay. The sdist makes the
same wheel, byte for byte; the wheel's package runs the program, and the other wheel's the one inside. If lintian is
installed, it must find no error and no warning in the Debian packages.
Status: 0 all is well, 1 something isn't, and is printed, 2 the packages can't be tried.
"""
import hashlib
import os
import pathlib
import re
import shlex
import shutil
import subprocess
import sys
import tempfile
import zipfile
from collections.abc import Callable, Iterable, Iterator, Sequence
from typing import Any

from scanvolt.program import ProgramError, Server
from scanvolt.vxi11 import Client, RpcError

from ..repository import TOP as HERE

TOP = pathlib.Path(HERE)
DIST = TOP / "dist"
SHARED = [
    "share/man/man1/scanvolt.1",
    "share/scanvolt/VERSION",
    "share/scanvolt/bench.scenario",
    "share/scanvolt/scan.replay",
    "share/doc/scanvolt/INSTRUMENT.md",
    "share/doc/scanvolt/STEPS.md",
    "share/doc/scanvolt/pictures/status-model.svg",
    "share/doc/scanvolt/KIT",
]
ARCHIVED = ["bin/scanvolt", "share/doc/scanvolt/LICENSE"] + SHARED
PACKAGED = [
    "usr/bin/scanvolt",
    "etc/scanvolt/bench.scenario",
    "usr/share/doc/scanvolt/copyright",
    "usr/share/doc/scanvolt/changelog",
    "usr/lib/systemd/system/scanvolt.service",
] + ["usr/" + name for name in SHARED]
COMMANDS = [
    "scanvolt-" + name
    for name in ("capture", "coverage", "explain", "panel", "portmap", "scenario", "serve")
]
MODULES = "usr/lib/python3/dist-packages/"
PYTHON = [MODULES + name for name in ("scanvolt/vxi11/rpc.py", "pyvisa_scanvolt/__init__.py")] + [
    place % name for name in COMMANDS for place in ("usr/bin/%s", "usr/share/man/man1/%s.1")
]
# What has to be installed in ROOT besides the packages.
WANTED = {
    "python3-pytest": "pytest",
    "python3-pyvisa": "pyvisa",
    "python3-pyvisa-py": "pyvisa_py",
    "python3-pytest-xdist": "xdist",
    "python3-venv": "ensurepip",
}
Path = str | pathlib.Path
Trial = Callable[[pathlib.Path, pathlib.Path], None]


class Wrong(Exception):
    """Something isn't as it should be."""


class Lacking(Exception):
    """Why the packages can't be tried."""


def tried(program: str, scenario: str) -> None:
    """Serves and replays with this program. The client asks the port mapper."""
    try:
        with Server(scenario, program) as server, Client(
            port_mapper=server.port_mapper
        ) as client, client.create_link() as link:
            name = link.query("*IDN?")
    except (OSError, RpcError, ProgramError) as fault:
        raise Wrong(f"it doesn't answer a client: {fault}") from None
    if name != "SCANVOLT,SV32,0,1.0":
        raise Wrong(f"its name is {name!r}")
    script = (TOP / "examples/identity.replay").read_bytes()
    replay = subprocess.run([program, "replay"], input=script, stdout=subprocess.PIPE)
    if replay.returncode or replay.stdout != (TOP / "crates/scanvolt/stdout").read_bytes():
        raise Wrong("its replay of examples/identity.replay differs from crates/scanvolt/stdout")


def present(folder: pathlib.Path, names: Sequence[str]) -> None:
    for name in names:
        if not (folder / name).is_file() and not (folder / (name + ".gz")).is_file():
            raise Wrong(f"there is no {name}")


def run(*words: Path, **options: Any) -> str:
    """Runs a command, whose status has to be 0. Returns what it prints."""
    done = subprocess.run(
        words, stdout=subprocess.PIPE, stderr=subprocess.STDOUT, text=True, **options
    )
    if done.returncode:
        raise Wrong(f"{' '.join(map(str, words))}: {done.stdout}")
    printed: str = done.stdout
    return printed


def archive(path: pathlib.Path, folder: pathlib.Path) -> None:
    run("tar", "-xzf", path, "-C", folder, "--strip-components=1")
    present(folder, ARCHIVED)
    tried(str(folder / "bin/scanvolt"), str(folder / "share/scanvolt/bench.scenario"))
    print(f"{path.name}: it serves")


def unpacked(path: pathlib.Path, folder: pathlib.Path) -> None:
    run("dpkg-deb", "-x", path, folder)
    present(folder, PACKAGED)
    tried(str(folder / "usr/bin/scanvolt"), str(folder / "etc/scanvolt/bench.scenario"))
    print(f"{path.name}: unpacked, it serves")


def unpacked_python(path: pathlib.Path, folder: pathlib.Path) -> None:
    run("dpkg-deb", "-x", path, folder)
    present(folder, PYTHON)
    for name in COMMANDS:
        run(
            sys.executable,
            folder / "usr/bin" / name,
            "--help",
            env=dict(os.environ, PYTHONPATH=str(folder / MODULES)),
        )
    print(f"{path.name}: unpacked, its commands run")


def wheel(path: pathlib.Path, folder: pathlib.Path) -> None:
    """Checks that the wheel's package runs the program of the archive in virtual time."""
    with zipfile.ZipFile(path) as packed:
        packed.extractall(folder)
    run(
        "tar",
        "-xzf",
        next(DIST.glob("scanvolt-*-x86_64.tar.gz")),
        "-C",
        folder,
        "--strip-components=1",
    )
    script = (
        "import scanvolt; from scanvolt.virtual import Meter; print(scanvolt.__file__, end=' ')\n"
        "with Meter() as meter, meter.connect() as one, one.create_link() as link: print(link.query('*IDN?'))"
    )
    told = run(
        "/usr/bin/python3",
        "-c",
        script,
        cwd=folder,
        env=dict(os.environ, PYTHONPATH=str(folder), SCANVOLT=str(folder / "bin/scanvolt")),
    )
    if told != f"{folder}/scanvolt/__init__.py SCANVOLT,SV32,0,1.0\n":
        raise Wrong(f"the wheel's package prints {told!r}")
    print(f"{path.name}: unpacked, it runs the program")


def wheel_with_program(path: pathlib.Path, folder: pathlib.Path) -> None:
    """Checks that the package in the wheel runs the program that is inside. pip keeps the modes of files, too."""
    with zipfile.ZipFile(path) as packed:
        packed.extractall(folder)
        for one in packed.infolist():
            (folder / one.filename).chmod(one.external_attr >> 16 & 0o777)
    script = (
        "from scanvolt.program import found; from scanvolt.virtual import Meter; print(*found(), end=' ')\n"
        "with Meter() as meter, meter.connect() as one, one.create_link() as link: print(link.query('*IDN?'))"
    )
    told = run(
        "/usr/bin/python3",
        "-c",
        script,
        cwd=folder,
        env={"PYTHONPATH": str(folder), "PATH": "/usr/bin:/bin"},
    )
    if told != f"{folder}/scanvolt/program/bin/scanvolt the wheel SCANVOLT,SV32,0,1.0\n":
        raise Wrong(f"the wheel's package prints {told!r}")
    print(f"{path.name}: unpacked, it runs the program that is inside")


def sdist(path: pathlib.Path, folder: pathlib.Path) -> None:
    """Checks that the sdist makes the same wheel."""
    run("tar", "-xzf", path, "-C", folder, "--strip-components=1")
    date = str(int((folder / "pyproject.toml").stat().st_mtime))
    run(
        "/usr/bin/python3",
        "-c",
        "import scanvolt_build; scanvolt_build.build_wheel('.')",
        cwd=folder,
        env=dict(os.environ, SOURCE_DATE_EPOCH=date, PYTHONPATH="backend"),
    )
    made = next(folder.glob("*.whl"))
    if made.read_bytes() != (DIST / made.name).read_bytes():
        raise Wrong(f"{path.name} makes another wheel than {made.name}")
    print(f"{path.name}: it makes the wheel again")


def check_root(root: pathlib.Path) -> None:
    """Checks that the root has what the trials need."""
    for name, module in WANTED.items():
        if subprocess.run(
            ["chroot", root, "/usr/bin/python3", "-c", "import " + module], capture_output=True
        ).returncode:
            raise Lacking(
                f"{name} is missing in {root}: chroot {root} apt-get install {' '.join(WANTED)}"
            )


def wheel_installed(path: pathlib.Path, root: pathlib.Path) -> None:
    """Installs the wheel that has the program in a virtual environment of the root, and runs the examples of the README there."""
    pieces = re.findall(r"```python\n(.*?)```", (TOP / "python/README.md").read_text(), re.DOTALL)
    folder, python = root / "tmp/wheel", "/tmp/wheel/there/bin/python"
    shutil.rmtree(folder, ignore_errors=True)
    folder.mkdir()
    try:
        shutil.copy(path, folder)
        (folder / "first.py").write_text(
            pieces[0] + "from scanvolt.program import found\nprint(*found())\n"
        )
        (folder / "stand.scenario").write_text("0 input 1 1250000\n")
        (folder / "test_readme.py").write_text(
            "".join(piece for piece in pieces if "import pytest" in piece)
        )
        alone = {"PATH": "/usr/sbin:/usr/bin:/bin", "HOME": "/nonexistent", "PIP_NO_CACHE_DIR": "1"}
        run(
            "chroot",
            root,
            "/usr/bin/python3",
            "-m",
            "venv",
            "--system-site-packages",
            "/tmp/wheel/there",
            env=alone,
        )
        run(
            "chroot",
            root,
            python,
            "-m",
            "pip",
            "install",
            "--no-index",
            f"/tmp/wheel/{path.name}",
            env=alone,
        )
        told = run("chroot", root, python, "/tmp/wheel/first.py", env=alone)
        if not told.endswith("/scanvolt/program/bin/scanvolt the wheel\n"):
            raise Wrong(f"installed in {root}, the wheel's first example prints {told!r}")
        told = run(
            "chroot",
            root,
            python,
            "-m",
            "pytest",
            "-q",
            "-p",
            "no:cacheprovider",
            "-n",
            "4",
            "/tmp/wheel",
            env=alone,
        )
        print(
            f"{path.name}: installed by pip in {root}, the first example runs, and of that of pytest {told.splitlines()[-1]}"
        )
    finally:
        shutil.rmtree(folder, ignore_errors=True)


def inside(root: pathlib.Path, folder: pathlib.Path) -> str:
    """Writes a script into the folder that becomes the program which is installed in the root. Returns its path."""
    script = folder / "scanvolt"
    script.write_text(f'#!/bin/sh\nexec chroot {shlex.quote(str(root))} scanvolt "$@"\n')
    script.chmod(0o755)
    return str(script)


def installed(paths: Iterable[pathlib.Path], root: pathlib.Path) -> None:
    """Installs all packages in the root, the program's first, tries them, and purges them."""
    files = sorted(paths, key=str, reverse=True)
    driver = root / "tmp/driver"
    try:
        for path in files:
            shutil.copy(path, root / "tmp")
            run("chroot", root, "dpkg", "-i", f"/tmp/{path.name}")
        present(root, PACKAGED + PYTHON)
        with tempfile.TemporaryDirectory() as folder:
            tried(inside(root, pathlib.Path(folder)), "/etc/scanvolt/bench.scenario")
        print(f"{files[0].name}: installed in {root}, it serves")
        shutil.copytree(
            TOP / "examples/driver", driver, ignore=shutil.ignore_patterns("__pycache__")
        )
        for name in COMMANDS:
            run("chroot", root, name, "--help")
        told = run(
            "chroot",
            root,
            "/usr/bin/python3",
            "-m",
            "pytest",
            "-q",
            "-p",
            "no:cacheprovider",
            "/tmp/driver",
        )
        print(
            f"{files[1].name}: installed in {root}, its commands run, and of the tests of examples/driver "
            f"{told.splitlines()[-1]}"
        )
    finally:
        shutil.rmtree(driver, ignore_errors=True)
        for path in files:
            (root / "tmp" / path.name).unlink(missing_ok=True)
        run("chroot", root, "dpkg", "-P", "python3-scanvolt", "scanvolt")
    left = [name for name in PACKAGED + PYTHON + [MODULES + "scanvolt"] if (root / name).exists()]
    if left:
        raise Wrong(f"purged, they leave {' '.join(left)}")
    print(f"{' and '.join(path.name for path in files)}: purged")


def files() -> Iterator[pathlib.Path]:
    """The files in dist/. Checks each against its sum in SHA256SUMS."""
    for line in (DIST / "SHA256SUMS").read_text().splitlines():
        told, name = line.split()
        if hashlib.sha256((DIST / name).read_bytes()).hexdigest() != told:
            raise Wrong(f"{name} has another sum than in SHA256SUMS")
        yield DIST / name


def trial(name: str) -> Trial | None:
    """The function that tries a file of this name in a folder; None if there is none."""
    endings: tuple[tuple[str, Trial], ...] = (
        ("-x86_64.tar.gz", archive),
        (".tar.gz", sdist),
        ("_x86_64.whl", wheel_with_program),
        (".whl", wheel),
        ("_all.deb", unpacked_python),
        (".deb", unpacked),
    )
    return next((how for ending, how in endings if name.endswith(ending)), None)


def all_tried(root: pathlib.Path | None) -> None:
    """Tries all files."""
    if root is not None:
        check_root(root)
    packages = []
    for path in files():
        if path.suffix == ".deb" and shutil.which("lintian"):
            run("lintian", "--allow-root", "--fail-on", "error,warning", path)
            print(f"{path.name}: lintian finds no error and no warning")
        if path.suffix == ".deb" and root is not None:
            packages.append(path)
        elif how := trial(path.name):
            with tempfile.TemporaryDirectory() as folder:
                how(path, pathlib.Path(folder).resolve())
        if trial(path.name) is wheel_with_program and root is not None:
            wheel_installed(path, root)
    if root is not None and packages:
        installed(packages, root)


def main(words: list[str]) -> int:
    if len(words) > 1 or (words and not os.access(words[0] + "/usr/bin/dpkg", os.X_OK)):
        print("usage: packages [ROOT]", file=sys.stderr)
        return 2
    if not (DIST / "SHA256SUMS").is_file():
        print("packages: there is no dist/SHA256SUMS: make dist first", file=sys.stderr)
        return 2
    try:
        all_tried(pathlib.Path(words[0]).resolve() if words else None)
    except (Wrong, Lacking) as fault:
        print(f"packages: {fault}", file=sys.stderr)
        return 2 if isinstance(fault, Lacking) else 1
    return 0
