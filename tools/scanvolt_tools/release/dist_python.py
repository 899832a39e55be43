"""Packs the Python package: two wheels and an sdist, which python/backend packs, and what the Debian package has: modules, commands
and their manuals. All files get the date SOURCE_DATE_EPOCH, whatever their own is.
"""
import ast
import importlib
import os
import pathlib
import sys
import zipfile

from ..repository import TOP as HERE

TOP = pathlib.Path(HERE)
MODULES = pathlib.Path("usr/lib/python3/dist-packages")
# The commands, and the modules whose docstrings are their manuals.
COMMANDS = {
    "scanvolt-capture": (
        "scanvolt.capturing.command",
        "compares a captured session with a simulated voltmeter",
    ),
    "scanvolt-coverage": (
        "scanvolt.coverage.command",
        "tells what sessions met of a simulated voltmeter",
    ),
    "scanvolt-explain": (
        "scanvolt.explaining.command",
        "tells what a simulated voltmeter saw, and why",
    ),
    "scanvolt-panel": (
        "scanvolt.panel.command",
        "serves a simulated voltmeter with a front panel as a page",
    ),
    "scanvolt-scenario": (
        "scanvolt.scenario.command",
        "writes, draws and checks a simulated voltmeter's inputs",
    ),
    "scanvolt-serve": ("scanvolt.serving.command", "serves a simulated voltmeter at free ports"),
    "scanvolt-portmap": (
        "scanvolt.portmap",
        "registers a simulated voltmeter's ports with rpcbind",
    ),
}
SCRIPT = """#!/usr/bin/python3
import sys

from %s import main

sys.exit(main())
"""
MANUAL = r""".TH %s 1
.SH NAME
%s \- %s
.SH DESCRIPTION
.nf
%s
.fi
"""


def tree(wheel: pathlib.Path, folder: pathlib.Path) -> None:
    """Writes what the Debian package has, from the wheel."""
    with zipfile.ZipFile(wheel) as packed:
        packed.extractall(folder / MODULES)
    for name in ("RECORD", "LICENSE", "WHEEL"):
        for path in (folder / MODULES).glob("*.dist-info/" + name):
            path.unlink()
    for command, (module, what) in COMMANDS.items():
        path = TOP / "python" / (module.replace(".", "/") + ".py")
        text = ast.get_docstring(ast.parse(path.read_text(encoding="utf-8")))
        assert text is not None
        manual = MANUAL % (
            command.upper(),
            command,
            what,
            text.replace("\\", r"\e").replace("-", r"\-").replace("\n.", "\n\\&."),
        )
        for place, content in ("bin/" + command, SCRIPT % module), (
            f"share/man/man1/{command}.1",
            manual,
        ):
            made = folder / "usr" / place
            made.parent.mkdir(parents=True, exist_ok=True)
            made.write_text(content, encoding="utf-8")
    for path in folder.rglob("*"):
        path.chmod(0o755 if path.is_dir() or path.parent.name == "bin" else 0o644)


def pack(out: pathlib.Path, version: str, prefix: pathlib.Path) -> bool:
    """Packs a wheel, a wheel with the program that is installed in the folder `prefix`, and an sdist in the folder `out`, and puts what
    the Debian package has into its folder tree/. Returns whether python/pyproject.toml has this version.
    """
    sys.path.insert(0, str(TOP / "python/backend"))
    scanvolt_build = importlib.import_module("scanvolt_build")
    os.umask(0o022)
    os.chdir(TOP / "python")
    names = scanvolt_build.build_wheel(str(out)), scanvolt_build.build_sdist(str(out))
    scanvolt_build.build_wheel(str(out), {scanvolt_build.PROGRAM: str(prefix)})
    if names != (f"scanvolt-{version}-py3-none-any.whl", f"scanvolt-{version}.tar.gz"):
        return False
    tree(out / names[0], out / "tree")
    return True
