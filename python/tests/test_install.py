"""The package is built and installed where only pip is there, and no network: from the folder, and from the sdist."""

from __future__ import annotations

import base64
import email
import hashlib
import importlib
import importlib.util
import io
import os
import pathlib
import re
import shutil
import subprocess
import sys
import sysconfig
import tarfile
import tempfile
import unittest
import venv
import zipfile
from typing import Any
from unittest import mock

from scanvolt.program import find_program

from .processes import TOP, script

PIECE = re.findall(r"```python\n(.*?)```", pathlib.Path(TOP, "README.md").read_text(), re.DOTALL)[0]
SHOWS = "\nimport scanvolt, importlib.metadata\nprint(importlib.metadata.version('scanvolt'), scanvolt.__file__)\n"
ALONE = {
    "PIP_NO_INDEX": "1",
    "PIP_DISABLE_PIP_VERSION_CHECK": "1",
    "PYTHONDONTWRITEBYTECODE": "1",
    "PYTHONPATH": "",
}


def pip_wheel() -> str | None:
    """The wheel of pip that Python's ensurepip has. From it pip runs without being installed, which takes seconds."""
    import ensurepip

    folders = [
        sysconfig.get_config_var("WHEEL_PKG_DIR"),
        os.path.join(os.path.dirname(ensurepip.__file__), "_bundled"),
    ]
    return next(
        (
            str(path)
            for folder in folders
            if folder
            for path in pathlib.Path(folder).glob("pip-*.whl")
        ),
        None,
    )


def backend() -> Any:
    """The module that builds the package."""
    path = pathlib.Path(TOP, "backend", "scanvolt_build.py")
    with mock.patch.object(sys, "dont_write_bytecode", True):
        spec = importlib.util.spec_from_file_location("scanvolt_build", path)
        assert spec is not None and spec.loader is not None
        module = importlib.util.module_from_spec(spec)
        spec.loader.exec_module(module)
    return module


def built(
    kind: str, where: str, source: str = TOP, prefix: str = "", **variables: str
) -> pathlib.Path:
    """Builds a wheel or an sdist from the sources in a folder, with the program that is installed at a prefix if one is given.
    Returns its path.
    """
    module, before = backend(), os.getcwd()
    os.chdir(source)
    try:
        with mock.patch.dict(os.environ, variables):
            return pathlib.Path(
                where,
                getattr(module, "build_" + kind)(
                    where, *([{module.PROGRAM: prefix}] if prefix else [])
                ),
            )
    finally:
        os.chdir(before)


class InAFolder(unittest.TestCase):
    """Tests that write into a folder."""

    def setUp(self) -> None:
        temporary = tempfile.TemporaryDirectory(prefix="install-")
        self.addCleanup(temporary.cleanup)
        self.folder = temporary.name


@unittest.skipUnless(
    importlib.util.find_spec("ensurepip"),
    "Python's ensurepip isn't there: on Debian it is in python3-venv",
)
class Installing(InAFolder):
    """pip installs the package, and the first example of README.md runs."""

    def run_there(self, *words: str, **variables: str) -> str:
        """Runs a command of the virtual environment. Returns what it prints."""
        command = [os.path.join(self.folder, "there", "bin", words[0]), *words[1:]]
        done = subprocess.run(
            command,
            env=dict(os.environ, **dict(ALONE, **variables)),
            cwd=self.folder,
            stdout=subprocess.PIPE,
            stderr=subprocess.STDOUT,
            text=True,
        )
        self.assertEqual(done.returncode, 0, done.stdout)
        return done.stdout

    def install(self, *words: str) -> None:
        """Installs the package in place of what is installed."""
        self.run_there(
            "python",
            "-m",
            "pip",
            "install",
            "--no-index",
            "--force-reinstall",
            "--no-compile",
            *words,
            PYTHONPATH=pip_wheel() or "",
        )

    def test_the_folder_and_the_sdist(self) -> None:
        with mock.patch.dict(os.environ, ALONE):
            venv.create(
                os.path.join(self.folder, "there"), with_pip=pip_wheel() is None, symlinks=True
            )
        sdist = built("sdist", self.folder)
        for source in TOP, str(sdist):
            with self.subTest(source):
                self.install(source)
                version, path = self.run_there("python", "-c", PIECE + SHOWS).split()
                self.assertEqual(
                    version, pathlib.Path(TOP).parent.joinpath("VERSION").read_text().strip()
                )
                self.assertTrue(path.startswith(self.folder), path)
        for name in "capture", "coverage", "explain", "portmap", "scenario", "serve":
            self.assertIn("scanvolt-" + name, self.run_there("scanvolt-" + name, "--help"))

    def test_the_wheel_with_the_program(self) -> None:
        """It needs nothing else: no SCANVOLT, no PATH and no checkout. What SCANVOLT names comes first, PATH comes after it."""
        with mock.patch.dict(os.environ, ALONE):
            venv.create(
                os.path.join(self.folder, "there"), with_pip=pip_wheel() is None, symlinks=True
            )
        self.install(str(built("wheel", self.folder, prefix=installed(self.folder))))
        with script('echo "$@" >&2; exit 1') as other:
            os.rename(other, os.path.join(os.path.dirname(other), "scanvolt"))
            path = f"{os.path.dirname(other)}:{os.environ['PATH']}"
            told = self.run_there("python", "-c", PIECE + SHOWS, SCANVOLT="", PATH=path)
            self.assertIn(self.folder, told)
            told = self.run_there("python", "-m", "scanvolt", SCANVOLT="", PATH=path)
        self.assertRegex(
            told,
            f"\nprogram {self.folder}/there/lib/.*/scanvolt/program/bin/scanvolt\nfound by the wheel\nversion 7.8.9\n"
            "kind unknown\n$",
        )
        self.assertIn(
            "\nfound by SCANVOLT\n",
            self.run_there("python", "-m", "scanvolt", SCANVOLT=find_program()),
        )


def installed(folder: str) -> str:
    """Installs the program, and a version. Returns the prefix."""
    prefix = pathlib.Path(folder, "prefix")
    for name in "bin", "share/scanvolt":
        (prefix / name).mkdir(parents=True)
    shutil.copy(find_program(), prefix / "bin/scanvolt")
    (prefix / "share/scanvolt/VERSION").write_text("7.8.9\n")
    return str(prefix)


class Building(InAFolder):
    """The wheel and the sdist have what they should."""

    def test_the_files_of_the_wheel(self) -> None:
        """Its files are those of the packages, each with its sum in RECORD."""
        with zipfile.ZipFile(built("wheel", self.folder)) as packed:
            found = {name: packed.read(name) for name in packed.namelist()}
        information = next(name for name in found if name.endswith("RECORD"))[: -len("RECORD")]
        paths = [
            path
            for package in ("scanvolt", "pyvisa_scanvolt")
            for path in pathlib.Path(TOP, package).rglob("*")
            if path.is_file() and "__pycache__" not in path.parts
        ]
        wanted = {path.relative_to(TOP).as_posix(): path.read_bytes() for path in paths}
        wanted[information + "LICENSE"] = pathlib.Path(TOP).parent.joinpath("LICENSE").read_bytes()
        names = {
            information + name
            for name in ("METADATA", "WHEEL", "RECORD", "entry_points.txt", "top_level.txt")
        }
        self.assertEqual(set(found), set(wanted) | names)
        self.assertIn("scanvolt/py.typed", wanted)
        self.assertEqual({name: found[name] for name in wanted}, wanted)
        rows = dict(
            line.split(",", 1) for line in found[information + "RECORD"].decode().splitlines()
        )
        self.assertEqual(rows.pop(information + "RECORD"), ",")
        self.assertEqual(
            rows,
            {name: self.row(data) for name, data in found.items() if not name.endswith("RECORD")},
        )

    def row(self, data: bytes) -> str:
        checksum = base64.urlsafe_b64encode(hashlib.sha256(data).digest()).decode().rstrip("=")
        return f"sha256={checksum},{len(data)}"

    def test_what_the_wheel_says_of_itself(self) -> None:
        with zipfile.ZipFile(built("wheel", self.folder)) as packed:
            found: dict[str, str] = {
                name.rpartition("/")[2]: packed.read(name).decode() for name in packed.namelist()
            }
        told = email.message_from_string(found["METADATA"])
        self.assertEqual(told.get_payload(), pathlib.Path(TOP, "README.md").read_text())
        self.assertEqual(
            {name: told.get_all(name) for name in told},
            {
                "Metadata-Version": ["2.1"],
                "Name": ["scanvolt"],
                "Version": ["2.0.0"],
                "Requires-Python": [">=3.9"],
                "Summary": [
                    "A simulated scanning voltmeter for tests of drivers: VXI-11, virtual time, PyVISA, pytest"
                ],
                "License": ["MIT"],
                "License-File": ["LICENSE"],
                "Provides-Extra": ["pytest", "pyvisa"],
                "Requires-Dist": [
                    "pytest>=7; extra == 'pytest'",
                    "pyvisa>=1.11; extra == 'pyvisa'",
                ],
                "Description-Content-Type": ["text/markdown"],
            },
        )
        self.assertRegex(
            found["WHEEL"],
            "^Wheel-Version: 1.0\nGenerator: .*\nRoot-Is-Purelib: true\nTag: py3-none-any\n$",
        )
        self.assertEqual(
            found["entry_points.txt"],
            """[console_scripts]
scanvolt-capture = scanvolt.capturing.command:main
scanvolt-coverage = scanvolt.coverage.command:main
scanvolt-explain = scanvolt.explaining.command:main
scanvolt-panel = scanvolt.panel.command:main
scanvolt-portmap = scanvolt.portmap:main
scanvolt-scenario = scanvolt.scenario.command:main
scanvolt-serve = scanvolt.serving.command:main

[pytest11]
scanvolt.pytest_plugin = scanvolt.pytest_plugin
""",
        )

    def test_the_files_of_the_wheel_with_the_program(self) -> None:
        """It has the files of the other one and the program, which can be run, and says for which platform it is."""
        with zipfile.ZipFile(built("wheel", self.folder)) as packed:
            pure = set(packed.namelist())
        path = built("wheel", self.folder, prefix=installed(self.folder))
        self.assertEqual(path.name, "scanvolt-2.0.0-py3-none-manylinux_2_36_x86_64.whl")
        with zipfile.ZipFile(path) as packed:
            self.assertEqual(
                set(packed.namelist()) - pure,
                {"scanvolt/program/bin/scanvolt", "scanvolt/program/share/scanvolt/VERSION"},
            )
            modes = {one.filename: one.external_attr >> 16 & 0o777 for one in packed.infolist()}
            self.assertEqual(
                [name for name, mode in modes.items() if mode == 0o755],
                ["scanvolt/program/bin/scanvolt"],
            )
            self.assertEqual(
                packed.read("scanvolt/program/bin/scanvolt"),
                pathlib.Path(find_program()).read_bytes(),
            )
            told = packed.read("scanvolt-2.0.0.dist-info/WHEEL").decode()
        self.assertTrue(
            told.endswith("Root-Is-Purelib: false\nTag: py3-none-manylinux_2_36_x86_64\n"), told
        )
        self.assertRaises(OSError, built, "wheel", self.folder, prefix="/nonexistent")

    def test_the_sdist_makes_the_same_wheel(self) -> None:
        """It makes the same bytes, though its files have another date."""
        made = os.path.join(self.folder, "made")
        os.mkdir(made)
        sdist = built("sdist", self.folder, SOURCE_DATE_EPOCH="1700000000")
        with tarfile.open(sdist) as packed:
            self.assertFalse(
                [name for name in packed.getnames() if "test" in name and "pytest" not in name]
            )
            self.assertEqual({one.mtime for one in packed.getmembers()}, {1700000000})
        subprocess.run(["tar", "-xzf", sdist, "-C", self.folder], check=True)
        wheel = built("wheel", self.folder)
        again = built("wheel", made, os.path.join(self.folder, wheel.name[: len("scanvolt-2.0.0")]))
        self.assertEqual(again.read_bytes(), wheel.read_bytes())

    def test_the_wheel_of_an_editable_installation(self) -> None:
        """It has a line for Python's path, and the same information."""
        with zipfile.ZipFile(built("editable", self.folder)) as packed:
            names = {name for name in packed.namelist() if ".dist-info/" not in name}
            self.assertEqual(
                (names, packed.read("scanvolt.pth")), ({"scanvolt.pth"}, TOP.encode() + b"\n")
            )
            self.assertEqual(len(packed.namelist()), 7)

    def test_the_dates_of_the_wheel(self) -> None:
        for epoch, date in (
            ("1700000000", (2023, 11, 14, 22, 13, 20)),
            ("", (1980, 1, 1, 0, 0, 0)),
            ("5", (1980, 1, 1, 0, 0, 0)),
        ):
            with zipfile.ZipFile(
                io.BytesIO(built("wheel", self.folder, SOURCE_DATE_EPOCH=epoch).read_bytes())
            ) as packed:
                self.assertEqual({one.date_time for one in packed.infolist()}, {date})

    @unittest.skipIf(
        sys.version_info < (3, 11),
        "tomllib, which reads all of TOML, isn't there before Python 3.11",
    )
    def test_how_pyproject_is_read(self) -> None:
        tomllib = importlib.import_module("tomllib")
        text = pathlib.Path(TOP, "pyproject.toml").read_text()
        whole, found = tomllib.loads(text), backend().project(text)
        for table, values in found.items():
            one: Any = whole
            for name in table.split("."):
                one = one[name]
            self.assertEqual({key: one[key] for key in values}, values)
        self.assertEqual(
            set(found["project"]),
            {
                key
                for key, value in whole["project"].items()
                if key == "license" or not isinstance(value, dict)
            },
        )
        self.assertRaisesRegex(
            ValueError,
            "isn't read here: key = 1979-05-27",
            backend().project,
            "[table]\nkey = 1979-05-27\n",
        )


if __name__ == "__main__":
    unittest.main()
