"""Builds the wheel and the sdist of this package, by Python's standard library alone (PEP 517 and PEP 660).

So `pip install ./python` needs no other package, and no network. The same sources make the same bytes: files are
sorted, have the date SOURCE_DATE_EPOCH or else 1 January 1980, and no owner. pip runs the functions whose names have
no underscore in front, in the folder of pyproject.toml.
"""

from __future__ import annotations

import ast
import base64
import gzip
import hashlib
import io
import os
import pathlib
import re
import tarfile
import time
import zipfile
from typing import Optional, Union

Settings = Optional[dict[str, object]]
Value = Union[str, list[str], dict[str, str]]
Files = list[tuple[str, bytes]]
PACKAGES = ("scanvolt", "pyvisa_scanvolt")
OLDEST = 315532800  # 1 January 1980, the first date that a wheel can have
SUFFIXES = (".py", ".html", ".css", ".js")  # of the packages' files
# without the program, and with it
PURE, PLATFORM = "py3-none-any", "py3-none-manylinux_2_36_x86_64"
WHEEL = "Wheel-Version: 1.0\nGenerator: scanvolt_build\nRoot-Is-Purelib: %s\nTag: %s\n"
# The setting that names the installation of the program that a wheel gets, and which of its files.
PROGRAM = "program"
IN_PROGRAM = ("bin/scanvolt", "share/scanvolt/VERSION", "share/doc/scanvolt/KIT")


def project(text: str) -> dict[str, dict[str, Value]]:
    """The tables of pyproject.toml. Reads only as much of TOML as that file has: one line for each key, and as
    values texts, lists of texts, and inline tables of texts. Raises ValueError at any other line.
    """
    tables: dict[str, dict[str, Value]] = {}
    table: dict[str, Value] = {}
    for line in text.splitlines():
        if re.fullmatch(r"\[[\w.-]+\]", line):
            table = tables.setdefault(line[1:-1], {})
        elif line and not line.startswith("#"):
            key, equals, value = line.partition(" = ")
            key = ast.literal_eval(key) if key.startswith('"') else key
            try:
                table[key] = ast.literal_eval(
                    re.sub(r"(?<=[{ ])(\w+) = ", r'"\1": ', value)
                    if value.startswith("{")
                    else value.replace("true", "True")
                )
            except (SyntaxError, ValueError):
                raise ValueError(
                    f"pyproject.toml has a line that isn't read here: {line}"
                ) from None
    return tables


def _settings() -> dict[str, dict[str, Value]]:
    return project(pathlib.Path("pyproject.toml").read_text(encoding="utf-8"))


def _text(value: Value) -> str:
    assert isinstance(value, str)
    return value


def _name() -> str:
    """The name and version, as files have them."""
    found = _settings()["project"]
    return f"{_text(found['name'])}-{_text(found['version'])}"


def _licence() -> Files:
    """The licence, which is in an sdist, and in a checkout above this folder."""
    for path in pathlib.Path("LICENSE"), pathlib.Path("..", "LICENSE"):
        if path.is_file():
            return [("LICENSE", path.read_bytes())]
    return []


def _sources() -> Files:
    """The files of the packages."""
    paths = [
        path
        for package in PACKAGES
        for path in pathlib.Path(package).rglob("*")
        if path.suffix in SUFFIXES or path.name == "py.typed"
    ]
    return [(path.as_posix(), path.read_bytes()) for path in paths]


def _metadata() -> bytes:
    """The file METADATA of a wheel, and PKG-INFO of an sdist."""
    tables = _settings()
    found = tables["project"]
    lines = ["Metadata-Version: 2.1"]
    for head, key in (
        ("Name", "name"),
        ("Version", "version"),
        ("Summary", "description"),
        ("Requires-Python", "requires-python"),
    ):
        lines.append(f"{head}: {_text(found[key])}")
    licence = found["license"]
    assert isinstance(licence, dict)
    lines.append("License: " + licence["text"])
    lines += ["License-File: " + name for name, _ in _licence()]
    lines += ["Requires-Dist: " + one for one in found["dependencies"]]
    for extra, needed in sorted(tables["project.optional-dependencies"].items()):
        lines.append("Provides-Extra: " + extra)
        lines += [f"Requires-Dist: {one}; extra == '{extra}'" for one in needed]
    lines += ["Description-Content-Type: text/markdown", ""]
    return "\n".join(lines).encode() + b"\n" + pathlib.Path(_text(found["readme"])).read_bytes()


def _entry_points() -> bytes:
    """The file entry_points.txt: the commands, and what pytest loads."""
    tables = _settings()
    groups = {"console_scripts": tables["project.scripts"]}
    start = "project.entry-points."
    groups.update(
        (name[len(start) :], table) for name, table in tables.items() if name.startswith(start)
    )
    parts = [
        f"[{group}]\n"
        + "".join(f"{name} = {_text(what)}\n" for name, what in sorted(table.items()))
        for group, table in sorted(groups.items())
    ]
    return "\n".join(parts).encode()


def _program(prefix: str) -> Files:
    """The files of the program, as `make install PREFIX=..` puts them there. Raises OSError if it isn't there."""
    paths = [pathlib.Path(prefix, name) for name in IN_PROGRAM]
    return [
        ("scanvolt/program/" + name, path.read_bytes())
        for name, path in zip(IN_PROGRAM, paths)
        if path.is_file() or name == IN_PROGRAM[0]
    ]


def _information(tag: str) -> Files:
    """The files of a wheel's .dist-info, except RECORD."""
    wheel = WHEEL % ("true" if tag == PURE else "false", tag)
    return _licence() + [
        ("METADATA", _metadata()),
        ("WHEEL", wheel.encode()),
        ("entry_points.txt", _entry_points()),
        ("top_level.txt", "".join(name + "\n" for name in sorted(PACKAGES)).encode()),
    ]


def _epoch() -> int:
    return max(OLDEST, int(os.environ.get("SOURCE_DATE_EPOCH") or OLDEST))


def _row(name: str, data: bytes) -> str:
    """A line of RECORD."""
    checksum = base64.urlsafe_b64encode(hashlib.sha256(data).digest()).rstrip(b"=").decode()
    return f"{name},sha256={checksum},{len(data)}\n"


def _wheel(folder: str, files: Files, tag: str = PURE) -> str:
    """Writes a wheel with these files. Returns its name."""
    information = _name() + ".dist-info/"
    files = sorted(files) + [(information + name, data) for name, data in _information(tag)]
    record = "".join(_row(name, data) for name, data in files) + information + "RECORD,,\n"
    name = f"{_name()}-{tag}.whl"
    with zipfile.ZipFile(os.path.join(folder, name), "w", zipfile.ZIP_DEFLATED) as packed:
        for member, data in files + [(information + "RECORD", record.encode())]:
            one = zipfile.ZipInfo(member, time.gmtime(_epoch())[:6])
            one.compress_type, one.create_system = zipfile.ZIP_DEFLATED, 3
            one.external_attr = (
                0o100755 if member.endswith("/" + IN_PROGRAM[0]) else 0o100644
            ) << 16
            packed.writestr(one, data)
    return name


def build_wheel(
    wheel_directory: str, config_settings: Settings = None, metadata_directory: str | None = None
) -> str:
    """Writes the wheel into a folder. Returns its name. With the setting `program`, the prefix of an installation, it is the
    wheel of a platform that has the program inside.
    """
    prefix = (config_settings or {}).get(PROGRAM)
    if prefix is None:
        return _wheel(wheel_directory, _sources())
    return _wheel(wheel_directory, _sources() + _program(str(prefix)), PLATFORM)


def build_editable(
    wheel_directory: str, config_settings: Settings = None, metadata_directory: str | None = None
) -> str:
    """Writes a wheel that makes Python load the packages from here, for `pip install --editable`."""
    return _wheel(wheel_directory, [("scanvolt.pth", os.fsencode(os.getcwd()) + b"\n")])


def build_sdist(sdist_directory: str, config_settings: Settings = None) -> str:
    """Writes the sdist into a folder. Returns its name."""
    own = pathlib.Path(__file__)
    files = (
        _sources()
        + _licence()
        + [("PKG-INFO", _metadata()), ("backend/" + own.name, own.read_bytes())]
    )
    files += [(name, pathlib.Path(name).read_bytes()) for name in ("pyproject.toml", "README.md")]
    packed = io.BytesIO()
    with tarfile.open(fileobj=packed, mode="w", format=tarfile.USTAR_FORMAT) as archive:
        for name, data in sorted(files):
            one = tarfile.TarInfo(f"{_name()}/{name}")
            one.size, one.mtime, one.mode = len(data), _epoch(), 0o644
            archive.addfile(one, io.BytesIO(data))
    name = _name() + ".tar.gz"
    pathlib.Path(sdist_directory, name).write_bytes(gzip.compress(packed.getvalue(), 9, mtime=0))
    return name
