"""What stands before @scanvolt: a scenario, or a file of settings with names of resources.

A file of settings has lines `KEY = VALUE`, and comments after `#`. A key is a resource name, whose value is the host of the
instrument that has this name, such as scanvolt; or scenario (a file, relative to this one), patience, or call_time.
"""

from __future__ import annotations

import pathlib
from collections.abc import Mapping
from dataclasses import dataclass, field

from pyvisa import rname
from scanvolt.virtual import PATIENCE, Meter

__tracebackhide__ = True  # pytest shows the line that calls the package, and not these frames
NUMBERS = ("patience", "call_time")
Names = Mapping[str, str]


@dataclass
class Settings:
    """The options of the meters, and the host of each name, by the name in capitals."""

    scenario: str | None = None
    patience: int = PATIENCE
    call_time: int = 0
    hosts: dict[str, str] = field(default_factory=dict)

    def add(self, name: str, host: str) -> None:
        """Gives an instrument a resource name. Raises ValueError if that is none of an instrument."""
        parsed = whole_name(name)
        if parsed is None or not parsed.endswith("::INSTR"):
            raise ValueError(f"no resource name of an instrument: {name!r}")
        self.hosts[parsed] = host

    def meter(self) -> Meter:
        """An instrument with these options."""
        return Meter(None, self.scenario, self.patience, self.call_time)

    def host(self, name: str) -> str | None:
        """The host that has this name, if it was given here."""
        return self.hosts.get(whole_name(name) or "")


def whole_name(name: str) -> str | None:
    """A resource name with all its parts, in capitals; None if it is none."""
    try:
        return str(rname.ResourceName.from_string(name)).upper()
    except rname.InvalidResourceName:
        return None


def read(path: str) -> Settings:
    """The settings in a file; a file without `=` is a scenario. Raises ValueError for a line that can't be read."""
    try:
        text = pathlib.Path(path).read_text(encoding="utf-8")
    except (OSError, ValueError):
        return Settings(path)  # what is wrong with a scenario is said when a meter takes it
    if "=" not in text:
        return Settings(path)
    found = Settings()
    for number, line in enumerate(text.splitlines(), 1):
        key, equals, value = (part.strip() for part in line.partition("#")[0].partition("="))
        try:
            if key and equals and value:
                _take(found, key, value, pathlib.Path(path).parent)
            elif key or equals:
                raise ValueError(f"not KEY = VALUE: {line.strip()}")
        except ValueError as fault:
            raise ValueError(f"{path}, line {number}: {fault}") from None
    return found


def _take(found: Settings, key: str, value: str, folder: pathlib.Path) -> None:
    """Takes a line of a file of settings."""
    if key == "scenario":
        found.scenario = str(folder / value)
    elif key in NUMBERS:
        if not (value.isascii() and value.isdigit()):
            raise ValueError(f"{key} wants milliseconds, and not {value}")
        setattr(found, key, int(value))
    else:
        found.add(key, value)


def written(names: Names, **options: object) -> str:
    """The text of a file of settings."""
    pairs = [(key, str(value)) for key, value in options.items() if value is not None] + list(
        names.items()
    )
    return "".join(f"{key} = {value}\n" for key, value in pairs)
