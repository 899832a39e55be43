"""Which header a program unit has, by the path of its message (docs/INSTRUMENT.md, Messages and responses)."""

from __future__ import annotations

import re

from .tables import HEADERS

HEADER = re.compile(rb"[\x00-\x20]*([*:]?[A-Za-z][A-Za-z0-9_]*(?::[A-Za-z][A-Za-z0-9_]*)*\??)")
Path = tuple[str, ...]


def _forms(header: str) -> list[Path]:
    """All that a header of the table may be written as, in capitals, as mnemonics."""
    found: list[Path] = [()]
    for optional, plain in re.findall(r"\[:?([*A-Za-z]+):?\]|([*A-Za-z]+)", header.rstrip("?")):
        name = optional or plain
        long, short = name.upper(), "".join(re.findall("[*A-Z]", name))
        longer = [(*one, form) for one in found for form in dict.fromkeys((long, short))]
        found = found + longer if optional else longer
    return found


TABLE: dict[tuple[Path, bool], str] = {
    (form, header.endswith("?")): header for header in HEADERS for form in _forms(header)
}


class Headers:
    """Recognizes the headers of a session's units, one after the other."""

    def __init__(self) -> None:
        self._path: Path = ()

    def begin(self) -> None:
        """A message begins, at the root."""
        self._path = ()

    def of(self, unit: bytes) -> str | None:
        """The header of the next unit, as the table has it; None if the table has none such."""
        found = HEADER.match(unit)
        if found is None:
            return None
        text = found[1].decode("ascii").upper()
        is_query, nodes = text.endswith("?"), tuple(text.rstrip("?").lstrip(":").split(":"))
        if text.startswith("*"):
            return TABLE.get((nodes, is_query))
        whole = nodes if text.startswith(":") else self._path + nodes
        header = TABLE.get((whole, is_query))
        if header is not None:
            self._path = whole[:-1]
        return header
