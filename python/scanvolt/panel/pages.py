"""The files of the panel's page, and the parts of it that are made from the tables of the documents."""

from __future__ import annotations

import html
import os
import pathlib

from .. import __version__
from ..explaining.page import filled, part
from ..explaining.tables import BITS
from ..program import Server

HERE = pathlib.Path(__file__).resolve().parent
SCRIPT, STYLE = "text/javascript; charset=utf-8", "text/css; charset=utf-8"
# The files of the page, and those that it has in common with the page of `scanvolt.explaining`.
FILES = {
    "/panel.js": SCRIPT,
    "/follow.js": SCRIPT,
    "/panel.css": STYLE,
    "/icon.svg": "image/svg+xml",
    "/axis.js": SCRIPT,
    "/drawing.js": SCRIPT,
    "/looking.js": SCRIPT,
    "/page.css": STYLE,
}
COMMON = ("/axis.js", "/drawing.js", "/looking.js", "/page.css")
ICON = (
    '<svg xmlns="http://www.w3.org/2000/svg" viewBox="0 0 16 16"><rect width="16" height="16" rx="3" fill="#10202a"/>'
    '<path d="M2 9h3l2-5 3 8 1.6-3H14" fill="none" stroke="#5ff0d8" stroke-width="1.6"/></svg>'
)
# Lamps: a title, what it is, the bits, and for each column its head, and where the state has it.
GROUPS = (
    ("STB", "status byte", "poll", (("now", "STB"), ("SRE", "SRE"))),
    ("ESR", "standard events", "esr", (("now", "ESR"), ("ESE", "ESE"))),
    (
        "OPER",
        "operation",
        "oper",
        (("now", "OPER.condition"), ("event", "OPER.event"), ("enable", "OPER.enable")),
    ),
    (
        "QUES",
        "questionable",
        "ques",
        (("now", "QUES.condition"), ("event", "QUES.event"), ("enable", "QUES.enable")),
    ),
    (
        "LIM",
        "limits",
        "lim",
        (("now", "LIM.condition"), ("event", "LIM.event"), ("enable", "LIM.enable")),
    ),
)
TABLE = (
    '<table class="lamps" id="lamps-%s"><caption><b>%s</b> %s</caption><thead><tr><td></td><td></td>%s</tr></thead>'
    "<tbody>%s</tbody><tfoot><tr><td></td><td></td>%s</tr></tfoot></table>"
)
BAD = ("QYE", "DDE", "EXE", "CME", "EAV", "VOLT", "BELOW", "ABOVE", "MONITORED", "LIM", "QUES")


def static(path: str) -> tuple[bytes, str]:
    """A file, and its type."""
    if path == "/icon.svg":
        return ICON.encode(), FILES[path]
    name = path[1:]
    return (part(name).encode() if path in COMMON else (HERE / name).read_bytes()), FILES[path]


def page(server: Server) -> bytes:
    """The page of a server."""
    text = (HERE / "panel.html").read_text(encoding="utf-8")
    ports = f"core {server.core} · abort {server.abort} · port mapper {server.port_mapper}"
    return filled(
        text,
        {
            "LAMPS": "".join(map(_group, GROUPS)),
            "PORTS": html.escape(ports),
            "VERSION": html.escape(__version__),
            "PROGRAM": html.escape(os.path.basename(server.program)),
        },
    ).encode()


def _group(group: tuple[str, str, str, tuple[tuple[str, str], ...]]) -> str:
    """The lamps of a register and of what belongs to it."""
    name, title, register, columns = group
    heads = "".join(f'<th scope="col">{head}</th>' for head, _ in columns)
    values = "".join(f'<td class="num" data-value="{where}">0</td>' for _, where in columns)
    return TABLE % (name, name, title, heads, "".join(_bits(register, columns)), values)


def _bits(register: str, columns: tuple[tuple[str, str], ...]) -> list[str]:
    """A row for each bit that has a name, the highest first."""
    found = []
    for bit, (name, what) in sorted(BITS[register].items(), reverse=True):
        lamps = "".join(_lamp(name, where, place) for place, (_, where) in enumerate(columns))
        found.append(
            f'<tr title="bit {bit}: {html.escape(what)}"><th scope="row">{name}</th><td class="what">{html.escape(what)}</td>{lamps}</tr>'
        )
    return found


def _lamp(name: str, where: str, place: int) -> str:
    """A lamp. SRE has no RQS."""
    if (name, where) == ("RQS", "SRE"):
        return "<td></td>"
    if where.endswith(("SRE", "ESE", "enable")):
        kind = "enable"
    elif name == "RQS":
        kind = "rqs"
    elif name in BAD:
        kind = "bad"
    else:
        kind = "good"
    return f'<td><span class="lamp {kind}" data-lamp="{where}" data-bit="{name}" role="img" aria-label="{where} {name}: off"></span></td>'
