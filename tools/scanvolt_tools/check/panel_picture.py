"""panel-picture [--check] : draws docs/pictures/panel.png, the page of `scanvolt-panel` for a stored session.

The session is python/tests/explained/panel.replay. A scanvolt with `explain` says what the panel shows (SCANVOLT, or the one of
the checkout), and chromium draws the page. The picture has a checksum of what it was drawn from: with --check nothing is drawn,
and a line is printed if the page or the session has changed since. Status: 0; 1 if something is printed; 2 if chromium or the
program is missing.
"""
import hashlib
import json
import struct
import subprocess
import sys
import threading
import types
import zlib
from collections.abc import Sequence
from typing import cast

from scanvolt.panel.front import Front
from scanvolt.panel.pages import FILES, page, static
from scanvolt.panel.state import state_of
from scanvolt.panel.watch import Watch
from scanvolt.panel.web import Panel
from scanvolt.program import ProgramError, Server, find_program
from tests.browser import CHROMIUM, Browser

from ..repository import Repository

SESSION, TARGET = "python/tests/explained/panel.replay", "docs/pictures/panel.png"
WIDE, HIGH = 1280, 900
PORTS = {"core": 4096, "abort": 4097, "port_mapper": 4111, "control": 4222}
KEY = b"scanvolt-panel\0"  # of the text in the picture that has the checksum
AFTER_HEAD = 33  # bytes of a PNG before the first chunk that may be a text


class Stored:
    """A session that has happened, as a Watch would show it."""

    def __init__(self, script: Sequence[str], program: str) -> None:
        self.changed, self.version = threading.Condition(), 1
        self.server = types.SimpleNamespace(program="scanvolt", **PORTS)
        text = "\n".join(script) + "\n"
        told = subprocess.run(
            [program, "explain"], input=text, capture_output=True, text=True, check=True
        )
        self.front = Front()
        for line in told.stdout.splitlines():
            if line.startswith("@ end"):
                self.front.settle(int(line.split()[2]))
            else:
                self.front.take(
                    line, script[int(line.split()[1]) - 1].split(" ") if line[0] == "@" else []
                )

    def state(self) -> dict[str, object]:
        """What the page shows."""
        server = {"ended": "", "silent": False, "fault": "", "behind": 0}
        return {"version": 1, "clock": self.front.clock, "server": server, **state_of(self.front)}


def stored(repository: Repository) -> Stored:
    """The session of the picture."""
    return Stored(repository.text(SESSION).splitlines(), find_program())


def checksum(session: Stored) -> bytes:
    """What the picture is drawn from."""
    files = [static(path)[0] for path in sorted(FILES)]
    parts = [
        json.dumps(session.state(), sort_keys=True).encode(),
        page(cast(Server, session.server)),
        *files,
    ]
    return hashlib.sha256(b"\0".join(parts)).hexdigest().encode()


def with_text(picture: bytes, text: bytes) -> bytes:
    """A PNG with a text in it."""
    kind, said = b"tEXt", KEY + text
    chunk = struct.pack(">I", len(said)) + kind + said + struct.pack(">I", zlib.crc32(kind + said))
    return picture[:AFTER_HEAD] + chunk + picture[AFTER_HEAD:]


def drawn(session: Stored) -> bytes:
    """The page as chromium draws it, all of it."""
    with Panel(cast(Watch, session)) as panel, Browser() as browser:
        threading.Thread(target=panel.serve_forever, daemon=True).start()
        shown = browser.page(panel.address, WIDE, HIGH)
        shown.wait("typeof state == 'object' && state && document.querySelector('.lamp.on')", 30)
        # Its clock stands at the end of the session, and the page is as high as what it shows.
        shown.run("came = performance.now() + 1e9; choose(3); drawClock()")
        high = shown.run(
            "document.querySelector('header').offsetHeight + document.getElementById('front').scrollHeight"
        )
        shown.size(WIDE, high)
        shown.run("new Promise(done => setTimeout(done, 300))")
        return shown.png()


def main(words: list[str]) -> int:
    repository = Repository()
    try:
        session = stored(repository)
        path, text = repository.path(TARGET), checksum(session)
        if words == ["--check"]:
            with open(path, "rb") as file:
                if KEY + text in file.read():
                    return 0
            print(
                f"{TARGET}: the page or the session has changed since tools/panel-picture drew it"
            )
            return 1
        if CHROMIUM is None:
            print("panel-picture: chromium isn't there", file=sys.stderr)
            return 2
        picture = with_text(drawn(session), text)
    except ProgramError as fault:
        print(f"panel-picture: {fault}", file=sys.stderr)
        return 2
    with open(path, "wb") as file:
        file.write(picture)
    return 0
