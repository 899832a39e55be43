"""The panel over HTTP, on 127.0.0.1 alone: a page for people, and JSON for machines.

Nothing is answered unless the Host is this machine's own name for the panel, so that a name that a page elsewhere lets point
here is no way in. What changes an input needs the token, and no page of another origin may send it.
"""

from __future__ import annotations

import hmac
import http.server
import json
import re
import secrets
import socketserver
import threading
import time
import urllib.parse
from collections.abc import Callable
from http import HTTPStatus

from ..live import HOST, Control, ControlError
from ..program import ProgramError
from ..replay import ticks
from ..stimulus import CHANNELS, microvolts
from .pages import FILES, page, static
from .session import Sessions, TooLong
from .watch import Watch

POLICY = (
    "default-src 'none'; script-src 'self'; style-src 'self' 'unsafe-inline'; connect-src 'self'; img-src 'self'; "
    "base-uri 'none'; form-action 'none'; frame-ancestors 'none'"
)
HEADERS = {
    "Content-Security-Policy": POLICY,
    "X-Content-Type-Options": "nosniff",
    "Referrer-Policy": "no-referrer",
    "Cross-Origin-Resource-Policy": "same-origin",
    "Cross-Origin-Opener-Policy": "same-origin",
    "Cache-Control": "no-store",
}
BODY_MOST = 64  # bytes of a voltage
STREAMS = 16  # streams at a time
QUICKEST = 0.05  # seconds between two states of a stream
ALIVE = 5.0  # seconds after which a stream repeats its state
PATIENCE = 20.0  # seconds that a browser may take to read or to write something
PIECE = 1 << 16
KEPT = 'attachment; filename="session.%s"'
NO_VOLTAGE = "a voltage is a number of volts, -1000 to 1000, in whole microvolts, and not `%s`"
VOLTS = re.compile(r"[+-]?[0-9]{1,20}(\.[0-9]{0,20})?([eE][+-]?[0-9]{1,2})?")
JSON, TEXT, HTML = "application/json", "text/plain; charset=utf-8", "text/html; charset=utf-8"


class _Refused(Exception):
    """A request that isn't done: its status, and why."""

    def __init__(self, status: HTTPStatus, why: str) -> None:
        super().__init__(why)
        self.status = status


class Panel(socketserver.ThreadingTCPServer):
    """Serves the panel of a server. Raises OSError if the port can't be had."""

    daemon_threads = True
    allow_reuse_address = True
    request_queue_size = 64

    def __init__(self, watch: Watch, port: int = 0) -> None:
        self._watch, self._sessions, self.token = watch, Sessions(watch), secrets.token_urlsafe(18)
        self._page = page(watch.server)
        self._is_closing = False
        self._streams = threading.BoundedSemaphore(STREAMS)
        assert watch.server.control is not None
        self._control = Control(watch.server.control)
        self._guard = threading.Lock()
        self._text, self._of = b"", -1.0
        try:
            super().__init__((HOST, port), _Handler)
        except OSError as fault:
            raise OSError(fault.errno, fault.strerror, f"port {port}") from None

    @property
    def port(self) -> int:
        """The port on which it listens."""
        return int(self.server_address[1])

    @property
    def address(self) -> str:
        """The address of the page, with the token."""
        return f"http://{HOST}:{self.port}/?token={self.token}"

    @property
    def _hosts(self) -> tuple[str, str]:
        """What a browser of this machine calls it."""
        return f"{HOST}:{self.port}", f"localhost:{self.port}"

    def server_close(self) -> None:
        """Ends the streams, and listens no more."""
        self._is_closing = True
        with self._watch.changed:
            self._watch.changed.notify_all()
        super().server_close()
        self._control.close()

    def handle_error(self, request: object, client_address: object) -> None:
        """A browser that is gone is no fault."""

    def _state(self) -> bytes:
        """The state as JSON. Streams share it for a moment."""
        with self._guard:
            now = time.monotonic()
            if now - self._of >= QUICKEST / 2:
                self._text = json.dumps(self._watch.state(), separators=(",", ":")).encode()
                self._of = now
            return self._text


class _Handler(http.server.BaseHTTPRequestHandler):
    """Answers requests."""

    server: Panel
    protocol_version = "HTTP/1.1"
    server_version, sys_version = "scanvolt-panel", ""
    timeout = PATIENCE

    def log_message(self, format: str, *args: object) -> None:  # pylint: disable=redefined-builtin
        """Prints nothing: the token is in addresses."""

    def do_GET(self) -> None:
        """Shows something."""
        self._do(
            {
                "/": self._page,
                "/state": self._state,
                "/events": self._events,
                "/record": self._record,
                "/session": self._session,
                "/session.html": self._session_page,
                **{name: self._static for name in FILES},
            }
        )

    def do_POST(self) -> None:
        """Changes something."""
        self._do({"/external": self._external, "/inputs": self._input})

    def _do(self, known: dict[str, Callable[[], None]]) -> None:
        """Does what the path says, or says why not, in a line."""
        self.path, _, asked = self.path.partition("?")
        self._asked = dict(urllib.parse.parse_qsl(asked))
        try:
            self._check_host()
            how = known.get("/inputs" if self.path.startswith("/inputs/") else self.path)
            if how is None:
                raise _Refused(
                    HTTPStatus.NOT_FOUND, f"there is nothing at {self.path[:80]} for {self.command}"
                )
            how()
        except _Refused as fault:
            self._refuse(fault.status, str(fault))
        except (ControlError, ProgramError) as fault:
            self._refuse(HTTPStatus.SERVICE_UNAVAILABLE, str(fault))
        except TooLong as fault:
            self._refuse(HTTPStatus.REQUEST_ENTITY_TOO_LARGE, str(fault))

    def _refuse(self, status: HTTPStatus, why: str) -> None:
        self.close_connection = True  # what it sent besides isn't read
        self._send(json.dumps({"error": why}).encode(), JSON, status)

    def _check_host(self) -> None:
        """Refuses names that aren't this machine's, and pages of other origins."""
        if self.headers.get("Host") not in self.server._hosts:
            raise _Refused(HTTPStatus.FORBIDDEN, f"the Host isn't {self.server._hosts[0]}")
        origin = self.headers.get("Origin")
        if origin is not None and origin not in ["http://" + one for one in self.server._hosts]:
            raise _Refused(HTTPStatus.FORBIDDEN, "a page of another origin asks")
        if self.path != "/" and self.headers.get("Sec-Fetch-Site", "none") not in (
            "none",
            "same-origin",
        ):
            raise _Refused(HTTPStatus.FORBIDDEN, "a page of another site asks")

    def _check_token(self) -> None:
        if not hmac.compare_digest(
            self._asked.get("token", "").encode(), self.server.token.encode()
        ):
            raise _Refused(HTTPStatus.FORBIDDEN, "the token in the address is missing or wrong")

    def _send(
        self,
        data: bytes,
        kind: str,
        status: HTTPStatus = HTTPStatus.OK,
        more: dict[str, str] | None = None,
    ) -> None:
        self._head(kind, status, {"Content-Length": str(len(data)), **(more or {})})
        self.wfile.write(data)

    def _head(self, kind: str, status: HTTPStatus, more: dict[str, str]) -> None:
        self.send_response(status)
        self.send_header("Content-Type", kind)
        for name, value in {**HEADERS, **more}.items():
            self.send_header(name, value)
        if self.close_connection:
            self.send_header("Connection", "close")
        self.end_headers()

    # what is shown
    def _page(self) -> None:
        self._send(self.server._page, HTML)

    def _static(self) -> None:
        self._send(*static(self.path))

    def _state(self) -> None:
        self.server._watch.catch_up()
        self._send(json.dumps(self.server._watch.state()).encode() + b"\n", JSON)

    def _session(self) -> None:
        self.server._watch.catch_up()
        self._send(self.server._sessions.live("all" in self._asked), JSON)

    def _session_page(self) -> None:
        self.server._watch.catch_up()
        self._send(self.server._sessions.page(), HTML, more={"Content-Disposition": KEPT % "html"})

    def _record(self) -> None:
        """The whole lines of the record, with all that the server has answered, and the time that it took for that."""
        watch = self.server._watch
        watch.catch_up()
        (size, ahead), place = watch.explained(), 0
        rest = ticks(ahead)
        if watch.spool.fault:
            raise _Refused(HTTPStatus.GONE, watch.spool.fault)
        self._head(
            TEXT,
            HTTPStatus.OK,
            {"Content-Length": str(size + len(rest)), "Content-Disposition": KEPT % "replay"},
        )
        while place < size:
            piece = watch.spool.read(place, min(PIECE, size - place))
            self.wfile.write(piece)
            place += len(piece)
        self.wfile.write(rest)

    def _events(self) -> None:
        """The state, each time it changes, as server-sent events."""
        if not self.server._streams.acquire(blocking=False):
            raise _Refused(HTTPStatus.SERVICE_UNAVAILABLE, f"there are {STREAMS} streams already")
        try:
            self.close_connection = True
            self._head("text/event-stream", HTTPStatus.OK, {})
            self._stream()
        except OSError:  # the browser is gone, or reads nothing
            pass
        finally:
            self.server._streams.release()

    def _stream(self) -> None:
        watch, seen = self.server._watch, -1
        while not self.server._is_closing:
            seen = watch.version
            self.wfile.write(b"data: %s\n\n" % self.server._state())
            time.sleep(QUICKEST)
            with watch.changed:
                watch.changed.wait_for(
                    lambda: watch.version != seen or self.server._is_closing, ALIVE
                )

    # what is changed
    def _body(self) -> str:
        said = self.headers.get("Content-Length", "0")
        if not said.isdigit() or self.headers.get("Transfer-Encoding"):
            raise _Refused(HTTPStatus.LENGTH_REQUIRED, "the length of the body is missing")
        if len(said) > 9 or int(said) > BODY_MOST:
            raise _Refused(
                HTTPStatus.REQUEST_ENTITY_TOO_LARGE, f"a voltage has at most {BODY_MOST} bytes"
            )
        return self.rfile.read(int(said)).decode("latin-1").strip()

    def _input(self) -> None:
        self._check_token()
        number, said = self.path[len("/inputs/") :], self._body()
        if not re.fullmatch("[1-9][0-9]{0,2}", number) or int(number) > CHANNELS:
            raise _Refused(
                HTTPStatus.NOT_FOUND,
                f"a channel is a whole number, 1 to {CHANNELS}, and not `{number[:40]}`",
            )
        try:
            micro = microvolts(said if VOLTS.fullmatch(said) else "none")
        except ValueError:
            raise _Refused(HTTPStatus.BAD_REQUEST, NO_VOLTAGE % said) from None
        self.server._control.set_input(int(number), said)
        self._send(
            json.dumps({"channel": int(number), "input": micro / 10**6}).encode() + b"\n", JSON
        )

    def _external(self) -> None:
        self._check_token()
        self._body()
        self.server._control.external()
        self._send(b'{"external": true}\n', JSON)
