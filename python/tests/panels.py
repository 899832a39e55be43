"""Panels for the tests, and a client of HTTP that sends what it is told to."""

from __future__ import annotations

import http.client
import json
import socket
import threading
import time
import unittest
from collections.abc import Iterator
from typing import Any, Union

from scanvolt.panel.watch import Watch
from scanvolt.panel.web import Panel
from scanvolt.vxi11 import Client, Link

Body = Union[None, str, bytes]
Answer = tuple[int, str, dict[str, str]]


class WithPanel(unittest.TestCase):
    """A server with a panel for each test."""

    def setUp(self) -> None:
        self.watch = Watch()
        self.addCleanup(self.watch.close)
        self.panel = Panel(self.watch)
        self.watch.start()
        serving = threading.Thread(target=self.panel.serve_forever, args=(0.05,))
        serving.start()
        self.addCleanup(self.panel.server_close)
        self.addCleanup(serving.join)
        self.addCleanup(self.panel.shutdown)

    def link(self, **options: Any) -> Link:
        """A link of a connection of its own."""
        client = Client(port=self.watch.server.core)
        self.addCleanup(client.close)
        return client.create_link(**options)

    def ask(
        self, method: str, path: str, body: Body = None, token: bool = False, **headers: str
    ) -> Answer:
        """The answer to a request: its status, body and headers. `_` in the name of a header is `-`."""
        if token:
            path += "?token=" + self.panel.token
        connection = http.client.HTTPConnection("127.0.0.1", self.panel.port, timeout=30)
        try:
            connection.request(
                method,
                path,
                body,
                {name.replace("_", "-"): value for name, value in headers.items()},
            )
            answer = connection.getresponse()
            return (
                answer.status,
                answer.read().decode(),
                {name.lower(): value for name, value in answer.getheaders()},
            )
        finally:
            connection.close()

    def state(self) -> dict[str, Any]:
        """The state, as a machine asks for it."""
        status, text, _ = self.ask("GET", "/state")
        self.assertEqual(status, 200, text)
        found: dict[str, Any] = json.loads(text)
        return found

    def refused(
        self,
        status: int,
        why: str,
        method: str,
        path: str,
        body: Body = None,
        token: bool = True,
        **headers: str,
    ) -> None:
        """A request is answered by this status and a line that says why; and the instrument's inputs stay."""
        found, text, _ = self.ask(method, path, body, token, **headers)
        self.assertEqual(found, status, text)
        self.assertRegex(json.loads(text)["error"], why)
        self.assertNotIn("\n", text)
        self.assertEqual(self.state()["happened"], 0)


class Stream:
    """A stream of states, as a browser reads it; or doesn't, if it is `slow`."""

    def __init__(self, port: int, slow: bool = False) -> None:
        self.socket = socket.socket()
        if slow:
            self.socket.setsockopt(socket.SOL_SOCKET, socket.SO_RCVBUF, 1024)
        self.socket.settimeout(20)
        self.socket.connect(("127.0.0.1", port))
        self.socket.sendall(b"GET /events HTTP/1.1\r\nHost: 127.0.0.1:%d\r\n\r\n" % port)
        self.file = self.socket.makefile("rb")
        self.head = "" if slow else b"".join(iter(self.file.readline, b"\r\n")).decode()

    def states(self) -> Iterator[dict[str, Any]]:
        """The states as they come."""
        for line in self.file:
            if line.startswith(b"data: "):
                yield json.loads(line[6:])

    def until(self, wanted: str, seconds: float = 60.0) -> float:
        """Reads until a state has this text. Returns how many seconds that took."""
        start = time.monotonic()
        for state in self.states():
            if wanted in json.dumps(state):
                return time.monotonic() - start
            if time.monotonic() - start > seconds:
                break
        raise AssertionError(f"no state has {wanted}")

    def close(self) -> None:
        """The browser is gone."""
        self.file.close()
        self.socket.close()
