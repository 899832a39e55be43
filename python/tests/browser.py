"""Chromium, headless, driven over a pipe by its DevTools protocol. It needs nothing but chromium itself."""

from __future__ import annotations

import base64
import json
import os
import select
import shutil
import subprocess
import tempfile
import time
from typing import Any

CHROMIUM = shutil.which("chromium")
KEYS = {"ArrowRight": 39, "Enter": 13}
MIDDLE = (
    "(() => { const one = document.querySelector(%s); one.scrollIntoView({block: 'nearest'}); "
    "const box = one.getBoundingClientRect(); return [box.left + box.width / 2, box.top + box.height / 2]; })()"
)
PATIENCE = 60.0  # seconds that the browser may take to answer
# The browser reads from descriptor 3 and writes to 4. A shell moves the pipes there.
START = 'exec "$0" "$@" 3<&%d 4>&%d'


class Browser:
    """A browser with its pages. Ends with its `with` block."""

    def __init__(self) -> None:
        assert CHROMIUM is not None
        self._folder = tempfile.mkdtemp(prefix="chromium-")
        theirs, self._to = os.pipe()
        self._from, back = os.pipe()
        self._process = subprocess.Popen(
            [
                "/bin/sh",
                "-c",
                START % (theirs, back),
                CHROMIUM,
                "--headless",
                "--no-sandbox",
                "--disable-gpu",
                "--disable-dev-shm-usage",
                "--hide-scrollbars",
                "--user-data-dir=" + self._folder,
                "--remote-debugging-pipe",
                "about:blank",
            ],
            stdin=subprocess.DEVNULL,
            stdout=subprocess.DEVNULL,
            stderr=subprocess.DEVNULL,
            pass_fds=(theirs, back),
        )
        os.close(theirs)
        os.close(back)
        self._rest, self._number = b"", 0
        self.events: list[dict[str, Any]] = []

    def __enter__(self) -> Browser:
        return self

    def __exit__(self, kind: type[BaseException] | None, *_: object) -> None:
        self.close()

    def close(self) -> None:
        """Ends the browser."""
        self._process.kill()
        self._process.wait()
        os.close(self._to)
        os.close(self._from)
        shutil.rmtree(self._folder, ignore_errors=True)

    def page(self, address: str, wide: int = 1400, high: int = 900, dark: bool = False) -> Page:
        """A new page at an address."""
        target = self.call("Target.createTarget", None, url="about:blank")["targetId"]
        session = self.call("Target.attachToTarget", None, targetId=target, flatten=True)[
            "sessionId"
        ]
        return Page(self, target, session, address, (wide, high), dark)

    def call(self, method: str, session: str | None, **parameters: object) -> dict[str, Any]:
        """Calls a method, and returns its result."""
        self._number += 1
        message: dict[str, Any] = {"id": self._number, "method": method, "params": parameters}
        if session is not None:
            message["sessionId"] = session
        os.write(self._to, json.dumps(message).encode() + b"\0")
        until = time.monotonic() + PATIENCE
        while True:
            told = self._told(until)
            if told is None:
                raise TimeoutError(f"the browser doesn't answer to {method}")
            if told.get("id") == self._number:
                if "error" in told:
                    raise RuntimeError(f"{method}: {told['error']}")
                result: dict[str, Any] = told["result"]
                return result
            self.events.append(told)

    def _told(self, until: float) -> dict[str, Any] | None:
        """The next message of the browser; None if none comes by this time."""
        while b"\0" not in self._rest:
            if not select.select([self._from], [], [], max(0.0, until - time.monotonic()))[0]:
                return None
            piece = os.read(self._from, 1 << 20)
            if not piece:
                raise ConnectionError("the browser ended")
            self._rest += piece
        text, _, self._rest = self._rest.partition(b"\0")
        found: dict[str, Any] = json.loads(text)
        return found


class Page:
    """A page of a browser."""

    def __init__(
        self, browser: Browser, target: str, session: str, address: str, size: Any, dark: bool
    ) -> None:
        self.browser, self.target, self.session = browser, target, session
        for domain in ("Page", "Runtime", "Log", "Network"):
            self._call(domain + ".enable")
        self.size(*size)
        scheme = {"name": "prefers-color-scheme", "value": "dark" if dark else "light"}
        self._call("Emulation.setEmulatedMedia", features=[scheme])
        self._call("Page.navigate", url=address)

    def _call(self, method: str, **parameters: object) -> dict[str, Any]:
        return self.browser.call(method, self.session, **parameters)

    def run(self, script: str) -> Any:
        """The value of an expression in the page. Promises are awaited."""
        told = self._call(
            "Runtime.evaluate", expression=script, returnByValue=True, awaitPromise=True
        )
        if "exceptionDetails" in told:
            why = told["exceptionDetails"].get("exception", {}).get("description")
            raise RuntimeError(f"{script}: {why}")
        return told["result"].get("value")

    def wait(self, condition: str, seconds: float = 10.0) -> float:
        """Waits until an expression holds, and returns how many seconds that took. Raises AssertionError if it never does."""
        start = time.monotonic()
        while True:
            try:
                if self.run(f"!!({condition})"):
                    return time.monotonic() - start
            except RuntimeError:  # the page isn't there yet
                pass
            if time.monotonic() - start > seconds:
                raise AssertionError(f"after {seconds:g} s it isn't so: {condition}")
            time.sleep(0.01)

    def close(self) -> None:
        """Closes the page."""
        self.browser.call("Target.closeTarget", None, targetId=self.target)

    def reload(self) -> None:
        """Loads the page anew."""
        self._call("Page.reload")

    def key(self, key: str) -> None:
        """Presses a key."""
        for kind in ("keyDown", "keyUp"):
            self._call(
                "Input.dispatchKeyEvent",
                type=kind,
                key=key,
                code=key,
                windowsVirtualKeyCode=KEYS.get(key, 0),
            )

    def type(self, text: str) -> None:
        """Types a text where the cursor is."""
        self._call("Input.insertText", text=text)

    def click(self, selector: str) -> None:
        """Clicks on the middle of an element."""
        box = self.run(MIDDLE % json.dumps(selector))
        self.mouse("mousePressed", *box)
        self.mouse("mouseReleased", *box)

    def mouse(self, kind: str, x: float, y: float) -> None:
        """What the mouse does."""
        buttons = 0 if kind == "mouseReleased" else 1
        self._call(
            "Input.dispatchMouseEvent",
            type=kind,
            x=x,
            y=y,
            button="left",
            buttons=buttons,
            clickCount=1,
        )

    def size(self, wide: int, high: int) -> None:
        """Makes the window as wide and high, in pixels."""
        self._call(
            "Emulation.setDeviceMetricsOverride",
            width=wide,
            height=high,
            deviceScaleFactor=1,
            mobile=False,
        )

    def png(self) -> bytes:
        """A screenshot."""
        return base64.b64decode(self._call("Page.captureScreenshot", format="png")["data"])

    def picture(self, path: str) -> None:
        """Writes a screenshot."""
        with open(path, "wb") as file:
            file.write(self.png())

    def faults(self) -> list[str]:
        """What came on the console: errors, and what the policy refused."""
        self.run("1")
        found = []
        for one in self.browser.events:
            if one.get("sessionId") != self.session:
                continue
            if one["method"] == "Runtime.exceptionThrown":
                found.append(
                    str(one["params"]["exceptionDetails"].get("exception", {}).get("description"))
                )
            elif one["method"] == "Log.entryAdded" and one["params"]["entry"]["level"] == "error":
                entry = {"url": "", **one["params"]["entry"]}
                found.append(f"{entry['text']} {entry['url']}")
        return found

    def requests(self) -> list[str]:
        """The addresses that were asked for."""
        self.run("1")
        return [
            one["params"]["request"]["url"]
            for one in self.browser.events
            if one.get("sessionId") == self.session and one["method"] == "Network.requestWillBeSent"
        ]
