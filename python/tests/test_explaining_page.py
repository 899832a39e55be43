"""The page in a real browser: chromium, headless, where it is installed."""

from __future__ import annotations

import base64
import hashlib
import html
import json
import pathlib
import re
import resource
import shutil
import subprocess
import tempfile
import time
import unittest
from typing import Any
from unittest import mock

from scanvolt.explaining import slots
from scanvolt.virtual import Meter

from .browser import Browser
from .explained_sessions import explained
from .limits import within

CHROMIUM = shutil.which("chromium")
# Until what was laid out is painted.
PAINTED = "new Promise(done => requestAnimationFrame(() => requestAnimationFrame(done)))"
# What is done to the page, and what is there then.
ACTS = r"""
addEventListener("load", () => setTimeout(() => {
  const out = {faults: window.faults}, s = document.getElementById("svg"), find = document.getElementById("find");
  const at = (x, y) => ({bubbles: true, cancelable: true, clientX: x, clientY: y});
  const fire = (kind, x, y, more) => s.dispatchEvent(new MouseEvent(kind, {...at(x, y), ...more}));
  const key = name => dispatchEvent(new KeyboardEvent("keydown", {key: name}));
  out.lanes = lanes.filter(one => one.k != "group").map(one => one.n);
  const chosen = document.querySelector(".b.sel").getBoundingClientRect(), rows = document.getElementById("table").getBoundingClientRect();
  out.opened = chosen.top >= rows.top && chosen.bottom <= rows.bottom + 1;
  fit(); draw();
  out.inside = [...document.querySelectorAll("#over text")].every(
    one => one.getBoundingClientRect().right <= over.getBoundingClientRect().right);
  out.uncut = document.getElementById("lanes").scrollHeight <= document.getElementById("lanes").clientHeight + 1;
  const rqs = lanes.find(one => one.id == "poll.6"), rise = rqs.H.filter(one => one[1]).map(one => one[0])[0];
  const box = s.getBoundingClientRect();
  const x = X(rise) + box.left + 1, y = box.top + rqs.y + 8;
  fire("mousemove", x, y);
  out.tip = document.getElementById("tip").hidden ? "" : document.getElementById("tip").textContent;
  fire("mousedown", x, y); fire("mouseup", x, y);
  out.picked = selected == rise;
  out.line = D.slots[rise][1];
  out.why = [...document.querySelectorAll("#chain .why")].map(one => one.textContent);
  out.numbers = [...document.querySelectorAll("#chain .n")].map(one => one.textContent);
  out.circles = [...document.querySelectorAll("#over circle")].length;
  out.shaded = document.querySelectorAll(".r.sel").length;
  out.row = document.querySelector(".b.sel").textContent;
  const before = px;
  s.dispatchEvent(new WheelEvent("wheel", {bubbles: true, cancelable: true, deltaY: -300, clientX: x, clientY: y, ctrlKey: true}));
  out.zoomed = px > before * 2;
  out.stays = Math.abs(X(rise) + box.left + 1 - x) < 3;
  const from = left;
  fire("mousedown", 600, y); fire("mousemove", 560, y); fire("mouseup", 560, y);
  out.dragged = left > from;
  key("ArrowRight"); out.next = selected == rise + 1;
  key("f"); out.whole = left == 0;
  key("r"); out.registers = lanes.some(one => one.g == "enables");
  key("/"); out.focused = document.activeElement == find;
  find.value = "*sre"; find.oninput();
  out.filtered = [...document.querySelectorAll(".b")].filter(one => one.style.display != "none").map(one => one.textContent);
  find.value = "link 1"; find.oninput();
  out.of_link = [...document.querySelectorAll(".b[data-l='1']")].every(one => one.style.display != "none");
  find.value = ""; find.oninput();
  document.querySelector("[data-mode=time]").click();
  out.time = [mode, total == Math.max(D.clock, 1)];
  document.getElementById("theme").click();
  out.dark = getComputedStyle(document.body).backgroundColor;
  document.getElementById("theme").click();
  out.light = getComputedStyle(document.body).backgroundColor;
  out.wide = document.documentElement.scrollWidth <= innerWidth;
  out.foreign = document.querySelectorAll("[onerror], img, iframe, link, script[src]").length;
  out.shown = performance.now();
  const result = document.createElement("pre");
  result.id = "result"; result.textContent = JSON.stringify(out); document.body.append(result);
}, 50));"""


def opened(page: pathlib.Path, *options: str, wide: int = 1400) -> subprocess.CompletedProcess[str]:
    """Opens a page. Standard error has what comes on its console."""
    assert CHROMIUM is not None
    with tempfile.TemporaryDirectory() as profile:
        return subprocess.run(
            [
                CHROMIUM,
                "--headless",
                "--no-sandbox",
                "--disable-gpu",
                "--disable-dev-shm-usage",
                "--user-data-dir=" + profile,
                f"--window-size={wide},900",
                "--enable-logging=stderr",
                "--virtual-time-budget=4000",
                *options,
                page.as_uri(),
            ],
            capture_output=True,
            text=True,
            timeout=120,
            check=False,
        )


def used() -> float:
    """The seconds of a processor that programs started from here have used."""
    found = resource.getrusage(resource.RUSAGE_CHILDREN)
    return found.ru_utime + found.ru_stime


def console(told: subprocess.CompletedProcess[str]) -> list[str]:
    """What came on the console, except of pages of the browser's own."""
    return [
        line
        for line in told.stderr.splitlines()
        if "CONSOLE" in line and "source: chrome://" not in line
    ]


@unittest.skipUnless(CHROMIUM, "chromium isn't there")
class Page(unittest.TestCase):
    """Acts on pages by events, and looks at what is there then."""

    def setUp(self) -> None:
        folder = tempfile.TemporaryDirectory()
        self.addCleanup(folder.cleanup)
        self.folder = pathlib.Path(folder.name)

    def acted(self, text: str, wide: int = 1400) -> dict[str, Any]:
        """Writes a page whose policy allows one more script, which acts on it. Returns what that saw."""
        script = (
            'window.faults = []; addEventListener("error", event => faults.push(event.message));\n'
            + ACTS
        )
        checksum = base64.b64encode(hashlib.sha256(script.encode()).digest()).decode()
        text = text.replace("script-src ", f"script-src 'sha256-{checksum}' ", 1)
        text = text.replace("<script type=", f"<script>{script}</script><script type=", 1)
        path = self.folder / "acts.html"
        path.write_text(text, encoding="utf-8")
        told = opened(path, "--dump-dom", wide=wide)
        self.assertEqual(console(told), [])
        found = re.search(r'<pre id="result">(.*?)</pre>', told.stdout, re.DOTALL)
        assert found is not None, told.stderr
        result: dict[str, Any] = json.loads(html.unescape(found[1]))
        return result

    def test_each_session(self) -> None:
        """No error comes on the console, light and dark, narrow and wide, and on both axes."""
        for place, name in enumerate(("session", "hung", "lock", "requests")):
            path = self.folder / (name + ".html")
            path.write_text(explained(name).page(name), encoding="utf-8")
            options, wide = (["--force-dark-mode"], 1000) if place % 2 else ([], 1400)
            with self.subTest(name):
                self.assertEqual(console(opened(path, "--dump-dom", *options, wide=wide)), [])

    def test_acts(self) -> None:
        """Hover, click, wheel, drag, keys, filter, axes and colours. A click on RQS gives the tree of --why."""
        found = explained("session")
        for wide in 1400, 1000:
            seen = self.acted(found.page("session"), wide)
            with self.subTest(wide):
                self.assertEqual(seen["faults"], [])
                for name in (
                    "picked",
                    "zoomed",
                    "stays",
                    "dragged",
                    "next",
                    "whole",
                    "registers",
                    "focused",
                    "wide",
                    "opened",
                    "inside",
                    "uncut",
                    "of_link",
                ):
                    self.assertTrue(seen[name], name)
                self.assertIn("RQS = 1", seen["tip"])
                why = found.why(f"RQS@line {seen['line']}").splitlines()
                self.assertEqual(seen["why"], [re.sub(r"^[ |`-]*", "", line) for line in why])
                self.assertEqual(
                    seen["numbers"], [str(one + 1) for one in range(len(seen["numbers"]))]
                )
                self.assertEqual(seen["circles"], len(seen["numbers"]))
                self.assertGreater(seen["shaded"], 0)
                self.assertIn("the last reading", seen["row"])
                self.assertEqual(len(seen["filtered"]), 1)
                self.assertIn("*SRE 24", seen["filtered"][0])
                self.assertEqual(seen["time"], ["time", True])
                self.assertNotEqual(seen["dark"], seen["light"])

    def test_hostile_bytes(self) -> None:
        """Bytes of units, handles and names of files stay text."""
        evil = "<!--<script>alert(1)</script><img src=x onerror=alert(2)>{{DATA}}'\"&"
        with Meter() as meter, meter.connect() as connection, connection.create_link() as link:
            connection.listen()
            link.enable_srq(b"<img src=x onerror=alert(3)>")
            link.write("*SRE 4;" + evil)
            page = meter.explain().page(evil)
        seen = self.acted(page)
        self.assertEqual((seen["faults"], seen["foreign"]), ([], 0))
        self.assertIn("default-src 'none'", page)
        self.assertEqual(re.findall(r"(?:src|href)\s*=\s*[\"']?(?:http|//)", page), [])

    def test_it_prints(self) -> None:
        """As a PDF, whose pages have all of the table."""
        path = self.folder / "page.html"
        path.write_text(explained("session").page("session"), encoding="utf-8")
        opened(path, f"--print-to-pdf={self.folder / 'page.pdf'}")
        self.assertGreater(
            len(re.findall(rb"/Type\s*/Page\b", (self.folder / "page.pdf").read_bytes())), 2
        )

    def test_many_calls(self) -> None:
        """2,000 calls take 3 s of a processor more than 20 do. Of too many the last are shown, which is said."""
        seconds = []
        for count in 10, 1000:
            path = self.folder / "page.html"
            path.write_text(self.polls(count), encoding="utf-8")
            began = used()
            self.assertEqual(console(opened(path, "--dump-dom")), [])
            seconds.append(used() - began)
        self.assertLess(seconds[1] - seconds[0], within(3))
        with mock.patch.object(slots, "MOST", 30), mock.patch.object(slots, "KEPT", 20):
            page = self.polls(20)
            self.assertIn("only the last 20 calls are shown", page)
            self.assertEqual(self.acted(page)["faults"], [])

    def test_many_calls_are_shown_soon(self) -> None:
        """By the clock, a browser that runs shows 2,000 calls in 3 s."""
        path = self.folder / "page.html"
        path.write_text(self.polls(1000), encoding="utf-8")
        with Browser() as browser:
            began = time.monotonic()
            page = browser.page(path.as_uri())
            page.wait("document.readyState == 'complete' && lanes.length", 60)
            page.run(PAINTED)
            self.assertLess(time.monotonic() - began, within(3))
            self.assertEqual(page.faults(), [])

    def polls(self, count: int) -> str:
        """The page of a session of twice as many calls."""
        with Meter() as meter, meter.connect() as connection, connection.create_link() as link:
            for number in range(count):
                link.write(f"*SRE {4 * (number % 2)};FOO")
                link.readstb()
                if number == count // 2:
                    link.write("*CLS;*SRE 0")
            return meter.explain().page("polls")


if __name__ == "__main__":
    unittest.main()
