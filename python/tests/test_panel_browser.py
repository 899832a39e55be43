"""The panel in a real browser: chromium, headless, where it is installed."""

from __future__ import annotations

import os
import signal
import threading
import time
import unittest

from scanvolt.vxi11 import Link

from .browser import CHROMIUM, Browser, Page
from .limits import within
from .panels import WithPanel
from .processes import kill, stop

LIT = "document.querySelector('[data-lamp=\"%s\"][data-bit=%s]').classList.contains('on')"


@unittest.skipUnless(CHROMIUM, "chromium isn't there")
class InABrowser(WithPanel):
    """Pages of a panel, in a browser that all tests share."""

    browser: Browser

    @classmethod
    def setUpClass(cls) -> None:
        cls.browser = Browser()

    @classmethod
    def tearDownClass(cls) -> None:
        cls.browser.close()

    def page(self, wide: int = 1400, dark: bool = False, token: bool = True) -> Page:
        """A page of the panel, that has its first state."""
        address = self.panel.address if token else self.panel.address.partition("?")[0]
        found = self.browser.page(address, wide, 900, dark)
        found.wait("typeof state == 'object' && state", 30)
        self.addCleanup(found.close)
        self.addCleanup(self.sound, found)
        return found

    def sound(self, page: Page) -> None:
        """Nothing came on the console, and nothing was asked for elsewhere."""
        # what a test asked for in vain
        self.assertEqual([one for one in page.faults() if "status of 40" not in one], [])
        self.assertEqual(
            [
                one
                for one in page.requests()
                if not one.startswith(f"http://127.0.0.1:{self.panel.port}/")
            ],
            [],
        )

    # knobs
    def test_a_voltage_is_the_next_reading(self) -> None:
        page, link = self.page(), self.link()
        page.run("choose(3)")
        page.click("#volts")
        page.run("document.getElementById('volts').select()")
        page.type("2.5")
        page.key("Enter")
        page.wait("document.getElementById('said').textContent == 'channel 3 = 2.5 V'")
        self.assertEqual(link.query("MEAS:VOLT? (@3)"), "+2.500000")
        page.wait("document.getElementById('newest').textContent == '+2.500000'")
        page.wait("tiles[2].querySelector('.v').textContent == '+2.5000'")
        page.run("document.getElementById('volts').value = '1000.1'")
        page.click("#set")
        page.wait(
            "document.getElementById('said').textContent.startsWith('a voltage is a number of volts')"
        )
        self.assertEqual(link.query("MEAS:VOLT? (@3)"), "+2.500000")

    def test_a_slider_that_is_moved(self) -> None:
        page, link = self.page(), self.link()
        page.click("#tiles .tile:nth-child(17)")
        left, top, wide, high = page.run(
            "(() => { const r = document.getElementById('slider').getBoundingClientRect(); "
            "return [r.left, r.top, r.width, r.height]; })()"
        )
        page.mouse("mousePressed", left + wide / 2, top + high / 2)
        for part in (0.55, 0.6, 0.65, 0.7, 0.75):
            page.mouse("mouseMoved", left + wide * part, top + high / 2)
        page.mouse("mouseReleased", left + wide * 0.75, top + high / 2)
        page.wait(
            "!sending && document.getElementById('said').textContent.startsWith('channel 17')"
        )
        wanted = float(page.run("document.getElementById('slider').value"))
        self.assertGreater(wanted, 4)
        page.wait(f"channelOf(17).input == {wanted!r}")
        self.assertEqual(float(link.query("MEAS:VOLT? (@17)")), wanted)
        page.key("ArrowRight")
        page.wait(f"!sending && channelOf(17).input > {wanted!r}")
        self.assertAlmostEqual(float(link.query("MEAS:VOLT? (@17)")), wanted + 0.01)

    def test_the_external_trigger(self) -> None:
        page, link = self.page(), self.link()
        link.write("CONF:VOLT (@1:4);:TRIG:SOUR EXT;:INIT")
        page.wait("document.getElementById('external').classList.contains('awaited')")
        page.click("#external")
        page.wait("document.getElementById('said').textContent == 'triggered'")
        page.wait("document.getElementById('count').textContent == '4 readings'")
        self.assertEqual(link.query("FETC?").count("+0.000000"), 4)

    def test_without_a_token(self) -> None:
        page = self.page(token=False)
        page.wait(
            "document.getElementById('alarm').textContent.startsWith('This address has no token')"
        )
        for name in ("set", "slider", "external", "volts", "zero"):
            self.assertTrue(page.run(f"document.getElementById('{name}').disabled"), name)
        self.assertEqual(page.run("send('/inputs/3', '1')"), False)
        self.assertEqual(self.state()["happened"], 0)

    def test_a_page_of_another_origin_sets_nothing(self) -> None:
        page = self.browser.page("data:text/html,<title>elsewhere</title>")
        address = self.panel.address
        for how in ("", ", mode: 'no-cors'"):
            inputs = address.replace("/?", "/inputs/3?")
            external = address.replace("/?", "/external?")
            page.run(f"fetch('{inputs}', {{method: 'POST', body: '1'{how}}}).catch(() => 0)")
            page.run(f"fetch('{external}', {{method: 'POST'{how}}}).catch(() => 0)")
        page.run(f"document.body.innerHTML = '<iframe src=\"{address}\"></iframe>'")
        time.sleep(0.5)
        self.assertEqual(self.state()["happened"], 0)

    # what is shown
    def test_a_lamp_follows_a_bit(self) -> None:
        page, link = self.page(), self.link()
        took = []
        for _ in range(3):
            link.write("*CLS;*ESE 1;*SRE 32;CONF:VOLT (@1:3);:INIT;*OPC")
            took.append(page.wait(LIT % ("STB", "RQS")))
            link.write("*CLS")
            took.append(page.wait("!" + LIT % ("STB", "RQS")))
        self.assertLess(sorted(took)[len(took) // 2], within(0.2), took)
        self.assertTrue(
            page.run(
                "document.querySelector('[data-lamp=STB][data-bit=RQS]').ariaLabel.endsWith('off')"
            )
        )

    def test_a_bit_that_is_gone_at_once_flashes(self) -> None:
        page, link = self.page(), self.link()
        page.run(
            "window.flashes = 0; "
            "new MutationObserver(all => all.forEach(one => { if (one.target.classList.contains('flash')) flashes++; }))"
            ".observe(document.querySelector('[data-lamp=STB][data-bit=MAV]'), {attributeFilter: ['class']})"
        )
        link.query("*IDN?")
        page.wait("flashes > 0 || " + LIT % ("STB", "MAV"))

    def test_a_bit_flashes_that_was_lit_before_the_first_state_is_drawn(self) -> None:
        flashes = self.page().run(
            "(() => { const first = JSON.stringify(state), next = JSON.parse(first), register = next.registers.STB; "
            "register.rises = {MAV: ((register.rises || {}).MAV || 0) + 1}; state = null; seen.clear(); "
            "stream.onmessage({data: first}); stream.onmessage({data: JSON.stringify(next)}); drawFront(); "
            "return document.querySelector('[data-lamp=STB][data-bit=MAV]').classList.contains('flash'); })()"
        )
        self.assertTrue(flashes)

    def test_who_waits_for_whom(self) -> None:
        page, one, other = self.page(), self.link(), self.link()
        one.lock()
        other.lock_timeout = 60000
        waiting = threading.Thread(target=other.lock)
        waiting.start()
        page.wait(
            r"/c1 link 2 lock has waited since [\d,]+ ms for the lock/.test(document.getElementById('waits').textContent)"
        )
        page.wait(
            "document.getElementById('waits').textContent.includes('link 1 (c0) has held it since')"
        )
        page.wait(
            "document.getElementById('links-now').textContent.includes('link 1holds the lock')"
        )
        page.wait("document.querySelector('[data-mark=LOCK]').classList.contains('on')")
        one.unlock()
        waiting.join()
        page.wait("document.getElementById('waits').textContent == 'nobody waits'")

    def test_limits_and_overloads(self) -> None:
        page, link = self.page(), self.link()
        for channel, volts in ((1, 1), (2, 7), (3, -7), (4, 13)):
            self.watch.server.set_input(channel, volts)
        link.write("CONF:VOLT (@1:4);:CALC:LIM:UPP 5;LOW -5;STAT ON;:INIT")
        page.wait("tiles[3].classList.contains('out')")
        out = page.run("tiles.slice(0, 5).map(one => one.classList.contains('out'))")
        self.assertEqual(out, [False, True, True, True, False])
        marks = page.run("tiles.slice(1, 4).map(one => one.querySelector('b').textContent)")
        self.assertEqual(marks, ["\u25b2", "\u25bc", "OVL"])
        self.assertEqual(
            page.run("document.getElementById('limits').textContent"), "\u22125 V to 5 V"
        )
        self.assertEqual(
            page.run("tiles.slice(0, 5).map(one => one.classList.contains('listed'))"),
            [True] * 4 + [False],
        )

    def test_hostile_bytes(self) -> None:
        page, link = self.page(), self.link()
        for text in (
            "<img src=x onerror=alert(1)>",
            "</script><script>alert(1)</script>",
            "<!--<script>",
            "{{DATA}}",
        ):
            link.write(text)
        page.wait("document.getElementById('log').textContent.includes('{{DATA}}')")
        page.click("[data-tab=session]")
        page.wait("document.getElementById('table').textContent.includes('{{DATA}}')")
        self.assertEqual(page.run("document.querySelectorAll('img, iframe, [onerror]').length"), 0)

    def test_two_pages(self) -> None:
        pages, link = [self.page(), self.page(1000, True)], self.link()
        link.write("FOO")
        for page in pages:
            page.wait("document.getElementById('errors').textContent == '-113 Undefined header'")
            page.wait(LIT % ("ESR", "CME"))
        pages[0].run("choose(5)")
        pages[0].run("document.getElementById('volts').value = '3'")
        pages[0].click("#set")
        pages[1].wait("channelOf(5).input == 3")
        self.assertEqual(pages[1].run("chosen"), 1)

    def test_reload(self) -> None:
        page, link = self.page(), self.link()
        link.write("FOO")
        page.wait(LIT % ("ESR", "CME"))
        page.run("window.old = true")
        page.reload()
        page.wait("!window.old && state && " + LIT % ("ESR", "CME"), 20)
        # the token stayed in the address
        self.assertFalse(page.run("document.getElementById('set').disabled"))

    def test_a_server_that_is_killed_is_said(self) -> None:
        page, link = self.page(), self.link()
        link.write("FOO")
        page.wait(LIT % ("ESR", "CME"))
        kill(self.watch.server.process.pid)
        page.wait(
            "document.getElementById('alarm').textContent == 'The server was ended by signal 9.'", 3
        )
        self.assertTrue(page.run("document.getElementById('set').disabled"))
        self.assertTrue(page.run(LIT % ("ESR", "CME")))  # what was last is still shown
        first = page.run("document.getElementById('clock').textContent")
        time.sleep(0.3)
        self.assertEqual(page.run("document.getElementById('clock').textContent"), first)
        page.reload()
        page.wait("state && document.getElementById('life').textContent == 'ended'", 20)

    def test_a_server_that_is_stopped_is_said(self) -> None:
        page = self.page()
        stop(self.watch.server.process.pid)
        page.wait(
            "document.getElementById('alarm').textContent == \"The server doesn't answer.\"", 5
        )
        os.kill(self.watch.server.process.pid, signal.SIGCONT)
        page.wait("document.getElementById('alarm').hidden", 5)

    def test_the_clock(self) -> None:
        page = self.page()
        shown, passed = page.run(
            "(async () => { const at = () => [+$('clock').textContent.replace(/,/g, ''), performance.now()], first = at(); "
            "await new Promise(done => setTimeout(done, 1500)); const last = at(); return last.map((one, k) => one - first[k]); })()"
        )
        self.assertAlmostEqual(shown, passed, delta=300)

    # the session
    def followed(self, page: Page, link: Link) -> None:
        """Opens the session, and waits until it is there."""
        link.write("*ESE 32;*SRE 32;FOO")
        page.click("[data-tab=session]")
        page.wait("document.getElementById('table').textContent.includes('error -113')")

    def test_the_session_follows(self) -> None:
        page, link = self.page(), self.link()
        self.followed(page, link)
        link.write("*CLS")
        page.wait("document.getElementById('table').textContent.includes('*CLS')", 5)
        self.assertTrue(
            page.run("selected == N - 1 && document.querySelectorAll('#svg rect').length > 20")
        )
        self.assertTrue(
            page.run(
                "(t => t.scrollTop + t.clientHeight >= t.scrollHeight - 2)(document.getElementById('table'))"
            )
        )

    def test_stopped_it_says_what_would_end_a_wait(self) -> None:
        page, link = self.page(), self.link()
        link.write("TRIG:SOUR EXT;:INIT;*OPC?")
        page.click("[data-tab=session]")
        page.wait(
            "document.getElementById('ending').textContent.includes('every device_write and device_read will wait')"
        )
        self.assertNotIn("would end it", page.run("document.getElementById('ending').textContent"))
        # while it asks
        page.run("(asking = true, $('follow').click(), asking = false, wholeNext && ask(true))")
        page.wait("document.getElementById('ending').textContent.includes('EXTernal trigger, at')")
        self.watch.server.external()

    def test_it_is_stopped_and_searched_while_it_runs(self) -> None:
        page, link = self.page(), self.link()
        self.followed(page, link)
        page.click("#follow")
        page.wait("document.getElementById('follow').textContent == 'stopped' && !asking")
        link.write("*ESE 8")
        time.sleep(0.8)
        self.assertFalse(
            page.run("document.getElementById('table').textContent.includes('*ESE 8')")
        )
        page.click("#find")
        page.type("*sre")
        shown = "[...$('table').children].filter(one => one.style.display != 'none').map(one => one.textContent)"
        self.assertEqual(len(page.run(shown)), 1)
        page.run(
            "pick(lanes.find(one => one.id == 'poll.6').H.slice(-1)[0][0], lanes.find(one => one.id == 'poll.6'))"
        )
        self.assertIn("error -113", page.run("document.getElementById('chain').textContent"))
        page.click("#follow")
        page.wait("document.getElementById('table').textContent.includes('*ESE 8')", 5)
        self.assertEqual(len(page.run(shown)), 1)  # the filter stays

    def test_it_fits(self) -> None:
        for wide in (1000, 1400):
            page, link = self.page(wide), self.link()
            self.followed(page, link)
            for tab in ("session", "front"):
                page.click(f"[data-tab={tab}]")
                self.assertTrue(
                    page.run("document.documentElement.scrollWidth <= innerWidth"), (wide, tab)
                )
            values = page.run(
                "[...document.querySelectorAll('.tile .v')].map(one => [one.scrollWidth, one.clientWidth])"
            )
            self.assertEqual([one for one in values if one[0] > one[1] + 1], [])


if __name__ == "__main__":
    unittest.main()
