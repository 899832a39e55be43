"""The panel over HTTP: what it shows, what it changes, and for whom."""

from __future__ import annotations

import fcntl
import json
import os
import selectors
import signal
import socket
import threading
import time
import unittest
from typing import Any
from unittest import mock

from scanvolt.explaining.explanation import Explanation
from scanvolt.panel import session, web
from scanvolt.panel.pages import FILES
from scanvolt.panel.spool import Spool
from scanvolt.panel.watch import Watch
from scanvolt.panel.web import POLICY
from scanvolt.vxi11 import calls

from .limits import within
from .panels import Body, Stream, WithPanel
from .processes import kill, stop
from .test_live import replayed


class Knobs(WithPanel):
    """What changes something."""

    def test_an_input_is_the_next_reading(self) -> None:
        link = self.link()
        for said, read in (
            ("2.5", "+2.500000"),
            ("-0.000001", "-0.000001"),
            (" +9 ", "+9.000000"),
            ("1e-3", "+0.001000"),
            ("0", "+0.000000"),
        ):
            status, text, _ = self.ask("POST", "/inputs/3", said, True)
            self.assertEqual(
                (status, json.loads(text)), (200, {"channel": 3, "input": float(said)})
            )
            self.assertEqual(link.query("MEAS:VOLT? (@3)"), read)
            found = next(one for one in self.state()["channels"] if one["channel"] == 3)
            self.assertEqual((found["input"], found["reading"]), (float(said), float(read)))

    def test_the_external_trigger(self) -> None:
        link = self.link()
        link.write("CONF:VOLT (@1:2);:TRIG:SOUR EXT;:INIT")
        self.assertEqual(self.state()["scan"]["now"], "waits for an EXTernal trigger, scan 1 of 1")
        self.assertEqual(self.ask("POST", "/external", "", True)[:2], (200, '{"external": true}\n'))
        time.sleep(0.01)
        self.assertEqual(self.state()["scan"]["readings"], 2)
        self.assertEqual(link.query("FETC?"), "+0.000000,+0.000000")

    def test_bad_voltages_and_channels(self) -> None:
        bad: list[Body] = [
            "",
            "much",
            "nan",
            "inf",
            "1_0",
            "1,5",
            "1000.1",
            "-1e9",
            "0.0000001",
            "1e-99",
            "0x10",
            "2.5;external",
            "\u0662".encode(),
        ]
        for said in bad:
            self.refused(
                400, "^a voltage is a number of volts, -1000 to 1000", "POST", "/inputs/3", said
            )
        for number in ("0", "129", "-1", "03", "x", "", "3/4", "1" * 400):
            self.refused(
                404,
                "^a channel is a whole number, 1 to 128, and not `",
                "POST",
                "/inputs/" + number,
                "1",
            )
        self.refused(413, "at most 64 bytes", "POST", "/inputs/3", "1" * 65)
        self.refused(411, "length", "POST", "/inputs/3", "1", Content_Length="-1")
        self.refused(411, "length", "POST", "/inputs/3", "1", Transfer_Encoding="chunked")

    def test_the_token(self) -> None:
        self.refused(403, "token", "POST", "/inputs/3", "1", token=False)
        self.refused(403, "token", "POST", "/external", token=False)
        for wrong in (
            "?token=",
            "?token=x",
            "?token=" + self.panel.token[:-1],
            "?Token=" + self.panel.token,
            "?token=%E2%82%AC",
        ):
            self.refused(403, "token", "POST", "/external" + wrong, token=False)
        self.assertNotIn(
            self.panel.token,
            "".join(self.ask("GET", path)[1] for path in ("/", "/state", "/session", "/record")),
        )

    def test_pages_of_other_origins(self) -> None:
        mine = f"http://127.0.0.1:{self.panel.port}"
        others = (
            "http://evil.example",
            "null",
            "http://127.0.0.1:1",
            mine.replace("http", "https"),
            mine + ".evil.example",
        )
        for origin in others:
            self.refused(403, "another origin", "POST", "/inputs/3", "1", Origin=origin)
            self.refused(403, "another origin", "POST", "/external", "", Origin=origin)
            self.refused(403, "another origin", "GET", "/state", Origin=origin)
        self.refused(403, "another site", "POST", "/inputs/3", "1", Sec_Fetch_Site="cross-site")
        self.refused(403, "another site", "GET", "/record", Sec_Fetch_Site="same-site")
        self.assertEqual(
            self.ask("POST", "/inputs/3", "1", True, Origin=mine, Sec_Fetch_Site="same-origin")[0],
            200,
        )
        # a link leads to the page
        self.assertEqual(self.ask("GET", "/", Sec_Fetch_Site="cross-site")[0], 200)

    def test_names_that_lead_here(self) -> None:
        port = self.panel.port
        for host in (
            "evil.example",
            f"evil.example:{port}",
            "127.0.0.1",
            "127.0.0.1:1",
            "",
            f"[::1]:{port}",
        ):
            self.refused(403, "Host", "POST", "/inputs/3", "1", Host=host)
            for path in ("/", "/state", "/events", "/record", "/session", "/panel.js"):
                self.assertEqual(self.ask("GET", path, Host=host)[0], 403)
        self.assertEqual(self.ask("GET", "/state", Host=f"localhost:{self.panel.port}")[0], 200)

    def test_other_paths_and_methods(self) -> None:
        for method, path in (
            ("GET", "/none"),
            ("GET", "/external"),
            ("GET", "/inputs/3"),
            ("POST", "/"),
            ("POST", "/state"),
            ("GET", "/../web.py"),
            ("GET", "/panel.html"),
        ):
            self.refused(404, "there is nothing at", method, path)
        for method in ("PUT", "DELETE", "OPTIONS", "HEAD"):
            self.assertEqual(self.ask(method, "/inputs/3", "1", True)[0], 501)
        self.assertEqual(self.state()["happened"], 0)

    def test_a_server_that_is_gone(self) -> None:
        kill(self.watch.server.process.pid)
        status, text, _ = self.ask("POST", "/inputs/3", "1", True)
        self.assertEqual(status, 503)
        self.assertRegex(json.loads(text)["error"], "^the control port [0-9]+ doesn't answer")


class Shown(WithPanel):
    """What is shown."""

    def test_headers(self) -> None:
        for path in ("/", "/state", "/record", "/session", "/none", *FILES):
            _, _, headers = self.ask("GET", path)
            self.assertEqual(
                (
                    headers["content-security-policy"],
                    headers["x-content-type-options"],
                    headers["cache-control"],
                ),
                (POLICY, "nosniff", "no-store"),
            )
            self.assertNotIn("access-control-allow-origin", headers)
        for part in (
            "default-src 'none'",
            "connect-src 'self'",
            "script-src 'self';",
            "frame-ancestors 'none'",
            "form-action 'none'",
        ):
            self.assertIn(part, POLICY)

    def test_it_listens_on_this_machine_alone(self) -> None:
        self.assertEqual(self.panel.server_address[0], "127.0.0.1")
        with self.assertRaises(OSError):
            socket.create_connection(("127.0.0.2", self.panel.port), 1).close()

    def test_the_page(self) -> None:
        status, text, headers = self.ask("GET", "/")
        self.assertEqual((status, headers["content-type"]), (200, "text/html; charset=utf-8"))
        core = f"core {self.watch.server.core}"
        for wanted in (
            'data-lamp="STB" data-bit="RQS"',
            'data-lamp="LIM.event" data-bit="ABOVE"',
            core,
        ):
            self.assertIn(wanted, text)
        self.assertNotIn("{{", text)
        self.assertNotIn("http://", text.replace("http://www.w3.org", ""))
        for path, kind in FILES.items():
            self.assertEqual(self.ask("GET", path)[2]["content-type"], kind)

    def test_the_state(self) -> None:
        link = self.link()
        link.write("*CLS;*ESE 32;*SRE 36;FOO")
        found = self.state()
        self.assertEqual(found["registers"]["STB"]["bits"], ["RQS", "ESB", "EAV"])
        self.assertEqual(found["errors"], [{"number": -113, "text": "Undefined header"}])
        self.assertEqual([(one["link"], one["connection"]) for one in found["links"]], [(1, 0)])
        self.assertEqual(found["server"]["ports"]["core"], self.watch.server.core)
        link.readstb()
        self.assertEqual(self.state()["registers"]["STB"]["bits"], ["ESB", "EAV"])

    def test_the_state_has_all_that_was_answered(self) -> None:
        link = self.link()
        for count in range(60):
            link.write(f"*ESE {count}")
            self.assertEqual(self.state()["registers"]["ESE"]["value"], count)

    def test_the_record(self) -> None:
        link = self.link()
        self.ask("POST", "/inputs/3", "2.5", True)
        link.write("CONF:VOLT (@3:102);:READ?")
        self.assertEqual(link.read()[:10], b"+2.500000,")  # it came 100 ms after the last event
        status, text, headers = self.ask("GET", "/record")
        self.assertEqual((status, headers["content-type"]), (200, "text/plain; charset=utf-8"))
        self.assertTrue(text.endswith("\n"))
        self.assertIn("\ninput 3 2500000\n", text)
        self.assertTrue(
            any(
                "2b322e3530303030302c" in line
                for line in replayed(self.watch.server, text.splitlines())
            )
        )

    def test_the_session(self) -> None:
        link = self.link()
        link.write("TRIG:SOUR EXT;:INIT")
        link.write("<script>alert(1)</script>")
        found = json.loads(self.ask("GET", "/session")[1])
        self.assertEqual(
            [one["n"] for one in found["data"]["calls"]], ["create_link", "write", "write"]
        )
        self.assertIn("&lt;script&gt;", found["table"])
        self.assertNotIn("<script", found["table"] + found["end"])
        status, text, headers = self.ask("GET", "/session.html")
        self.assertEqual(
            (status, headers["content-disposition"]), (200, 'attachment; filename="session.html"')
        )
        self.assertIn("script-src 'sha256-", text)

    def test_the_session_says_what_would_end_a_wait_once_it_is_whole(self) -> None:
        link = self.link()
        link.write("TRIG:SOUR EXT;:INIT;*OPC?")
        reading = threading.Thread(target=link.read)
        reading.start()
        self.addCleanup(reading.join)
        self.addCleanup(self.ask, "POST", "/external", "", True)
        time.sleep(0.1)
        whole, part = (
            json.loads(self.ask("GET", "/session" + more)[1])["end"] for more in ("?all=1", "")
        )
        self.assertIn("EXTernal trigger, it ends at", whole)
        self.assertNotIn("EXTernal trigger, it ends at", part)

    def test_a_followed_session_has_the_last_calls(self) -> None:
        link = self.link()
        for _ in range(150):
            link.readstb()
            link.write("*ESE 1")
        with mock.patch.object(session, "FOLLOWED", 40):
            part = json.loads(self.ask("GET", "/session")[1])
        self.assertEqual(len(part["data"]["calls"]), 40)
        self.assertEqual(
            len(json.loads(self.ask("GET", "/session?all=1")[1])["data"]["calls"]), 301
        )

    def test_a_record_that_is_too_long_to_follow(self) -> None:
        self.link()
        with mock.patch.object(session, "FOLLOWABLE", 10):
            status, text, _ = self.ask("GET", "/session")
            self.assertEqual((status, json.loads(text)["error"]), (413, session.LONG))
            self.assertEqual(self.ask("GET", "/session?all=1")[0], 200)

    def test_a_record_that_is_too_long_to_explain(self) -> None:
        self.link()
        with mock.patch.object(session, "LONGEST", 10):
            for path in ("/session?all=1", "/session.html"):
                status, text, _ = self.ask("GET", path)
                self.assertEqual(status, 413)
                self.assertIn(
                    f"scanvolt-explain FILE --core {self.watch.server.core} --abort",
                    json.loads(text)["error"],
                )


class Streams(WithPanel):
    """States as they change."""

    def stream(self, slow: bool = False) -> Stream:
        found = Stream(self.panel.port, slow)
        self.addCleanup(found.close)
        return found

    def test_two_at_once(self) -> None:
        streams, link = [self.stream(), self.stream()], self.link()
        self.assertIn("text/event-stream", streams[0].head)
        for count in (1, 2, 4):
            link.write(f"*ESE {count}")
            for one in streams:
                self.assertLess(one.until(f'"ESE": {{"value": {count}'), within(1))

    def test_a_lamp_follows_a_bit(self) -> None:
        stream, link = self.stream(), self.link()
        took: list[float] = []
        for _ in range(5):
            # the bit rises 3 ms later, without another event
            link.write("*CLS;*ESE 1;*SRE 32;CONF:VOLT (@1:3);:INIT;*OPC")
            took.append(stream.until('"RQS", "ESB"'))
            link.write("*CLS")
            took.append(stream.until('"STB": {"value": 0'))
        self.assertLess(sorted(took)[len(took) // 2], within(0.2), took)

    def test_a_timeout_is_seen_as_it_comes(self) -> None:
        stream, link, other = self.stream(), self.link(), self.link()
        link.lock()
        other.lock_timeout, other.io_timeout = 300, 300
        with self.assertRaisesRegex(Exception, "lock"):
            other.lock()
        self.assertLess(
            stream.until('"reply": "error 11, device locked by another link, after 300 ms"'),
            within(2),
        )

    def test_a_slow_browser_costs_the_server_nothing(self) -> None:
        slow, link, stream = [self.stream(slow=True) for _ in range(4)], self.link(), self.stream()
        for count in range(400):
            link.query("*IDN?")
        link.write("*ESE 77")
        self.assertLess(stream.until('"ESE": {"value": 77'), within(5))
        self.assertEqual(self.watch.spool.size, self.watch.place)
        self.assertEqual(len(slow), 4)

    def test_a_browser_that_goes(self) -> None:
        link = self.link()
        for _ in range(3 * web.STREAMS):
            Stream(self.panel.port).close()
            link.write("*ESE 1")
        end = time.monotonic() + 15
        while True:  # a stream that is gone is found at the next state
            link.write("*ESE 2")
            one = Stream(self.panel.port)
            head = one.head
            one.close()
            if "200" in head or time.monotonic() > end:
                break
        self.assertIn("200", head)

    def test_too_many(self) -> None:
        found = [self.stream() for _ in range(web.STREAMS + 1)]
        self.assertEqual([one.head.split()[1] for one in found], ["200"] * web.STREAMS + ["503"])

    def test_a_server_that_is_killed(self) -> None:
        stream, link = self.stream(), self.link()
        link.write("FOO")
        stream.until("Undefined header")
        time.sleep(0.2)
        kill(self.watch.server.process.pid)
        self.assertLess(stream.until('"ended": "the server was ended by signal 9"'), within(2))
        found = self.state()
        self.assertEqual(
            (found["server"]["ended"], found["errors"][0]["number"]),
            ("the server was ended by signal 9", -113),
        )
        self.assertEqual(found["server"]["fault"], "")
        self.assertEqual(self.ask("GET", "/")[0], 200)
        self.assertIn("open 0 core", self.ask("GET", "/record")[1])

    def test_a_server_that_is_stopped(self) -> None:
        stream = self.stream()
        stop(self.watch.server.process.pid)
        self.assertLess(stream.until('"silent": true'), within(5))
        os.kill(self.watch.server.process.pid, signal.SIGCONT)
        self.assertLess(stream.until('"silent": false'), within(5))


class Following(WithPanel):
    """The record and what it is explained to be."""

    def values(self) -> dict[str, Any]:
        found = self.state()
        return {
            name: found[name]
            for name in ("registers", "errors", "scan", "links", "channels", "happened")
        }

    def test_the_front_is_what_the_record_says(self) -> None:
        link = self.link()
        link.write("*CLS;*ESE 61;*SRE 60;CONF:VOLT (@1:20);:TRIG:COUN 3;:INIT")
        time.sleep(0.03)
        link.write("FOO")
        time.sleep(0.1)
        self.state()
        link.write("*OPC")  # so that all time that passed is in the record
        found, watch = self.state(), self.watch
        story = Explanation(
            watch.spool.lines(), watch.server.program, ports=(watch.server.core, watch.server.abort)
        ).story
        self.assertEqual(found["registers"]["ESR"]["value"], story.value("esr"))
        self.assertEqual(found["scan"]["readings"], story.value("readings"))
        self.assertGreaterEqual(found["clock"], story.clock)
        self.assertLess(found["clock"], story.clock + 1000)

    def test_time_passes_as_for_the_server(self) -> None:
        one, other = self.link(), self.link()
        one.lock()
        other.lock_timeout = 60000
        waiting = threading.Thread(target=other.lock)
        waiting.start()
        with mock.patch.object(self.watch, "_again", side_effect=self.watch._again) as again:
            for _ in range(4):
                time.sleep(0.3)
                found = self.state()
                self.assertEqual(len(found["waits"]), 1)
                passed = self.watch.front.clock - found["waits"][0]["since"]
                one.readstb()  # the record has the time until here
                self.state()
                self.assertLessEqual(passed, self.watch.front.clock - found["waits"][0]["since"])
                self.assertGreater(passed, 100)
            one.unlock()
            waiting.join()
            self.assertEqual(self.state()["waits"], [])
        again.assert_not_called()

    def test_time_that_was_let_pass_too_early_is_taken_back(self) -> None:
        link = self.link()
        link.write("CONF:VOLT (@1:128);:TRIG:COUN 16;:INIT")
        with mock.patch.object(
            self.watch.clock, "least", lambda until=None: self.watch.front.clock + 100
        ):
            time.sleep(0.3)  # the panel believes that more time passes than does
            link.write("ABOR;FOO")
            self.ask("GET", "/state")
        time.sleep(0.1)
        found = self.state()
        story = Explanation(self.watch.spool.lines(), self.watch.server.program).story
        self.assertEqual((found["scan"]["state"], found["errors"][0]["number"]), ("idle", -113))
        newest = max(one["clock"] for one in found["log"])
        self.assertEqual(newest, max(call.ended.clock for call in story.calls if call.ended))

    def test_much_at_once(self) -> None:
        link = self.link()
        start = time.monotonic()
        while time.monotonic() - start < 1:
            link.query("*IDN?")
        link.write("*ESE 99")
        end = time.monotonic() + 20
        while self.watch.spool.size > self.watch.place and time.monotonic() < end:
            time.sleep(0.05)
        self.assertEqual(self.state()["registers"]["ESE"]["value"], 99)

    def test_long_lines(self) -> None:
        write = calls.device_write(1, b"*ESE 5;" * 580, 1000, 0)
        with socket.create_connection(("127.0.0.1", self.watch.server.core), 20) as connection:
            replies = connection.makefile("rb")
            self.addCleanup(replies.close)
            connection.sendall(calls.create_link().encode(1))
            replies.read(44)
            connection.sendall(write.encode(7) * 4)
            replies.read(4 * 36)
        found = self.state()
        self.assertEqual((found["registers"]["ESE"]["value"], found["happened"]), (5, 5))
        self.assertGreater(max(map(len, self.watch.spool.lines())), 30000)

    def test_a_record_that_cannot_be_kept(self) -> None:
        self.watch.spool.most = 2000
        link = self.link()
        for _ in range(20):
            link.query("*IDN?")
        found = self.state()["server"]
        self.assertIn("isn't followed any further", found["fault"])
        self.assertEqual(self.ask("GET", "/record")[0], 410)
        for _ in range(2000):  # the server goes on
            self.assertEqual(link.query("*ESE?"), "0")

    def test_a_fault_of_the_panel_itself(self) -> None:
        link = self.link()
        with mock.patch.object(self.watch.front, "take", side_effect=KeyError("unknown")):
            link.write("FOO")
            end = time.monotonic() + 5
            while not self.watch.fault and time.monotonic() < end:
                time.sleep(0.02)
        self.assertEqual(self.state()["server"]["fault"], "the panel failed: KeyError: 'unknown'")
        for _ in range(4000):  # more than the pipe holds
            link.query("*IDN?")
        self.assertGreater(self.watch.spool.size, 1 << 20)
        kill(self.watch.server.process.pid)
        self.watch.server.process.wait()
        end = time.monotonic() + 5
        while not self.watch.ended and time.monotonic() < end:
            time.sleep(0.02)
        self.assertEqual(self.state()["server"]["ended"], "the server was ended by signal 9")

    def test_the_ends_of_record_and_control_port_come_together(self) -> None:
        watch = Watch()
        self.addCleanup(watch.close)
        watch._ask()
        kill(watch.server.process.pid)
        watch.server.process.wait()
        watch._selector.register(watch._record, selectors.EVENT_READ, watch._drain)
        time.sleep(0.1)
        keys = [key for key, _ in watch._selector.select(1)]
        self.assertEqual(len(keys), 2)
        watch._drain()
        for key in keys:
            if key.data != watch._drain:
                key.data()
        self.assertEqual((watch.ended, watch.fault), ("the server was ended by signal 9", ""))

    def test_what_explains_is_gone_while_it_is_written_to(self) -> None:
        link, process = self.link(), self.watch._tied.process
        self.state()
        stop(process.pid)
        fcntl.fcntl(self.watch._input, getattr(fcntl, "F_SETPIPE_SZ", 1031), 4096)
        link.write("*ESE 5;" * 500)
        time.sleep(0.3)
        self.assertTrue(self.watch._left)
        kill(process.pid)
        process.wait()
        time.sleep(0.3)
        used, start = time.process_time(), time.monotonic()
        time.sleep(1)
        self.assertLess(time.process_time() - used, 0.1 * (time.monotonic() - start))
        self.assertIn("start the panel anew", self.state()["server"]["fault"])

    def test_what_explains_is_gone(self) -> None:
        link = self.link()
        process = self.watch._tied.process
        kill(process.pid)
        process.wait()
        end = time.monotonic() + 5
        while not self.state()["server"]["fault"] and time.monotonic() < end:
            time.sleep(0.05)
        self.assertIn("start the panel anew", self.state()["server"]["fault"])
        for _ in range(2000):
            link.query("*IDN?")
        self.assertGreater(self.watch.spool.size, 400000)


class Spools(unittest.TestCase):
    """Records as they come."""

    def test_a_full_disk(self) -> None:
        spool = Spool("/dev/full")
        spool.add(b"tick 1\n")
        self.assertEqual(
            (spool.fault, spool.size), ("the record can't be written: No space left on device", 0)
        )
        spool.close()

    def test_half_a_line(self) -> None:
        spool = Spool()
        for piece in (b"tick 1\nti", b"ck 2\nope"):
            spool.add(piece)
        self.assertEqual(spool.lines(), ["tick 1", "tick 2"])
        self.assertEqual(spool.read(7, 4), b"tick")
        spool.close()


if __name__ == "__main__":
    unittest.main()
