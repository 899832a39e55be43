"""Tests of bench/: medians and their confidence, measures and their aims, replays and lost replies, with scripts as programs."""
import contextlib
import importlib.machinery
import importlib.util
import io
import os
import re
import shutil
import socket
import subprocess
import tempfile
import threading
import unittest
from typing import Any
from unittest import mock

import folders
from folders import TOP

import measures
import rounds
import servers
from scanvolt.vxi11 import Reader, Records, encode_reply, words
from scanvolt_tools.attack import hostile, soak

PRINTS = "#!/bin/sh\nexec cat\n"


def loaded(path: str) -> Any:
    """A command as a module."""
    loader = importlib.machinery.SourceFileLoader(
        os.path.basename(path) + "_command", f"{TOP}/{path}"
    )
    spec = importlib.util.spec_from_loader(loader.name, loader)
    assert spec is not None
    module = importlib.util.module_from_spec(spec)
    loader.exec_module(module)
    return module


class Folders(folders.Folders):
    """Tests that write scripts."""

    def script(self, name: str, text: str) -> str:
        """Writes a script, or what one reads. Returns its path."""
        return self.write(name, text, 0o755)


class Rounds(unittest.TestCase):
    def test_the_median_and_its_confidence_are_values(self) -> None:
        self.assertEqual(rounds.median([3, 1, 2]), 2)
        self.assertEqual(rounds.median([4, 3, 1, 2]), 2)
        for count, places in (
            (1, (1, 1)),
            (2, (1, 2)),
            (5, (1, 5)),
            (6, (1, 6)),
            (9, (2, 8)),
            (15, (4, 12)),
            (31, (10, 22)),
        ):
            self.assertEqual(rounds.interval(list(range(count, 0, -1))), places)

    def test_each_comes_first_in_every_other_round(self) -> None:
        order: list[str] = []

        def first() -> int:
            order.append("A")
            return 2

        def second() -> int:
            order.append("B")
            return 3

        found = rounds.in_turn(3, first, second)
        self.assertEqual(("".join(order), found), ("ABBAAB", ([2, 2, 2], [3, 3, 3])))
        self.assertEqual(rounds.ratios(*found), [1.5] * 3)


class Measures(unittest.TestCase):
    def test_a_name_is_that_of_one_measure(self) -> None:
        self.assertEqual(measures.find("gate", "proof of sv_text").measure, "proof of {crate}")
        for bench, name in (
            ("gate", "proof of sv text"),
            ("gate", "proof of "),
            ("serve", "whole run"),
            ("none", "whole run"),
        ):
            with self.assertRaises(measures.Unknown):
                measures.find(bench, name)
        names = [(one.bench, one.measure) for one in measures.known()]
        self.assertEqual(len(names), len(set(names)))

    def test_an_aim_is_missed_by_a_value_beyond_it(self) -> None:
        for name, aim, values in (
            (
                "idn on 1, over the peer",
                "at least 1.35",
                ((1.34, True), (1.35, False), (1.36, False)),
            ),
            ("idn on 1, the peer", "", ((0, False),)),
        ):
            measure = measures.find("serve", name)
            self.assertEqual(measure.aim, aim)
            self.assertEqual(
                [(value, measure.is_missed(value)) for value, _ in values], list(values)
            )
        self.assertTrue(measures.find("hostile", "share of a core while idle").is_missed(2.01))
        for measure in measures.known():
            self.assertTrue(
                measure.aim in ("", "1: no fall", "1: no growth")
                or measures.AIM.fullmatch(measure.aim),
                measure,
            )

    def test_what_the_benches_measure_is_listed(self) -> None:
        run, serve = loaded("bench/run"), loaded("bench/serve")
        names = set()
        for name in rounds.SCRIPTS:
            for kind in [name] + [name + ", peak memory"] * (name not in run.WITHOUT_PEAKS):
                names |= {("replay", kind + ending) for ending in ("", run.TEN, run.OVER)}
            names |= {
                ("replay", name + ending)
                for ending in (", explained", ", explained over replayed")
                if name in run.EXPLAINS
            }
            names |= {("turn", f"{word} {name}") for word in ("replay", "explain")}
        names |= {
            ("turn", f"serve {kind} on {count}{part}")
            for kind, count in loaded("bench/turn").LOADS
            for part in ("", ", on one core")
        }
        for part, loads in ("", serve.ANY_CORE), (", on one core", serve.ONE_CORE):
            for other, (kind, count) in [("peer", one) for one in loads] + [("echo", ("idn", 1))]:
                names |= {
                    ("serve", f"{kind} on {count}{part}, {ending}")
                    for ending in ("over the " + other, "beside the " + other, "the " + other)
                }
        names |= {
            ("serve", f"{kind} on {count}{part}, with{ending}")
            for kind, count in serve.ANY_CORE
            for what, part in (("record", ", on one core"), ("panel", ""))
            for ending in (f" a {what} over without", " a " + what, "out a " + what)
        }
        names |= {
            ("hostile", name + ending)
            for name, _ in hostile.STAGES
            for ending in (": connections", ": replies beside")
        }
        names |= {("soak", "long run: attacks, " + action.__name__) for action in soak.ACTIONS}
        for bench, name in names:
            measures.find(bench, name)
        self.assertEqual(
            {name for bench, name in names if bench == "replay"},
            {one.measure for one in measures.known() if one.bench == "replay"},
        )

    def test_values_are_printed_and_kept(self) -> None:
        found, told = measures.Found("serve"), io.StringIO()
        with contextlib.redirect_stdout(told):
            found.each("idn on 1, over the peer", [1.5, 1.0, 1.25])
            found.row("idn on 1, the peer", 45000, "of 3")
        self.assertEqual(
            [re.split("  +", line) for line in told.getvalue().splitlines()],
            [
                ["idn on 1, over the peer", "1.25 ratio", "at least 1.35"],
                ["idn on 1, the peer", "45,000 queries/s"],
            ],
        )
        self.assertEqual(
            found.rows,
            [
                ("idn on 1, over the peer", 1.5, 1),
                ("idn on 1, over the peer", 1.0, 2),
                ("idn on 1, over the peer", 1.25, 3),
                ("idn on 1, the peer", 45000, "of 3"),
            ],
        )
        self.assertEqual(found.missed, ["idn on 1, over the peer: 1.25, and not at least 1.35"])
        with self.assertRaises(measures.Unknown):
            found.row("idn on 1", 1)

    def test_values_are_kept_as_numbers(self) -> None:
        for bench, name, value, kept in (
            ("replay", "ticks", 17123456.789, "17123456.79"),
            ("serve", "idn on 1, the peer", 45000.0, "45000"),
            ("serve", "idn on 1, over the peer", 1 / 3, "0.3333"),
            ("soak", "long run: minutes", 0.5, "0.500"),
            ("turn", "replay ticks", 1.0, "1"),
            ("hostile", "memory afterwards, more than before", -4, "-4"),
        ):
            with mock.patch.object(
                measures.subprocess, "run", return_value=mock.Mock(returncode=0)
            ) as run:
                found = measures.Found(bench)
                found.take(name, value, "of 3")
                self.assertTrue(found.keep())
            self.assertEqual(run.call_args[1]["input"], f"{name}\t{kept}\tof 3\n")
            self.assertRegex(kept, f"^({measures.FORMS['value']})$")


class Commands(unittest.TestCase):
    def test_help_is_that_of_the_command(self) -> None:
        for name in "run", "scripts", "serve", "turn":
            told = subprocess.run(
                [f"{TOP}/bench/{name}", "--help"], capture_output=True, text=True, check=False
            )
            with self.subTest(name):
                self.assertRegex(told.stdout, rf"^(usage: )?{name} \[?[-A-Zh]")
                self.assertEqual((told.returncode, told.stderr), (0, ""))


class Run(Folders):
    """The parts of bench/run, with programs that print what they read, or something else."""

    def bench(self, text: str) -> Any:
        for ending in "script", "expected":
            self.script("short." + ending, "c0 00\nrefused 4\n")
        return loaded("bench/run").Bench(self.script("program", "#!/bin/sh\n" + text), self.folder)

    def test_replays_are_compared(self) -> None:
        self.assertGreater(self.bench("exec cat\n").fastest("short", "replay", 2), 0)
        explains = self.bench("echo '- call c0'; echo '= a 1'; echo '@ 1 0'; exec cat\n")
        self.assertGreater(explains.fastest("short", "explain", 2), 0)
        with self.assertRaisesRegex(
            rounds.Failure, "other lines than expected: 1 of them, where 2 are"
        ):
            self.bench("echo other\n").fastest("short", "replay", 1)
        with self.assertRaisesRegex(
            rounds.Failure, "on the script short `.*program replay` failed: 3"
        ):
            self.bench("exit 3\n").fastest("short", "replay", 1)

    def test_memory_is_read_while_the_program_runs(self) -> None:
        self.assertGreater(self.bench("exec cat\n").peak("short"), 0)
        with self.assertRaisesRegex(rounds.Failure, "the program stopped"):
            self.bench("exit 3\n").peak("short")
        with self.assertRaisesRegex(rounds.Failure, "the program failed"):
            self.bench("cat; exit 3\n").peak("short")
        with self.assertRaisesRegex(rounds.Failure, "other lines"):
            self.bench("echo 'c0 00'; echo 'refused 5'; exec cat > /dev/null\n").peak("short")


class Turn(Folders):
    def setUp(self) -> None:
        super().setUp()
        self.replayed = self.script("a.replay", "open 0 core\ntick 9\n")

    def turn(self, first: str, second: str) -> tuple[int, str]:
        """The status and what is printed."""
        done = subprocess.run(
            [
                TOP + "/bench/turn",
                "--rounds",
                "1",
                "--script",
                self.replayed,
                "--only",
                "replay " + self.replayed,
                first,
                second,
            ],
            capture_output=True,
            text=True,
            check=False,
        )
        return done.returncode, done.stdout + done.stderr

    def test_two_programs_are_compared(self) -> None:
        first, second = self.script("first", PRINTS), self.script("second", PRINTS)
        status, told = self.turn(first, second)
        self.assertEqual(status, 0, told)
        lines = told.splitlines()
        self.assertEqual(lines[:2], ["A: " + first, "B: " + second])
        self.assertRegex(
            lines[3],
            rf"^replay {self.replayed}: events a second +[\d,]+ +[\d,]+ +(\d\.\d{{3}})  \1 to \1$",
        )

    def test_other_lines_are_told(self) -> None:
        status, told = self.turn(
            self.script("first", PRINTS), self.script("second", "#!/bin/sh\necho other\n")
        )
        self.assertEqual(status, 1)
        self.assertIn(f"replay {self.replayed}: A and B print different lines\n", told)

    def test_a_program_that_fails_is_told(self) -> None:
        second = self.script("second", "#!/bin/sh\nexit 7\n")
        status, told = self.turn(self.script("first", PRINTS), second)
        self.assertEqual(status, 2)
        self.assertIn(f"turn: on the script a `{second} replay` failed: 7", told)
        status, told = self.turn(second, self.folder)
        self.assertEqual(status, 2)
        self.assertIn("is a folder", told)


class Servers(Folders):
    def test_another_server_says_that_it_is_ready(self) -> None:
        with servers.other(["sh", "-c", "echo ready 7; exec sleep 60"]) as tied:
            self.assertIsNone(tied.process.poll())
        for said in "steady 7", "":
            with self.assertRaisesRegex(rounds.Failure, "isn't ready"):
                with servers.other(["echo", said]):
                    pass

    def test_a_server_has_one_core(self) -> None:
        core = min(os.sched_getaffinity(0))
        command = ["sh", "-c", "echo ready 7; exec sleep 60"]
        with servers.other(command, str(core)) as tied:
            self.assertEqual(os.sched_getaffinity(tied.process.pid), {core})

    def test_a_program_that_does_not_fit_is_told(self) -> None:
        with self.assertRaisesRegex(rounds.Failure, "doesn't fit this package: it ended with"):
            with servers.scanvolt(self.script("program", "#!/bin/sh\nexit 3\n")):
                pass


def answer(listener: socket.socket, connections: int, good: int) -> None:
    """Answers the calls of each connection: the first, create_link, and `good` device_readstb. Then it answers nothing more
    on the first connection, something else on the second, and ends the third.
    """

    def serve(peer: socket.socket, kind: int) -> None:
        records, count = Records(), 0
        with peer:
            for data in iter(lambda: peer.recv(4096), b""):
                for record in records.push(data):
                    xid = Reader(record.body).word()
                    count += 1
                    if count == 1:
                        peer.sendall(encode_reply(xid, words(0, kind + 1, 0, 4096)))
                    elif count <= good + 1 or kind == 1:
                        peer.sendall(encode_reply(xid, words(0 if count <= good + 1 else 4, 0)))
                    elif kind == 2:
                        return

    for kind in range(connections):
        threading.Thread(target=serve, args=(listener.accept()[0], kind), daemon=True).start()


@unittest.skipUnless(shutil.which("cc"), "it needs a C compiler")
class Load(unittest.TestCase):
    def test_lost_replies_are_counted_and_the_others_go_on(self) -> None:
        with tempfile.TemporaryDirectory(prefix="bench-") as folder, socket.create_server(
            ("127.0.0.1", 0)
        ) as listener:
            source = os.path.join(folder, "load.c")
            with open(TOP + "/bench/load.c", encoding="ascii") as file, open(
                source, "w", encoding="ascii"
            ) as changed:
                changed.write(file.read().replace("TIMEOUT = 10000", "TIMEOUT = 300"))
            built = rounds.compiled(folder, "load", [source])
            server = threading.Thread(target=answer, args=(listener, 3, 5), daemon=True)
            server.start()
            told = subprocess.run(
                [built, "stb", str(listener.getsockname()[1]), "3", "0.1"],
                capture_output=True,
                text=True,
                check=False,
            )
        self.assertEqual((told.returncode, told.stdout), (1, "0 15 3\n"))
        self.assertEqual(
            sorted(told.stderr.splitlines()),
            ["load: a reply differs", "load: no reply came", "load: the connection ended"],
        )


if __name__ == "__main__":
    unittest.main()
