"""What `scanvolt-explain` says about what it can't explain: one clear line, status 2, and nothing is left behind."""

from __future__ import annotations

import contextlib
import io
import os
import pathlib
import subprocess
import sys
import tempfile
import unittest

from scanvolt.capturing.command import main as capture
from scanvolt.explaining.asked import Unknown
from scanvolt.explaining.command import main
from scanvolt.explaining.explanation import Explanation
from scanvolt.program import ProgramError, find_program
from scanvolt.virtual import Meter

from .explained_sessions import script_of
from .processes import TOP, script

OLD = '#!/bin/sh\ncase "$1" in replay) exec %s replay ;; *) echo "scanvolt: bad words" >&2; exit 2 ;; esac\n'


def run(*words: str) -> tuple[int, str, str]:
    """The status of the command, what it printed, and what it wrote to standard error."""
    out, err = io.StringIO(), io.StringIO()
    with contextlib.redirect_stdout(out), contextlib.redirect_stderr(err):
        status = main(list(words))
    return status, out.getvalue(), err.getvalue()


class Faults(unittest.TestCase):
    def setUp(self) -> None:
        temporary = tempfile.TemporaryDirectory()
        self.addCleanup(temporary.cleanup)
        self.folder = pathlib.Path(temporary.name)

    def file(self, text: str | bytes, name: str = "session.replay") -> str:
        path = self.folder / name
        path.write_bytes(text if isinstance(text, bytes) else text.encode())
        return str(path)

    def refused(self, told: str, *words: str) -> None:
        """The command says this in one line, and has status 2."""
        before = sorted(self.folder.iterdir())
        status, out, err = run(*words)
        self.assertEqual((status, out, err.count("\n")), (2, "", 1), err)
        self.assertRegex(err, "^scanvolt-explain: " + told)
        self.assertEqual(sorted(self.folder.iterdir()), before)

    def test_a_program_without_explain(self) -> None:
        path = self.file("open 0 core\n")
        with script((OLD % find_program()).partition("\n")[2]) as program:
            self.refused(
                f"{program} has no `explain`: it is an earlier release", path, "--program", program
            )
            self.refused(
                f"{program} has no `explain`",
                path,
                "--program",
                program,
                "--html",
                str(self.folder / "page.html"),
            )
            with Meter(program) as meter:
                self.assertRaisesRegex(ProgramError, "has no `explain`", meter.explain)

    def test_a_program_that_prints_otherwise(self) -> None:
        path = self.file("open 0 core\n")
        for text, told in (
            ("cat > /dev/null", "is cut off"),
            ("cat > /dev/null; echo '@ 1 0'; echo '- leap'; echo '@ end 0'", "isn't known: - leap"),
            ("cat > /dev/null; echo '@ 1 0'; echo '= esr 1'", "is cut off"),
            ("echo fault >&2; exit 3", "fault"),
            ("exit 9", "ended with status 9"),
            ("cat > /dev/null; echo '@ 7 0'; echo '@ end 0'", "isn't known: @ 7 0"),
        ):
            with self.subTest(text), script(text) as program:
                self.refused(".*" + told, path, "--program", program)

    def test_a_script_that_is_cut_off(self) -> None:
        self.refused(
            "line 2 isn't one of a replay script .*: bytes 0 800",
            self.file("open 0 core\nbytes 0 800"),
        )
        self.refused("line 1 isn't one of a replay script .*: ope", self.file("ope"))
        # in the middle of a call, but whole lines
        status, out, _ = run(self.file("open 0 core\nbytes 0 8000"))
        self.assertEqual(
            (status, out.splitlines()[-1]), (0, "  c0        2 bytes of a call that isn't whole")
        )

    def test_a_line_that_is_unknown(self) -> None:
        self.refused(
            "line 2 isn't one of a replay script .*: nonsense", self.file("tick\nnonsense\ntick\n")
        )
        self.refused(
            "line 1 isn't one of a replay script", self.file(bytes(range(128, 256)) + b"\n")
        )
        self.refused(
            r"line 1 isn't one of a replay script .*: tick 5\\r\\x1b\[2J",
            self.file(b"tick 5\r\x1b[2J\n"),
        )

    def test_a_capture_that_is_cut_short(self) -> None:
        self.refused(".*capture.*|.*tshark.*", self.file(b"\x0a\x0d\x0d\x0a\x00", "session.pcapng"))
        err = io.StringIO()
        with contextlib.redirect_stderr(err):
            self.assertEqual(
                capture(["explain", self.file(b"\x0a\x0d\x0d\x0a\x00", "session.pcapng")]), 2
            )
        self.assertRegex(err.getvalue(), "^scanvolt-capture explain: ")

    def test_files(self) -> None:
        self.refused(".*: No such file or directory", str(self.folder / "none"))
        self.refused(
            ".*: No such file or directory",
            self.file("tick\n"),
            "--html",
            str(self.folder / "none" / "page.html"),
        )
        self.assertEqual(run(self.file(""))[0], 0)

    def test_names(self) -> None:
        path = self.file("\n".join(script_of("hang")))
        for name, told in (
            ("foo", "no value is called `foo`"),
            ("esr.foo", "esr has no bit `foo`, only OPC, QYE"),
            ("bar.1", "no register is called `bar`"),
            ("RQS@soon", "a moment is a millisecond"),
            ("wait c9", "no call of c9 waited"),
            ("stb.8", "stb has no bit"),
            ("ques.16", "ques.event has no bit"),
        ):
            with self.subTest(name):
                self.refused(told, path, "--why", name)
        self.assertRaises(Unknown, Explanation(script_of("hang"), find_program()).why, "foo")

    def test_colour(self) -> None:
        """Only on a terminal, or if it is wanted."""
        path = self.file("\n".join(script_of("hang")))
        self.assertNotIn("\x1b", run(path)[1])
        self.assertIn("\x1b", run(path, "--colour", "always")[1])

    def test_as_a_command(self) -> None:
        """Of a script on standard input; and a reader that has seen enough is no fault."""
        command = [sys.executable, "-m", "scanvolt.explaining", "-", "--last", "3"]
        given = ("\n".join(script_of("hang")) + "\n").encode()
        environment = {**os.environ, "PYTHONPATH": TOP}
        ran = subprocess.run(
            command, input=given, capture_output=True, env=environment, check=False
        )
        self.assertEqual((ran.returncode, ran.stderr), (0, b""))
        self.assertIn(b"3 EXTernal triggers", ran.stdout)
        with subprocess.Popen(
            command,
            stdin=subprocess.PIPE,
            stdout=subprocess.PIPE,
            stderr=subprocess.PIPE,
            env=environment,
        ) as process:
            assert process.stdin and process.stdout and process.stderr
            process.stdout.close()
            process.stdin.write(given)
            process.stdin.close()
            self.assertEqual(process.stderr.read(), b"")

    def test_the_page_is_written(self) -> None:
        target = self.folder / "page.html"
        self.assertEqual(
            run(self.file("\n".join(script_of("hang"))), "--html", str(target)), (0, "", "")
        )
        self.assertTrue(target.read_text(encoding="utf-8").startswith("<!doctype html>"))


if __name__ == "__main__":
    unittest.main()
