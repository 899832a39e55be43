"""The version of the package, what `python3 -m scanvolt` prints of the program, and programs that don't fit the package."""

from __future__ import annotations

import os
import pathlib
import shutil
import subprocess
import sys
import tempfile
import unittest
from unittest import mock

import scanvolt
from scanvolt import program
from scanvolt.program import ProgramError, Server, find_program
from scanvolt.virtual import Meter

from .processes import TOP, script
from .test_install import backend

# Scripts in place of programs, and what is told of them. The first answers as an instrument with 32 channels.
OTHERS = (
    (
        "sed 's/.*/refused 8/'",
        "to `input 128 0 input 255 0` it answered `refused 8 refused 8` and not `refused 8`",
    ),
    (
        "exec cat",
        "to `input 128 0 input 255 0` it answered `input 128 0 input 255 0` and not `refused 8`",
    ),
    (
        "exec yes",
        f"to `input 128 0 input 255 0` it answered `{' '.join(100 * 'y')} ..` and not `refused 8`",
    ),
    ("exit 0", "it ended with status 0"),
    ("echo scanvolt: bad words >&2; exit 2", "it ended with status 2: scanvolt: bad words"),
    ("kill -9 $$", "it ended by signal 9"),
)


class Version(unittest.TestCase):
    """The package has one version."""

    def test_it_is_the_same_everywhere(self) -> None:
        top = pathlib.Path(TOP)
        found = backend().project((top / "pyproject.toml").read_text())["project"]["version"]
        self.assertEqual(
            (scanvolt.__version__, found), (top.parent.joinpath("VERSION").read_text().strip(),) * 2
        )


class Printed(unittest.TestCase):
    """`python3 -m scanvolt`."""

    def setUp(self) -> None:
        temporary = tempfile.TemporaryDirectory(prefix="about-")
        self.addCleanup(temporary.cleanup)
        self.folder = pathlib.Path(temporary.name).resolve()

    def run_with(self, path: str, *words: str) -> tuple[int, str]:
        """The status and the lines, if SCANVOLT names this program."""
        done = subprocess.run(
            [sys.executable, "-m", "scanvolt", *words],
            cwd=TOP,
            stdout=subprocess.PIPE,
            stderr=subprocess.STDOUT,
            text=True,
            env=dict(os.environ, SCANVOLT=path),
        )
        return done.returncode, done.stdout

    def put(self, name: str, text: str = "") -> str:
        """Puts a text, or else the program, into the folder. Returns its path."""
        path = self.folder / name
        path.parent.mkdir(parents=True, exist_ok=True)
        if text:
            path.write_text(text)
        else:
            shutil.copy(find_program(), path)
        path.chmod(0o755)
        return str(path)

    def told(self, path: str, version: str, kind: str) -> tuple[int, str]:
        return (
            0,
            f"package {scanvolt.__version__}\nprogram {path}\nfound by SCANVOLT\nversion {version}\nkind {kind}\n",
        )

    def test_a_checkout(self) -> None:
        self.put("VERSION", "7.8.9\n")
        for place, kind in zip(program.BUILT, ("proved", "unproved")):
            path = self.put(place)
            self.assertEqual(self.run_with(path), self.told(path, "7.8.9", kind))

    def test_an_installation(self) -> None:
        path = self.put("bin/scanvolt")
        self.assertEqual(self.run_with(path), self.told(path, "unknown", "unknown"))
        self.put("share/scanvolt/VERSION", "7.8.9\n")
        self.assertEqual(self.run_with(path), self.told(path, "7.8.9", "unknown"))
        self.put(
            "share/doc/scanvolt/KIT",
            "kit\nprogram named by SERVER: whether it is proved is not known here\n",
        )
        self.assertEqual(self.run_with(path), self.told(path, "7.8.9", "unknown"))
        self.put(
            "share/doc/scanvolt/KIT",
            "kit\nprogram crates/scanvolt/out/scanvolt, which rt leaves there proved\n",
        )
        self.assertEqual(self.run_with(path), self.told(path, "7.8.9", "proved"))

    def test_a_link(self) -> None:
        """The version is that of the program to which the link leads."""
        self.put("VERSION", "7.8.9\n")
        self.put(program.BUILT[1])
        link = self.folder / "scanvolt"
        link.symlink_to(program.BUILT[1])
        self.assertEqual(self.run_with(str(link)), self.told(str(link), "7.8.9", "unproved"))

    def test_no_program(self) -> None:
        status, text = self.run_with("/nonexistent")
        self.assertEqual(
            (status, text),
            (
                1,
                f"package {scanvolt.__version__}\nno program: SCANVOLT names no program: /nonexistent\n",
            ),
        )

    def test_another_program(self) -> None:
        status, text = self.run_with(self.put("true", "#!/bin/sh\n"))
        self.assertEqual(status, 1)
        self.assertRegex(
            text, "isn't scanvolt [0-9.]*, or doesn't fit this package: it ended with status 0\n$"
        )

    def test_other_words(self) -> None:
        self.assertEqual(self.run_with("/nonexistent", "serve")[0], 2)
        status, text = self.run_with("/nonexistent", "--help")
        self.assertEqual(status, 0)
        self.assertIn("version", text)


class Fitting(unittest.TestCase):
    """Programs that aren't scanvolt, or another release of it."""

    def test_others(self) -> None:
        for text, reason in OTHERS:
            with self.subTest(text), script(text) as path, mock.patch.object(
                program, "__version__", "7.8.9"
            ):
                for kind in Meter, Server:
                    with self.assertRaises(ProgramError) as caught:
                        kind(program=path)
                    self.assertEqual(
                        str(caught.exception),
                        (f"{path} isn't scanvolt 7.8, or doesn't fit this package: {reason}"),
                    )

    def test_each_is_asked_once(self) -> None:
        """A second meter starts one process. If the file changes, the program is asked again."""
        with script(f'echo >> "$0.runs"\nexec "{find_program()}" "$@"') as path:
            for count in 2, 3, 4:
                Meter(path).close()
                self.assertEqual(pathlib.Path(path + ".runs").read_text().count("\n"), count)
            Server(program=path).close()
            os.utime(path, (1, 1))
            Meter(path).close()
            self.assertEqual(pathlib.Path(path + ".runs").read_text().count("\n"), 7)

    def test_a_name_on_the_path(self) -> None:
        """A program may be given by its name, too."""
        with script(f'exec "{find_program()}" "$@"') as path:
            os.rename(path, os.path.join(os.path.dirname(path), "voltmeter"))
            with mock.patch.dict(os.environ, PATH=f"{os.path.dirname(path)}:{os.environ['PATH']}"):
                Meter("voltmeter").close()
                Server(program="voltmeter").close()

    def test_one_that_says_nothing(self) -> None:
        with script("exec sleep 60") as path, mock.patch.object(program, "PATIENCE", 0.2):
            self.assertRaisesRegex(
                ProgramError, "doesn't fit this package: it says nothing for 0.2 s$", Meter, path
            )


if __name__ == "__main__":
    unittest.main()
