"""Tests of tools/lint-python, with a black and a flake8 that only print."""

import os
import shutil
import subprocess
import unittest
from unittest import mock

from folders import Folders, ran

from scanvolt_tools.check import lint_python

VERSION = '#!/bin/sh\n[ "$1" != --version ] || { echo "black, 23.1.0"; exit 0; }\n'


class Python(Folders):
    def setUp(self) -> None:
        super().setUp()
        for name in ("git", "sh"):
            self.write(f"bin/{name}", f'#!/bin/sh\nexec {shutil.which(name)} "$@"\n', 0o755)
        self.write("python/one.py", "")
        self.write("python/two.py", "two = 2\n")
        self.write("examples/script", "#!/usr/bin/env python3\n")
        self.write("examples/notes", "no Python\n")
        subprocess.run(["git", "init", "-q", self.folder], check=True)

    def tools(self, black: str = "", flake8: str = "") -> None:
        """Installs them, with these commands for what they do with files."""
        self.write("bin/black", VERSION + black, 0o755)
        self.write("bin/flake8", VERSION + flake8, 0o755)

    def lint(self) -> tuple[int, str]:
        """The status, and what is printed."""
        with mock.patch.dict(os.environ, PATH=f"{self.folder}/bin"):
            return ran(lint_python.main, self.folder)

    def test_no_fault(self) -> None:
        self.tools()
        self.assertEqual(self.lint(), (0, ""))

    def test_the_files(self) -> None:
        self.tools(flake8='echo "$*"; exit 1\n')
        self.assertEqual(self.lint(), (1, "examples/script python/one.py python/two.py\n"))

    def test_the_lines_of_both(self) -> None:
        summary = 'echo "1 file would be reformatted." >&2; exit 1\n'
        self.tools(
            'echo "would reformat python/two.py" >&2\n' + summary,
            "echo python/two.py:1:1: E1 bad; exit 1\n",
        )
        run = "(run black --config pyproject.toml python/two.py)"
        lines = f"python/two.py: not as black lays it out {run}\npython/two.py:1:1: E1 bad\n"
        self.assertEqual(self.lint(), (1, lines))

    def test_a_tool_that_fails(self) -> None:
        self.tools("exit 1\n", "exit 3\n")
        lines = "lint-python: black ended with status 1\nlint-python: flake8 ended with status 3\n"
        self.assertEqual(self.lint(), (1, lines))

    def test_tools_that_are_not_installed(self) -> None:
        both = (
            "lint-python: Python files aren't checked, since black 23 and flake8 aren't installed\n"
        )
        self.assertEqual(self.lint(), (0, both))
        self.tools()
        os.remove(f"{self.folder}/bin/flake8")
        style = "the style of Python files isn't checked, since flake8 isn't installed"
        self.assertEqual(self.lint(), (0, f"lint-python: {style}\n"))
        self.tools()
        self.write("bin/black", '#!/bin/sh\necho "black, 24.1.0"\n', 0o755)
        layout = "the layout of Python files isn't checked, since black 23 isn't installed"
        self.assertEqual(self.lint(), (0, f"lint-python: {layout}\n"))


if __name__ == "__main__":
    unittest.main()
