"""API.md, the page of public names, is what the docstrings say."""

from __future__ import annotations

import pathlib
import subprocess
import sys
import unittest

TOP = pathlib.Path(__file__).resolve().parent.parent.parent
TOOL = TOP / "tools/python-api"


@unittest.skipUnless(TOOL.exists(), "this is no checkout")
class Page(unittest.TestCase):
    """The tool that writes the page."""

    def test_it_is_up_to_date(self) -> None:
        told = subprocess.run(
            [sys.executable, "-B", str(TOOL), "--check"],
            stdout=subprocess.PIPE,
            stderr=subprocess.STDOUT,
            text=True,
        )
        self.assertEqual((told.returncode, told.stdout), (0, ""))


if __name__ == "__main__":
    unittest.main()
