"""What tests of the tools have in common: a temporary folder, and a tool that runs as a function."""
import contextlib
import io
import os
import sys
import tempfile
import unittest
from collections.abc import Callable

TOP = os.path.dirname(os.path.dirname(os.path.dirname(os.path.abspath(__file__))))
sys.path[:0] = [TOP + "/tools", TOP + "/python", TOP + "/bench"]
sys.dont_write_bytecode = True


class Folders(unittest.TestCase):
    """Tests that have a temporary folder."""

    def setUp(self) -> None:
        temporary = tempfile.TemporaryDirectory(prefix="tools-")
        self.addCleanup(temporary.cleanup)
        self.folder = os.path.realpath(temporary.name)

    def write(self, name: str, text: str, mode: int = 0o644) -> str:
        """Writes a file of the folder. Returns its path."""
        path = os.path.join(self.folder, name)
        os.makedirs(os.path.dirname(path), exist_ok=True)
        with open(path, "w", encoding="utf-8", newline="") as file:
            file.write(text)
        os.chmod(path, mode)
        return path

    def read(self, name: str) -> str:
        """The text of a file of the folder."""
        with open(os.path.join(self.folder, name), encoding="utf-8", newline="") as file:
            return file.read()


def ran(main: Callable[[list[str]], int], *words: str) -> tuple[int, str]:
    """The status of a tool, and what it prints."""
    told = io.StringIO()
    with contextlib.redirect_stdout(told), contextlib.redirect_stderr(told):
        status = main(list(words))
    return status, told.getvalue()
