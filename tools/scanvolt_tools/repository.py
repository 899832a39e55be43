"""The files of a repository, each read once."""
import glob
import os
import subprocess

from . import TOP as TOP


class Repository:
    """The files of the repository in the folder `top`; without it, of the tools' own. Names are relative to that folder."""

    def __init__(self, top: str | None = None) -> None:
        self.top = os.path.abspath(TOP if top is None else top)
        self._texts: dict[str, str] = {}

    def path(self, name: str) -> str:
        """Where a file is."""
        return os.path.join(self.top, name)

    def has(self, name: str) -> bool:
        """Whether there is such a file or folder."""
        return os.path.exists(self.path(name))

    def text(self, name: str) -> str:
        """The text of a file."""
        if name not in self._texts:
            with open(self.path(name), encoding="utf-8", newline="") as file:
                self._texts[name] = file.read()
        return self._texts[name]

    def is_text(self, name: str, text: str) -> bool:
        """Whether a file is there, and has this text."""
        return self.has(name) and self.text(name) == text

    def write(self, name: str, text: str) -> None:
        """Writes a file."""
        os.makedirs(os.path.dirname(self.path(name)), exist_ok=True)
        with open(self.path(name), "w", encoding="utf-8", newline="") as file:
            file.write(text)
        self._texts[name] = text

    def names(self, *patterns: str) -> list[str]:
        """The names that match one of these patterns, in their order."""
        return sorted(
            name
            for pattern in patterns
            for name in glob.glob(pattern, root_dir=self.top, recursive=True)
        )

    def listed(self) -> list[str]:
        """The files that git knows or would add."""
        command = ["git", "-C", self.top, "ls-files", "-co", "--exclude-standard"]
        told = subprocess.run(command, capture_output=True, text=True, check=True)
        return [name for name in told.stdout.splitlines() if os.path.isfile(self.path(name))]
