"""The record of a session as it comes: a file that stays, or one without a name."""

from __future__ import annotations

import os
import tempfile

MOST = 2**30  # bytes of a record without a name
KEPT = f"the record has more than {MOST} bytes, and isn't followed any further"


class Spool:
    """A record that grows at its end and is read at any place. Once it can't be written, `fault` says why, and what comes after
    that is dropped. Raises OSError if the file can't be made.
    """

    def __init__(self, path: str | None = None, most: int = MOST) -> None:
        self.path, self.most = path, most
        self.size = 0  # bytes that it has
        self.fault = ""
        if path is None:
            with tempfile.TemporaryFile() as file:
                self._file = os.dup(file.fileno())
        else:
            self._file = os.open(path, os.O_RDWR | os.O_CREAT | os.O_TRUNC | os.O_CLOEXEC, 0o666)

    def add(self, data: bytes) -> None:
        """Takes bytes at the end."""
        if self.fault:
            return
        if self.path is None and self.size + len(data) > self.most:
            self.fault = KEPT
            return
        try:
            while data:
                count = os.pwrite(self._file, data, self.size)
                self.size, data = self.size + count, data[count:]
        except OSError as fault:
            self.fault = f"the record can't be written: {fault.strerror}"

    def read(self, place: int, most: int) -> bytes:
        """The bytes from a place on, at most so many."""
        return os.pread(self._file, max(0, min(most, self.size - place)), place)

    def lines(self) -> list[str]:
        """The whole lines."""
        text = self.read(0, self.size)
        return text[: text.rfind(b"\n") + 1].decode("latin-1").splitlines()

    def close(self) -> None:
        """Closes the file. One without a name is gone then."""
        os.close(self._file)
