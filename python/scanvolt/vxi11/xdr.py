"""External data representation (RFC 4506), as far as VXI-11 needs it: words, booleans, opaque data."""

from __future__ import annotations

import struct

__tracebackhide__ = True  # pytest shows the line that calls the package, and not these frames


class XdrError(ValueError):
    """The bytes aren't a value of the type that is read."""


def words(*numbers: int) -> bytes:
    """Words of four bytes, the most significant byte first. A negative number is written in two's complement."""
    return struct.pack(f">{len(numbers)}I", *(number & 0xFFFFFFFF for number in numbers))


def opaque(data: bytes) -> bytes:
    """Variable-length opaque data: its length, its bytes, and zeros up to a multiple of four bytes."""
    return words(len(data)) + data + bytes(-len(data) % 4)


class Reader:
    """Reads one value after the other. Each method raises XdrError if bytes are missing or wrong."""

    def __init__(self, data: bytes) -> None:
        self.data = data  # all bytes
        self.place = 0  # how many of them were read

    def take(self, count: int) -> bytes:
        """The next bytes, as they are."""
        piece = self.data[self.place : self.place + count]
        if len(piece) < count:
            raise XdrError(f"{count} bytes are wanted at byte {self.place} of {len(self.data)}")
        self.place += count
        return piece

    def word(self) -> int:
        """An unsigned number of four bytes."""
        return int.from_bytes(self.take(4), "big")

    def signed(self) -> int:
        """A signed number of four bytes."""
        return int.from_bytes(self.take(4), "big", signed=True)

    def boolean(self) -> bool:
        """A boolean, 0 or 1."""
        found = self.word()
        if found > 1:
            raise XdrError(f"{found} is no boolean")
        return found == 1

    def opaque(self, most: int = 0xFFFFFFFF) -> bytes:
        """Variable-length opaque data of at most `most` bytes. The padding has to be zeros."""
        size = self.word()
        if size > most:
            raise XdrError(f"{size} bytes of opaque data, at most {most} may be")
        data = self.take(size)
        if any(self.take(-size % 4)):
            raise XdrError("a pad that isn't zero")
        return data

    def rest(self) -> bytes:
        """The bytes that haven't been read."""
        return self.take(len(self.data) - self.place)
