"""A capture that is still written: its whole packets are taken, and nothing of the one that is half there."""

from __future__ import annotations

import os
import pathlib
import struct
import tempfile
import unittest

from scanvolt.capturing.growing import snapshot, whole_blocks


def block(order: str, kind: int, body: bytes) -> bytes:
    """A block of pcapng (draft-ietf-opsawg-pcapng, section 3.1)."""
    size = struct.pack(order + "I", 12 + len(body))
    return struct.pack(order + "I", kind) + size + body + size


def blocks(order: str) -> list[bytes]:
    """A section header, an interface, and two packets."""
    begin = struct.pack(order + "IHHq", 0x1A2B3C4D, 1, 0, -1)
    bodies = (0x0A0D0D0A, begin), (1, bytes(8)), (6, bytes(40)), (6, bytes(64))
    return [block(order, kind, body) for kind, body in bodies]


class Growing(unittest.TestCase):
    def setUp(self) -> None:
        folder = tempfile.TemporaryDirectory()
        self.addCleanup(folder.cleanup)
        self.path = pathlib.Path(folder.name) / "session.pcapng"

    def front(self, data: bytes) -> tuple[bytes, str]:
        """What the snapshot of a file with these bytes has, and its path."""
        self.path.write_bytes(data)
        with snapshot(str(self.path)) as path:
            found = pathlib.Path(path).read_bytes()
        self.assertEqual(self.path.read_bytes(), data)
        return found, path

    def test_each_cut(self) -> None:
        """Wherever the file ends, the blocks that are there as a whole are taken."""
        for order in "<>":
            parts = blocks(order)
            whole = b"".join(parts)
            ends = [sum(map(len, parts[:count])) for count in range(len(parts) + 1)]
            for size in range(12, len(whole) + 1):
                found, path = self.front(whole[:size])
                self.assertEqual(found, whole[: max(end for end in ends if end <= size)])
                self.assertFalse(os.path.exists(path))

    def test_a_size_that_no_block_has(self) -> None:
        """What follows a block of an impossible size isn't taken."""
        parts = blocks("<")
        wrong = parts[2][:4] + struct.pack("<I", 8) + parts[2][8:]
        self.assertEqual(self.front(b"".join(parts[:2]) + wrong)[0], b"".join(parts[:2]))

    def test_other_files_are_not_copied(self) -> None:
        for data in (b"", b"\n\r\r\n", b"\xa1\xb2\xc3\xd4" + bytes(40), b"\n\r\r\n" + bytes(40)):
            self.assertEqual(self.front(data), (data, str(self.path)))
        self.assertIsNone(whole_blocks(str(self.path)))
        with snapshot("/nonexistent") as path:
            self.assertEqual(path, "/nonexistent")


if __name__ == "__main__":
    unittest.main()
