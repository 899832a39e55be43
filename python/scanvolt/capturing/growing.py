"""A capture that is still written: the front of it that has whole packets."""

from __future__ import annotations

import contextlib
import os
import shutil
import struct
import tempfile
from collections.abc import Iterator

SECTION = b"\n\r\r\n"  # how a pcapng file begins
ORDERS = {b"\x1a\x2b\x3c\x4d": ">", b"\x4d\x3c\x2b\x1a": "<"}
LEAST = 12  # bytes of a block: its type, and its size before and after its body


def whole_blocks(path: str) -> int | None:
    """How many bytes the whole blocks at the front of a pcapng file have. None for another file."""
    with open(path, "rb") as file:
        start = file.read(LEAST)
        order = ORDERS.get(start[8:])
        if not start.startswith(SECTION) or order is None:
            return None
        all_bytes = os.fstat(file.fileno()).st_size
        end = 0
        while end + LEAST <= all_bytes:
            file.seek(end + 4)
            (size,) = struct.unpack(order + "I", file.read(4))
            if size < LEAST or end + size > all_bytes:
                break
            end += size
    return end


@contextlib.contextmanager
def snapshot(path: str) -> Iterator[str]:
    """The path of a copy with the packets that a capture has now. The packet at its end, which may not be whole, is left out.
    A file that isn't pcapng is not copied: its own path is given.
    """
    end = whole_blocks(path) if os.path.isfile(path) else None
    if end is None:
        yield path
        return
    with tempfile.TemporaryDirectory(prefix="scanvolt-") as folder:
        copy = os.path.join(folder, os.path.basename(path))
        with open(path, "rb") as file, open(copy, "wb") as front:
            shutil.copyfileobj(file, front)
            front.truncate(end)
        yield copy
