"""Tests of tools/lint-numbers: each kind of number is found if it is written out, and nothing else is."""
import os
import subprocess
import unittest

from folders import Folders, ran

from scanvolt_tools.check import lint_numbers

SPELLED = (
    "program = 0x0607AF",
    "program = 0x607b1",
    "head = '000607b0'",
    "ask(395183, 1)",
    "ask(100000, 2)",
    "'000186a0'",
    "mark = 0x80000000 | size",
    "size & 0x7FFFFFFF",
    "word >= 2 ** 31",
    'return "800000" size',
    "'80000028 00000001'",
    "struct.pack('>I', xid)",
    'struct.unpack(f">{count}I", data)',
    "xid.to_bytes(4, 'big')",
    'int.from_bytes(self.take(4), "big")',
    "CREATE_LINK, WRITE = 10, 11",
    "GETPORT = 3",
    "DEVICE_READSTB = (13)",
)
FINE = (
    "link = calls.create_link()",
    "WRITING = 100_000",
    "lines = 1000000",
    "ports = 4096, 4097",
    "struct.pack('ii', 1, 0)",
    "value = 2 ** 312",
    "size.to_bytes(2, 'little')",
    "wanted = calls.GETPORT",
    "text = 'GETPORT answers'",
    "9 * 10 ** 5",
    "row = '0 device_lock lid=1'",
)


class Numbers(Folders):
    def setUp(self) -> None:
        super().setUp()
        subprocess.run(["git", "init", "-q", self.folder], check=True)

    def told(self, name: str, text: str) -> tuple[int, str]:
        """The status and the printed lines, if this is the only file."""
        path = self.write(name, text)
        told = ran(lint_numbers.main, self.folder)
        os.remove(path)
        return told

    def test_what_is_spelled(self) -> None:
        for text in SPELLED:
            for name, first in (
                ("tools/one.py", ""),
                ("bench/run", "#!/bin/sh\n"),
                ("tools/two", "#!/usr/bin/env python3\n"),
            ):
                with self.subTest(text, name=name):
                    status, told = self.told(name, first + text + "\n")
                    self.assertEqual(status, 1)
                    number = 1 + first.count("\n")
                    self.assertIn(f"{name}:{number}: ", told)

    def test_what_is_fine(self) -> None:
        for text in FINE:
            with self.subTest(text):
                self.assertEqual(self.told("tools/one.py", text + "\n"), (0, ""))

    def test_where_it_may_stand(self) -> None:
        for name in (
            "python/scanvolt/vxi11/calls.py",
            "python/tests/test_rpc.py",
            "docs/PAGE.md",
            "bench/load.c",
            "a.replay",
        ):
            self.assertEqual(self.told(name, SPELLED[0] + "\n"), (0, ""))


if __name__ == "__main__":
    unittest.main()
