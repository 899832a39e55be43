"""Tests of tools/lint: its status is 0 only if each of its parts came to its end and found nothing."""
import contextlib
import io
import os
import unittest
from unittest import mock

from folders import Folders, ran

from scanvolt_tools.check import edits, lint, sizes
from scanvolt_tools.repository import Repository

PASSES = "#!/bin/sh\n"
# A repository of one crate without faults.
FILES = {
    "tools/lint-errors": PASSES,
    "tools/header-rows": PASSES,
    "tools/rows": PASSES,
    "tools/lint-documents": PASSES,
    "tools/lint-numbers": PASSES,
    "tools/lint-python": PASSES,
    "tools/book": PASSES,
    "tools/pictures": PASSES,
    "bin/rt": '#!/bin/sh\necho "${0%/bin/rt}/kit/START.md"\n',
    "kit/bin/rattle": PASSES,
    "crates/one/src/lib.rt": "pub fn one() -> u8\n    ensures { result ≡ 1 }\n{\n    1\n}\n\npub use one;\n",
    "crates/one/specs/One.antt": "-- one\none = 1\n",
    "crates/one/must-fail/one_is_two.edit": "turns: one ensures\nfile: src/lib.rt\nold:     1\nnew:     2\n",
    "README.md": "the prover rejects all 1 mutants.\n",
    "docs/EVIDENCE.md": "| 1 | 0 | 0 | 1 | 0 |\n",
}


class Linting(Folders):
    def setUp(self) -> None:
        super().setUp()
        for name, text in FILES.items():
            self.write(name, text, 0o755)

    def linted(self) -> tuple[list[str], str]:
        """The printed lines, and what parts that ended with a status wrote to standard error."""
        said = io.StringIO()
        with contextlib.redirect_stderr(said):
            lines = lint.Lint(Repository(self.folder), self.folder + "/kit/bin/rattle").faults()
        return lines, said.getvalue()

    def lint(self) -> list[str]:
        return self.linted()[0]

    def test_nothing_falls_short(self) -> None:
        self.assertEqual(self.linted(), ([], ""))

    def test_a_part_that_crashes_is_told(self) -> None:
        names = ["tools/" + words[0] for words in lint.TOOLS]
        for crash, status in (("exit 1", 1), ("exit 3", 3), ("kill -9 $$", 137)):
            for name in names:
                self.write(name, PASSES + crash + "\n", 0o755)
            self.assertEqual(
                self.lint(), [f"lint: {name} ended with status {status}" for name in names]
            )
        for name in names:
            self.write(name, "#!/usr/bin/env python3\nraise KeyError\n", 0o755)
        lines, said = self.linted()
        self.assertEqual(lines, [f"lint: {name} ended with status 1" for name in names])
        self.assertIn("KeyError", said)

    def test_a_part_that_crashes_behind_its_lines_is_told(self) -> None:
        self.write("tools/lint-documents", PASSES + "echo a fault\nexit 2\n", 0o755)
        self.assertEqual(self.lint(), ["a fault", "lint: tools/lint-documents ended with status 2"])

    def test_a_part_that_is_not_there_is_told(self) -> None:
        os.remove(self.folder + "/tools/pictures")
        lines, said = self.linted()
        self.assertEqual(lines, ["lint: tools/pictures ended with status 1"])
        self.assertIn("FileNotFoundError", said)

    def test_a_kit_that_is_absent_or_fails_is_told(self) -> None:
        self.write("kit/bin/rattle", PASSES + "exit 1\n", 0o755)
        self.assertEqual(self.lint(), ["lint: layout ended with status 1"])
        self.write("bin/rt", PASSES + "exit 5\n", 0o755)
        with mock.patch.dict(os.environ, PATH=self.folder + "/bin"):
            self.assertEqual(ran(lint.main), (5, "lint: `rt doc` ended with status 5\n"))
        with mock.patch.dict(os.environ, PATH=self.folder):
            self.assertEqual(ran(lint.main), (127, "lint: `rt` of the kit isn't there\n"))

    def test_clauses_that_are_not_read_are_told(self) -> None:
        self.write("crates/one/src/cut.rt", "pub fn cut(a: u8\n")
        lines, said = self.linted()
        self.assertIn("lint: tools/clauses ended with status 1", lines)
        self.assertIn("ValueError", said)

    def test_a_test_that_fails_is_told(self) -> None:
        self.write("tools/tests/test_none.py", "")
        self.assertEqual(self.lint(), [])
        self.write("tools/tests/test_none.py", "assert False\n")
        self.assertEqual(self.lint(), ["lint: tools/tests ended with status 1"])

    def test_what_falls_short_is_told(self) -> None:
        self.write("kit/bin/rattle", PASSES + "echo one/src/lib.rt >&2\nexit 1\n", 0o755)
        self.write(
            "crates/one/specs/One.antt", "one =\n" + 15 * " 1\n" + "\n-- " + 138 * "x" + "\n"
        )
        self.write(
            "crates/one/src/more.rt", 500 * "\n" + "// " + 98 * "é" + "\nuse " + 98 * "x" + ";\n"
        )
        self.write(
            "crates/one/must-fail/two.edit", "turns: two stands\nfile: src/lib.rt\nold: 7\nnew: 8\n"
        )
        self.assertEqual(
            self.lint(),
            [
                "one/src/lib.rt (run rt fmt)",
                "one/src/more.rt:501: above 100 columns",
                "one/specs/One.antt:18: above 140 columns",
                "one/src/more.rt: 502 lines",
                "one/specs/One.antt:1: one has 16 lines",
                "one/must-fail/two.edit: its name doesn't begin with a function's",
                "one/must-fail/two.edit: there is no clause two stands",
                "one/must-fail/two.edit: not once in its file: 7",
                "README.md: there are 2 mutants",
                "docs/EVIDENCE.md: there are 1 clauses, 0 without a mutant, 0 of laws, 2 mutants, 0 without turns:",
            ],
        )

    def test_files_that_rt_makes_are_left_out(self) -> None:
        self.write("crates/one/out/src/made.rt", 501 * "\n")
        self.assertEqual(
            sizes.sources(Repository(self.folder)), ["one/specs/One.antt", "one/src/lib.rt"]
        )

    def test_tables_and_the_ends_of_definitions(self) -> None:
        rows = 16 * ["  1"]
        self.assertEqual(
            list(
                sizes.definitions(
                    "a",
                    ["use x", "-- of acts", "pub data Act :", *rows, "", "abbrev two : 1", *rows],
                )
            ),
            ["a:21: two has 17 lines"],
        )

    def test_edits_without_a_line_or_a_name(self) -> None:
        self.write("crates/one/must-fail/one_is_three.edit", "file: src/lib.rt\nold: 1\n")
        self.write("crates/one/must-fail/stands_for_nothing.edit", "file: src/lib.rt\nold:     1\n")
        self.write(
            "crates/one/must-fail/one_is_two.edit", "turns: one\nfile: src/lib.rt\nold:     1\n"
        )
        there = Repository(self.folder)
        self.assertEqual(
            list(edits.faults(there, edits.clauses(there))),
            [
                "one/must-fail/one_is_three.edit: it has no line 'turns:'",
                "one/must-fail/one_is_three.edit: its name doesn't begin with a function's",
                "one one ensures: no edit turns this clause",
                "one/must-fail/one_is_three.edit: not once in its file: 1",
            ],
        )


if __name__ == "__main__":
    unittest.main()
