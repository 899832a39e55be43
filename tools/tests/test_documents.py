"""Tests of tools/lint-documents, and of what tools/documents and tools/clients read in the documents."""
import subprocess
import unittest

from folders import TOP, Folders, ran

from scanvolt_tools.attack import clients, documents
from scanvolt_tools.check import lint_documents
from scanvolt_tools.repository import Repository

PAGE = """# A page

[one](other.md) and [two](other.md#a-part-of-it) and [three](#a-page) and [out](https://example.org)
`[no](link.md)`

```
[no](link.md)
$ echo one \\
two
one two
$ echo 'a
b'
..
```

```
not a command
```
"""
OTHER = "# Other\n\n## A [part](page.md) of `it`!\n\n" + 131 * "x" + "\n| " + 131 * "x" + " |\n"


class Links(Folders):
    def setUp(self) -> None:
        super().setUp()
        subprocess.run(["git", "init", "-q", self.folder], check=True)
        self.write("docs/other.md", OTHER)

    def test_links_and_columns(self) -> None:
        self.write("docs/page.md", PAGE)
        told = "docs/other.md:5: prose above 130 columns\n"
        self.assertEqual(ran(lint_documents.main, self.folder), (1, told))

    def test_links_that_lead_nowhere(self) -> None:
        self.write("docs/other.md", "# Other\n")
        self.write("docs/page.md", PAGE.replace("other.md)", "another.md)"))
        self.assertEqual(
            ran(lint_documents.main, self.folder),
            (
                1,
                (
                    "docs/page.md:3: the link leads nowhere: another.md\n"
                    "docs/page.md:3: the link's heading isn't there: other.md#a-part-of-it\n"
                ),
            ),
        )

    def test_headings_that_occur_twice(self) -> None:
        self.assertEqual(
            lint_documents.anchors(["# One", "## One", "```", "# Two", "```"]), {"one", "one-1"}
        )


class Commands(unittest.TestCase):
    def test_blocks(self) -> None:
        found = documents.blocks(PAGE, "page.md")
        self.assertEqual(
            [[(one.place, one.text, one.lines) for one in block] for block in found],
            [
                [
                    ("page.md:8", "echo one \\\ntwo", ["one two"]),
                    ("page.md:11", "echo 'a\nb'", [".."]),
                ]
            ],
        )

    def test_what_is_printed_fits(self) -> None:
        self.assertTrue(
            documents.fits(
                ["a", "..", "token=0123456789abcdefg"], ["a", "b", "c", "token=gfedcba9876543210"]
            )
        )
        self.assertFalse(documents.fits(["a", "..", "b"], ["a"]))

    def test_commands_that_are_not_typed(self) -> None:
        self.assertEqual(documents.reason("make test"), "it proves, for an hour at first")
        self.assertIsNone(documents.reason("make run"))

    def test_the_client_of_readme(self) -> None:
        script = clients.first_page(Repository(TOP).text("README.md"))
        self.assertIn("import pyvisa", script)
        self.assertIn("\nSCANVOLT,SV32,", script)
        self.assertIn("exit 1", clients.first_page("no client"))

    def test_the_commands_that_write_scenarios(self) -> None:
        texts = [
            Repository(TOP).text(name)
            for name in ("examples/README.md", "examples/driver/README.md")
        ]
        lines = clients.scenarios("".join(texts)).splitlines()
        self.assertEqual(
            [line.rpartition(" ")[2] for line in lines],
            ["examples/bench.scenario", "examples/driver/stand.scenario"],
        )
        self.assertEqual(
            clients.scenarios("$ tools/scenario 1=1 > a"), "echo 1 commands write scenarios; exit 1"
        )


if __name__ == "__main__":
    unittest.main()
