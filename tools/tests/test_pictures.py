"""Tests of tools/pictures: what a picture shows can't change without the picture, and a table can't differ from a definition."""
import os
import unittest

from folders import TOP, Folders, ran

from scanvolt_tools.check import pictures
from scanvolt_tools.repository import Repository

FOLDER = "docs/pictures/"
DIFFERS = FOLDER + "%s.svg: it differs from what tools/pictures draws\n"
PAGE, SCAN = "docs/INSTRUMENT.md", "crates/sv_scan/specs/"
# A file, the text that is changed in it, the new text, and what is printed then.
CHANGES = (
    (
        PAGE,
        "| QYE | query error, -4xx |",
        "| QYE | a query at fault, -4xx |",
        DIFFERS % "status-model",
    ),
    (
        PAGE,
        "| | 2 | 4 | QYE |",
        "| | 1 | 2 | QYE |",
        PAGE + ": standard events: bit 2 is only in the sources\n",
    ),
    (
        PAGE,
        "| | 2 | 4 | QYE |",
        "| | 2 | 8 | QYE |",
        PAGE + ": standard events: the weight of bit 2 isn't 8\n",
    ),
    (
        SCAN + "Condition.antt",
        "+ bit 8 (not",
        "+ bit 10 (is_idle (state log)) + bit 8 (not",
        PAGE + ": operation: bit 10 is only in the sources\n" + DIFFERS % "trigger-states",
    ),
    (
        "crates/sv_errors/specs/Code.antt",
        "class == 4 then 2 ^ 2",
        "class == 4 then 2 ^ 1",
        PAGE + ": standard events: bit 1 is only in the sources\n",
    ),
    (
        "crates/sv_layers/specs/StatusByte.antt",
        "(k ≡ 7) × Summary Operation",
        "(k ≡ 7) × Summary Limit",
        DIFFERS % "status-model",
    ),
    (
        "crates/sv_status/src/register_name.rt",
        "    Limit,\n",
        "    Limit,\n    Voltage,\n",
        "crates/sv_status/src/register_name.rt: there is no place for the register Voltage\n",
    ),
    (
        SCAN + "Counted.antt",
        "counts log Sample = is_scanning (state log)",
        "counts log Sample = is_waiting (state log)",
        PAGE + ": the table of moves: Waiting by tick to Idle is only in crates/sv_scan/specs\n",
    ),
    (
        SCAN + "Counted.antt",
        "counts log Sample = is_scanning (state log)",
        "counts log Sample = true",
        PAGE + ": the table of moves: Idle by tick to Idle is only in crates/sv_scan/specs\n",
    ),
    (
        SCAN + "Counted.antt",
        "if is_idle (state log) then None else Some InitIgnored",
        "if is_scanning (state log) then Some InitIgnored else None",
        PAGE + ": the table of moves: Idle by INITiate to Waiting isn't in crates/sv_scan/specs\n",
    ),
    (
        PAGE,
        "| no other link holds it | lock_timeout | 11 |",
        "| no other link holds it | lock_timeout | 15 |",
        PAGE + ": the lock: Timed out: by the definitions '11', not '15'\n",
    ),
    (
        PAGE,
        "| no limit | | |",
        "| no limit | | 23 |",
        PAGE + ": dialing: device_abort: by the definitions '', not '23'\n",
    ),
    (
        PAGE,
        "| response | device_read |",
        "| response | device_readstb |",
        PAGE + ": response: device_read waits for it\n",
    ),
    (
        "crates/sv_history/specs/Resuming.antt",
        "late _ = IoTimeout",
        "late _ = Locked",
        PAGE + ": input: Timed out: by the definitions '11', not '15'\n",
    ),
    (
        "crates/sv_links/src/waiting.rt",
        "    /// The call waits until the device accepts a write.\n",
        "    /// Noon.\n    Noon,\n    /// The call waits until the device accepts a write.\n",
        PAGE + ": the table of calls that wait: noon is only in crates/sv_links/src/waiting.rt\n",
    ),
    ("crates.txt", "sv_vxi: sv_xdr\n", "sv_vxi: sv_xdr\nsv_new:\n", ""),
    (
        "crates.txt",
        "sv_layers: sv_logs",
        "sv_new:\nsv_layers: sv_new sv_logs",
        "docs/ARCHITECTURE.md: the way of a call: sv_new is only in crates.txt\n",
    ),
    (
        "docs/ARCHITECTURE.md",
        "| `sv_value` | `sv_instrument` | parameters |",
        "| `sv_value` | `sv_instrument` | " + 9 * "parameters " + "|",
        "The way of a call: there is no room for '" + " ".join(9 * ["parameters"]) + "'\n",
    ),
    (
        "crates/sv_rpc/src/lib.rt",
        "//! RPC over a stream",
        "//! RPC over streams",
        DIFFERS % "way-of-a-call",
    ),
    (
        "crates/sv_layers/specs/Standard.antt",
        "Occurs : ",
        "Happens : ",
        "crates/sv_layers/specs/Standard.antt: it has no Occurs\n",
    ),
    (FOLDER + "suspended-call.svg", "times out", "is late", DIFFERS % "suspended-call"),
    (FOLDER + "trigger-states.svg", "\n", "\r\n", DIFFERS % "trigger-states"),
)


class Changed(Repository):
    """This repository, in which one file has another text. No file is written."""

    def __init__(self, there: Repository, name: str, text: str) -> None:
        super().__init__(TOP)
        self._texts = {**there._texts, name: text}

    def write(self, name: str, text: str) -> None:
        raise AssertionError(name)


class Pictures(unittest.TestCase):
    there: Repository  # each file is read once

    @classmethod
    def setUpClass(cls) -> None:
        cls.there = Repository(TOP)
        assert pictures.faults(cls.there, True) == []

    def test_a_change_is_told(self) -> None:
        for name, old, new, lines in CHANGES:
            with self.subTest(name, new=new):
                text = self.there.text(name)
                self.assertIn(old, text)
                told = pictures.faults(Changed(self.there, name, text.replace(old, new)), True)
                self.assertEqual("".join(line + "\n" for line in told), lines)


class Drawing(Folders):
    """A copy of what the pictures are drawn from."""

    def setUp(self) -> None:
        super().setUp()
        names = Repository(TOP).names(
            "crates/*/specs/**/*.antt", "crates/*/src/**/*.rt", "docs/*.md", FOLDER + "*.svg"
        )
        for name in [*names, "crates.txt"]:
            self.write(name, Repository(TOP).text(name))

    def told(self, *words: str) -> tuple[int, str]:
        return ran(pictures.main, *words, self.folder)

    def test_a_picture_is_drawn_anew_and_others_are_told(self) -> None:
        self.assertEqual(self.told(), (0, ""))
        name = FOLDER + "status-model.svg"
        text = self.read(name)
        os.remove(os.path.join(self.folder, name))
        self.assertEqual(self.told("--check"), (1, DIFFERS % "status-model"))
        self.assertEqual(self.told(), (0, ""))
        self.assertEqual(self.read(name), text)
        self.write(FOLDER + "old.svg", text)
        self.assertEqual(
            self.told("--check"), (1, FOLDER + "old.svg: tools/pictures draws no such picture\n")
        )

    def test_what_cannot_be_read_is_told(self) -> None:
        self.write(
            SCAN + "Counted.antt",
            self.read(SCAN + "Counted.antt").replace("counts log _ =", "counts log any ="),
        )
        status, lines = self.told("--check")
        self.assertEqual(status, 1)
        self.assertRegex(
            lines,
            FOLDER
            + r"trigger-states.svg: what it is drawn from can't be read, at trigger_moves.py:\d+: KeyError",
        )


if __name__ == "__main__":
    unittest.main()
