"""Tests of what packs a release and tries it."""
import subprocess
import unittest
from pathlib import Path
from unittest import mock

from folders import TOP, Folders, ran

from scanvolt_tools.release import debian_changelog, dist, packages
from scanvolt_tools.repository import Repository


class Changelog(unittest.TestCase):
    def test_items(self) -> None:
        section = "2.0\n\n- **One** is\n  `new`.\n- Two.\n\nMore.\n"
        self.assertEqual(debian_changelog.items(section), ["One is new.", "Two."])

    def test_the_newest_section(self) -> None:
        told = debian_changelog.text(0)
        assert told is not None
        version = Repository(TOP).text("VERSION").strip()
        self.assertTrue(told.startswith(f"scanvolt ({version}) unstable; urgency=medium\n\n  * "))
        self.assertTrue(told.endswith("  Thu, 01 Jan 1970 00:00:00 +0000\n"))


class Dist(unittest.TestCase):
    def needs(self, needed: str, versions: str) -> str:
        """What a program depends on by which readelf prints this."""
        with mock.patch.object(
            dist, "run", lambda _, option, __: needed if option == "-d" else versions
        ):
            return dist.depends("program")

    def test_what_a_program_depends_on(self) -> None:
        line = " 0x01 (NEEDED)  Shared library: [%s]\n"
        both = line % "libgcc_s.so.1" + line % "libc.so.6"
        self.assertEqual(
            self.needs(both, "GLIBC_2.4 GLIBC_2.34 GLIBC_2.9"), "libgcc-s1, libc6 (>= 2.34)"
        )
        with self.assertRaisesRegex(dist.Failed, "needs a newer glibc than 2.36"):
            self.needs(both, "GLIBC_2.37")
        with self.assertRaisesRegex(dist.Failed, "it isn't known which package has libz.so.1"):
            self.needs(both + line % "libz.so.1", "GLIBC_2.4")

    def test_a_program_that_cannot_be_run(self) -> None:
        self.assertEqual(ran(dist.main)[0], 2)
        self.assertEqual(
            ran(dist.main, "/nonexistent"),
            (2, "the program can't be run: there is no /nonexistent\n"),
        )


class Packages(Folders):
    def test_how_each_file_is_tried(self) -> None:
        for name, how in (
            ("scanvolt-2.0.0-x86_64.tar.gz", packages.archive),
            ("scanvolt-2.0.0.tar.gz", packages.sdist),
            ("scanvolt-2.0.0-py3-none-any.whl", packages.wheel),
            ("a_x86_64.whl", packages.wheel_with_program),
            ("scanvolt_2.0.0_amd64.deb", packages.unpacked),
            ("python3_all.deb", packages.unpacked_python),
            ("KIT", None),
        ):
            self.assertIs(packages.trial(name), how)

    def test_the_program_in_a_root(self) -> None:
        """The script becomes what chroot runs. Here chroot is a script that prints its words."""
        self.write("chroot", '#!/bin/sh\necho "$@"\n', 0o755)
        script = packages.inside(Path("/a b"), Path(self.folder))
        done = subprocess.run(
            [script, "serve", "x y"], env={"PATH": self.folder}, stdout=subprocess.PIPE, text=True
        )
        self.assertEqual(done.stdout, "/a b scanvolt serve x y\n")

    def test_files_that_are_not_there(self) -> None:
        self.assertEqual(ran(packages.main, self.folder), (2, "usage: packages [ROOT]\n"))


if __name__ == "__main__":
    unittest.main()
