"""Tests of the one reader of Rattle's functions and clauses, and of tools/clauses and tools/lint-errors, which use it."""
import re
import unittest
from unittest import mock

from folders import TOP, Folders, ran

from scanvolt_tools.check import clauses, lint_errors, rattle
from scanvolt_tools.repository import Repository

ROOT = """//! A crate.
pub mod laws;
mod inside;
mod tests;

pub use inside::{
    Meter, Stream, read,
};
"""
INSIDE = """\
/// Reads.
///
/// # Errors
/// `Short` if nothing is there.
#[tactic(auto)]
pub fn read<F: Fn(&[u8]) -> u8>(
    ports: [u16; 3],
    f: F,
) -> Result<u8, Fault>
    requires { f.is_ready → ports.0 < 3 }
    // What is read. A brace in a text: "}".
    // Two lines.
    ensures one { IfOk result (λ a. { a } ≡ codes "}") }
    ensures { let kept = record {
        a = 1;
    } in Kept kept }
{
    first(ports)
}

fn first(ports: [u16; 3]) -> Result<u8, Fault> {
    Ok(1)
}

pub(crate) const fn second() -> char
    ensures { result ≡ '{' }
{
    '{'
}

impl Meter {
    /// A meter.
    ///
    /// # Errors
    /// If memory is refused.
    pub fn new() -> io::Result<Meter> {
        Ok(Meter)
    }

    /// Whether it is [`on`](Meter::on).
    pub const fn is_on(&self) -> bool
        ensures { result ≡ true }
    {
        fn other() -> u8 {
            1
        }
        true
    }
}

pub trait Stream: Read + Write {
    /// Calls.
    ///
    /// # Errors
    /// If it can't.
    fn call(&self) -> Result<Self, Fault>
        ensures within { record { a = 1; } ≡ 2 }
        ensures { Called };

    /// Rests.
    fn rest(&self);
}

impl<A: Allocator + Copy> Stream for Meter<A> {
    fn call(&self) -> Result<Self, Fault> {
        Ok(Meter)
    }

    fn rest(&self) {}
}

impl Stream for () {
    fn call(&self) -> Result<Self, Fault> {
        Err(Fault)
    }
}

unsafe impl Marked for Meter {}

pub fn not_given()
    ensures { Nothing }
{}
"""
LAWS = "/// Says.\npub fn says(a: u8)\n    ensures { Law a }\n{}\n"
FILES = {
    "crates.txt": "# lowest first\none:\n",
    "crates/one/src/lib.rt": ROOT,
    "crates/one/src/inside.rt": INSIDE,
    "crates/one/src/laws.rt": LAWS,
    "crates/one/src/tests.rt": "pub fn read()\n    ensures { It }\n{}\n",
}
CLAUSES = """one read one
one read ensures
one Meter::is_on ensures
one Meter::call within
one Meter::call ensures
one Stream::call within
one Stream::call ensures
one says ensures law
"""
SECTION = "/// # Errors\n"


class Crates(Folders):
    def setUp(self) -> None:
        super().setUp()
        for name, text in FILES.items():
            self.write(name, text)


class Rattle(Crates):
    def found(self) -> list[rattle.Function]:
        return list(rattle.functions("crates/one/src/inside.rt", INSIDE))

    def test_all_functions_and_where_they_are(self) -> None:
        shown = [(one.shown, one.via, one.in_trait, one.is_pub, one.line) for one in self.found()]
        lines = INSIDE.split("\n")
        for name, *_, line in shown:
            self.assertIn("fn " + name.rpartition("::")[2], lines[line - 1])
        self.assertEqual(
            [row[:4] for row in shown],
            [
                ("read", "", False, True),
                ("first", "", False, False),
                ("second", "", False, False),
                ("Meter::new", "", False, True),
                ("Meter::is_on", "", False, True),
                ("Stream::call", "", True, False),
                ("Stream::rest", "", True, False),
                ("Meter::call", "Stream", False, False),
                ("Meter::rest", "Stream", False, False),
                ("Stream::call", "Stream", False, False),
                ("not_given", "", False, True),
            ],
        )

    def test_what_a_function_answers(self) -> None:
        self.assertEqual(
            [one.answer for one in self.found()],
            [
                "Result<u8, Fault>",
                "Result<u8, Fault>",
                "char",
                "io::Result<Meter>",
                "bool",
                "Result<Self, Fault>",
                "",
                "Result<Self, Fault>",
                "",
                "Result<Self, Fault>",
                "",
            ],
        )

    def test_clauses(self) -> None:
        read = self.found()[0]
        told = [
            (one.kind, one.name, " ".join(one.text.split()), one.comment) for one in read.clauses
        ]
        self.assertEqual(
            told,
            [
                ("requires", "", "f.is_ready → ports.0 < 3", ""),
                (
                    "ensures",
                    "one",
                    'IfOk result (λ a. { a } ≡ codes "}")',
                    'What is read. A brace in a text: "}". Two lines.',
                ),
                ("ensures", "", "let kept = record { a = 1; } in Kept kept", ""),
            ],
        )
        self.assertEqual((len(read.required()), len(read.ensured())), (1, 2))
        self.assertTrue(read.head.startswith("<F: Fn(&[u8]) -> u8>("))
        self.assertTrue(read.head.endswith("in Kept kept }"))

    def test_comments(self) -> None:
        self.assertEqual(self.found()[0].comment, "Reads.  # Errors `Short` if nothing is there.")
        self.assertEqual(self.found()[4].comment, "Whether it is `on`.")

    def test_what_other_crates_may_call(self) -> None:
        crate = rattle.Crate(Repository(self.folder), "one")
        self.assertEqual(
            [one.shown for one in crate.exported()],
            ["read", "Meter::new", "Meter::is_on", "Stream::call", "Stream::rest", "says"],
        )

    def test_a_file_that_ends_in_a_head_is_told(self) -> None:
        with self.assertRaises(ValueError):
            list(rattle.functions("a.rt", "pub fn cut(a: u8"))

    def test_imports(self) -> None:
        text = "ghost use Rattle.a.B.{C, d as e};\n    pub use Rattle.f-g as G;\nuse std::fmt;\n"
        self.assertEqual(
            rattle.imports(text),
            {"C": ("Rattle.a.B", "C"), "e": ("Rattle.a.B", "d"), "G": ("Rattle.f-g", None)},
        )

    def listed(self, *names: str) -> tuple[int, str]:
        with mock.patch.object(clauses, "Repository", lambda: Repository(self.folder)):
            return ran(clauses.main, *names)

    def test_clauses_are_listed(self) -> None:
        """Each `impl` of a trait counts; for `()` the trait's name is shown. A law is told from other functions."""
        self.assertEqual(self.listed("one"), (0, CLAUSES))

    def test_a_crate_that_is_not_there(self) -> None:
        self.assertEqual(self.listed("two"), (2, "clauses: there is no crates/two/src/lib.rt\n"))


class Errors(Crates):
    """tools/lint-errors prints a function that returns a Result and has no '# Errors' in its comment."""

    def lint(self) -> tuple[int, str]:
        return ran(lint_errors.main, self.folder)

    def test_nothing_falls_short(self) -> None:
        self.assertEqual(self.lint(), (0, ""))

    def test_each_section_is_wanted(self) -> None:
        places = [found.start() for found in re.finditer(SECTION, INSIDE)]
        for place, name in zip(places, ("read", "Meter::new", "Stream::call"), strict=True):
            self.write("crates/one/src/inside.rt", INSIDE[:place] + INSIDE[place + len(SECTION) :])
            status, lines = self.lint()
            self.assertEqual(status, 1)
            self.assertRegex(
                lines,
                rf"^crates/one/src/inside.rt:\d+: {name} answers a Result, "
                r"and its comment has no '# Errors'\n$",
            )

    def test_functions_of_an_open_module_want_it(self) -> None:
        self.write(
            "crates/one/src/laws.rt",
            "/// Says.\npub fn says() -> Result<(), Fault> {\n    Ok(())\n}\n",
        )
        self.assertEqual(
            self.lint(),
            (
                1,
                "crates/one/src/laws.rt:2: laws::says answers a Result, and its comment has no '# Errors'\n",
            ),
        )

    def test_the_repository_has_them(self) -> None:
        """Without the sections of one crate, as many functions are printed as the crate has."""

        class Without(Repository):
            def text(self, name: str) -> str:
                text = super().text(name)
                return (
                    re.sub(r" *" + SECTION, "", text)
                    if re.match(r"crates/sv_xdr/src/(reader|writer)\.rt$", name)
                    else text
                )

        self.assertEqual(list(lint_errors.faults(Repository(TOP))), [])
        self.assertEqual(len(list(lint_errors.faults(Without(TOP)))), 8)


if __name__ == "__main__":
    unittest.main()
