"""Tests of tools/book: what it reads about functions and their contracts, the counts that it compares, the table of figures."""
import unittest
from unittest import mock

from folders import Folders, ran

from scanvolt_tools.check import book
from scanvolt_tools.check.rattle import Crates
from scanvolt_tools.repository import Repository

SOURCE = """
/// What can go on.
pub trait Goes {
    /// Goes on.
    fn go(&mut self, count: u8) -> u8
        ensures within { result ≤ count };

    /// Without a contract.
    fn rest(&self);
}

impl<A: Allocator> Some<A> {
    /// A new one.
    pub fn new(alloc: A) -> Result<Some<A>, AllocError> {
        Ok(Some { alloc })
    }

    /// Takes some. Then fewer are left.
    ///
    /// # Errors
    /// Where there are none.
    pub fn take(&mut self, count: u8) -> Result<u8, Lacks>
        requires { count < 8 }
        requires few { (λ n. { n }) count
            ≤ 7 }
        // Nothing more
        // is said.
        ensures stands { Stands self.new }
        ensures { Kept self.old }
    {
        Ok(count)
    }
}

pub fn law()
    ensures { Law }
{}

pub enum Lacks {
    // Memory is no matter here.
    Room,
    Deep(Refused),
}

pub enum Refused {
    NoMemory,
}
"""
EVIDENCE = """| `crates/rows` | what | 3 rows |

<!-- Written by tools/book from bench/results; run it. -->

old

<!-- The end of what it writes. -->

The rest.
"""
RESULTS = """date,commit,machine,bench,measure,unit,value,round
2026-01-01,aaaaaaa,,serve,"idn on 1, over the peer",ratio,1.2,of 9
2026-01-02,bbbbbbb,one,serve,"idn on 1, over the peer",ratio,1.5,1
2026-01-02,bbbbbbb,one,serve,"idn on 1, over the peer",ratio,1.25,2
2026-01-02,bbbbbbb,one,serve,"idn on 1, over the peer",ratio,1.3,3
2026-01-03,ccccccc,,serve,"idn on 1, the peer",queries/s,1500,of 9
"""
FILES = {
    "crates/one/src/lib.rt": "pub use some::{Some, Goes, Lacks};\npub mod laws;\n",
    "crates/one/src/some.rt": SOURCE,
    "crates/one/src/laws.rt": "/// It holds.\npub fn law()\n    ensures { Law }\n{}\n",
    "crates/rows/rows/a.rows": "title one\n0 turn\n\ntitle two\nsingly\n0 turn\n",
    "docs/EVIDENCE.md": EVIDENCE,
    "docs/THEOREMS.md": "Of the driver's definitions only these are believed, 0\nlines.\n",
    "bench/results/serve.csv": RESULTS,
}


class Books(Folders):
    def setUp(self) -> None:
        super().setUp()
        for name, text in FILES.items():
            self.write(name, text)

    @property
    def crates(self) -> Crates:
        return Crates(Repository(self.folder))

    def test_functions_and_what_is_said_of_them(self) -> None:
        crate = self.crates["one"]
        told = {
            name: (said, clauses)
            for name, said, clauses, _ in book.functions(crate.repository, crate)
        }
        self.assertEqual(
            told,
            {
                "laws::law": ("It holds", [("", "")]),
                "Goes::go": ("Goes on", [("within", "")]),
                "Some::take": (
                    "Takes some. Then fewer are left. Errors: Where there are none",
                    [("stands", "Nothing more is said"), ("", "")],
                ),
            },
        )

    def test_all_that_other_crates_may_call(self) -> None:
        crate = self.crates["one"]
        self.assertEqual(
            [book.shown(crate, one) for one in book.exported(crate)],
            ["laws::law", "Some::new", "Some::take", "Goes::go", "Goes::rest"],
        )

    def test_conditions(self) -> None:
        found = {
            one.shown: [" ".join(clause.text.split()) for clause in one.required()]
            for one in book.exported(self.crates["one"])
        }
        self.assertEqual(found["Some::take"], ["count < 8", "(λ n. { n }) count ≤ 7"])

    def test_errors_that_tell_of_memory(self) -> None:
        faults = book.memory_faults(Repository(self.folder))
        self.assertEqual(faults, {"Refused", "Lacks"})
        lack = [
            one.shown for one in book.exported(self.crates["one"]) if book.may_lack(one, faults)
        ]
        self.assertEqual(lack, ["Some::new", "Some::take"])

    def told(self) -> list[str]:
        return list(book.miscounted(Repository(self.folder), self.crates, 0))

    def test_counts(self) -> None:
        self.assertEqual(self.told(), [])
        self.write("docs/EVIDENCE.md", EVIDENCE.replace("3 rows", "4 rows"))
        self.write(
            "docs/THEOREMS.md", "Of the driver's definitions only these are believed, 10 lines.\n"
        )
        self.assertEqual(
            self.told(),
            [
                "docs/EVIDENCE.md:1: rows has 3 rows",
                "docs/THEOREMS.md: the laws rest on 0 lines of the driver's definitions",
            ],
        )

    def test_the_table_of_figures_shows_the_newest_run_that_has_some(self) -> None:
        self.assertEqual(
            book.with_figures(Repository(self.folder)),
            EVIDENCE.replace(
                "old",
                """\
| Bench | Measure | Found | Unit | Aim | Program |
|---|---|---|---|---|---|
| [serve](../bench/results/serve.csv) | idn on 1, over the peer | 1.30 (1.25 to 1.50) | ratio | at least 1.35 | bbbbbbb, 2026-01-02 |""",
            ),
        )
        self.write("docs/EVIDENCE.md", "no place\n")
        self.assertIsNone(book.with_figures(Repository(self.folder)))

    def ran(self, *words: str) -> tuple[int, str]:
        """The status of the tool, and what it prints, if it writes no pages."""
        with mock.patch.multiple(
            book, PAGES={}, believed=lambda *_: (set(), set(), set()), unsaid=lambda _: []
        ), mock.patch.object(book, "crates", lambda _: {}):
            return ran(book.main, *words, self.folder)

    def test_a_table_that_is_stale_is_told_and_written(self) -> None:
        stale = "docs/EVIDENCE.md: it differs from what tools/book writes\n"
        self.assertEqual(self.ran("--check"), (1, stale))
        self.assertEqual(self.ran(), (0, ""))
        self.assertEqual(self.ran("--check"), (0, ""))
        self.write("bench/results/serve.csv", RESULTS.replace("1.3,3", "1.6,3"))
        self.assertEqual(self.ran("--check"), (1, stale))

    def test_results_that_are_none_are_told(self) -> None:
        for old, new, said in (
            (
                "idn on 1, over",
                "idn on 2, over",
                "2: serve has no measure `idn on 2, over the peer`",
            ),
            ("ratio,1.5", "ms,1.5", "3: the bench or the unit isn't that of the measure (ratio)"),
            (",1.5,1", ",much,1", "3: no line of results: value"),
            (",1.5,1", ",1.5,one", "3: no line of results: round"),
            (",1.5,1", ",1.5,1,", "3: no line of results: 9 columns"),
            ("2026-01-02,bbbbbbb", "2026-01-02,unknown", "3: no line of results: commit"),
            ("date,commit", "commit,date", "1: its columns aren't date,commit,"),
        ):
            self.write("bench/results/serve.csv", RESULTS.replace(old, new, 1))
            for words in ((), ("--check",)):
                status, told = self.ran(*words)
                self.assertEqual(status, 1)
                self.assertTrue(told.startswith("bench/results/serve.csv:" + said), told)
        self.write("bench/results/serve.csv", RESULTS)
        self.write("bench/results/soak.csv", RESULTS)
        told = "bench/results/soak.csv:2: the bench or the unit isn't that of the measure"
        self.assertIn(told, self.ran("--check")[1])

    def test_what_no_source_says(self) -> None:
        self.write(
            "docs/THEOREMS.md",
            "```\nensures   stands { Stands self.new }\n\nensures { Stands }\n```\n",
        )
        self.assertEqual(
            list(book.unsaid(Repository(self.folder))), ["docs/THEOREMS.md:4: no source says this"]
        )


if __name__ == "__main__":
    unittest.main()
