"""clauses CRATE.. : prints each clause of each exported function of these crates, as 'CRATE FUNCTION CLAUSE'. It reads
the sources as `rt fmt` lays them out. A function is exported if its type, or the function itself, is named in a
`pub use` of lib.rt, or its module in a `pub mod`. For a trait's method, each `impl` in the crates counts.
` law` comes after a clause of a law: a law's function does nothing, so no body of it can be wrong.
Status: 0, or 2 if a crate can't be read.
"""
import sys
from collections.abc import Iterator

from ..repository import Repository
from .rattle import Crates


def lines(crates: Crates, name: str) -> Iterator[str]:
    """The lines about a crate."""
    for function, clause, is_law in crates.clauses(name):
        yield f"{name} {function} {clause}{' law' if is_law else ''}"


def main(words: list[str]) -> int:
    crates = Crates(Repository())
    for name in words:
        if name not in crates:
            print(f"clauses: there is no crates/{name}/src/lib.rt", file=sys.stderr)
            return 2
        for line in lines(crates, name):
            print(line)
    return 0
