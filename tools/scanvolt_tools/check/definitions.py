"""definitions [-v] : counts the lines of definitions that a reader has to believe.

- The promises of the server: begins with each name in the contract of an exported function of
  sv_server except `replay` and `explain`. StandsFor, which says that a server's state is that of a
  history's log, is left out. It is replaced by the log of a history (IsLogOf) and the steps that
  settle it.
- The laws besides: what the laws of sv_laws and sv_driver_laws cite in addition. What occurs on both
  sides of them need not be read: StandsFor, and the steps of a sweep and of a stimulus.
- All claims of the README: the two above, and the contracts of `replay`, of `explain` and of the
  exported functions of sv_replay, sv_serve, sv_driver_laws and sv_net.
- The Rust types that all these cite: their variants and fields, without comments.

From there it follows every name that a definition cites, over all crates, but no types of the code,
and no names of the standard library and of the kit's crates. Of a definition only its own lines
count: no comments, no imports, no empty lines. With -v each file is listed with how many of its
lines count. It reads only the sources.
"""
import collections
import re
from collections.abc import Iterator

from ..repository import Repository
from .specification import Definitions, Name, believed, of_driver

DECLARED = re.compile(r"Rattle\.(\w+)\.specs\.declared\.\w+\.(\w+)(?:\.TheVariants)?$")


def types(
    repository: Repository, definitions: Definitions, seen: set[Name]
) -> Iterator[tuple[str, int]]:
    """The Rust types that definitions cite, each with how many lines it has."""
    found = set()
    for one in seen:
        brought = definitions.imports[one[0]]
        for name in set(re.findall(r"\w+", "\n".join(definitions.lines[one]))):
            match = DECLARED.match(brought[name][0]) if name in brought else None
            if match:
                found.add(match.groups())
    for crate, name in sorted(found):
        for path in repository.names(f"crates/{crate}/src/**/*.rt"):
            match = re.search(
                rf"\npub (?:enum|struct) {name}\b.*?\n?[}};]\n", repository.text(path), flags=re.S
            )
            if match:
                lines = match.group(0).strip().split("\n")
                yield name, sum(1 for line in lines if not re.match(r"\s*(//|#\[|$)", line))


def show(definitions: Definitions, title: str, seen: set[Name], each: bool) -> None:
    """Prints how many definitions and lines these are."""
    files: collections.Counter[str] = collections.Counter()
    for one in seen:
        files[definitions.file[one]] += len(definitions.lines[one])
    if each:
        for path in sorted(files):
            print(f"{files[path]:5} {path}")
    print(f"{title}: {len(seen)} definitions, {sum(files.values())} lines")


def main(words: list[str]) -> int:
    repository = Repository()
    definitions = Definitions(repository)
    promises, besides, claims = believed(repository, definitions)
    for title, seen in (
        ("the promises of the server", promises),
        ("the laws besides", besides),
        ("of these in sv_serve and sv_driver_laws", of_driver(besides)),
        ("all claims of the README", claims),
    ):
        show(definitions, title, seen, words == ["-v"])
    cited = list(types(repository, definitions, claims))
    print(
        f"the Rust types that these cite: {len(cited)} types, "
        f"{sum(lines for _, lines in cited)} lines"
    )
    return 0
