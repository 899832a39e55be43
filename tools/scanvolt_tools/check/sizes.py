"""How long the sources are: columns, lines of files, and lines of definitions. Files are named as seen from crates/."""
import os
import re
from collections.abc import Iterator

from ..repository import Repository

COLUMNS = {".rt": 100, ".antt": 140}
# `rt fmt` keeps these lines on one line.
USE = {".rt": re.compile(r" *(pub |ghost )?use "), ".antt": re.compile(r"(pub )?use ")}
LINES, DEFINITION = 500, 15  # of a file, and of a definition
# Definitions that are tables, with one line for each row.
TABLES = set(
    """Act Arguments argument_fields common_commands arguments_at entry link_call Performs plain_call procedure_of Says
 set_order value_text word_text""".split()
)
APART = re.compile(r"--|use |pub mod |mod |$")
KEYWORDS = re.compile(r"^(?:abbrev |pub |record |data |unfoldable )*")


def sources(repository: Repository) -> list[str]:
    """The files of Rattle in crates/, except what `rt` makes."""
    found = []
    for folder, folders, names in os.walk(repository.path("crates")):
        folders[:] = [name for name in folders if name != "out"]
        found += [os.path.join(folder, name) for name in names if name.endswith((".rt", ".antt"))]
    return sorted(os.path.relpath(path, repository.path("crates")) for path in found)


def lines_of(repository: Repository, name: str) -> list[str]:
    """The lines of a file in crates/."""
    lines = repository.text("crates/" + name).split("\n")
    return lines[:-1] if lines[-1] == "" else lines


def columns(repository: Repository, names: list[str], kind: str) -> Iterator[str]:
    """Lines of the files of this kind that are too long."""
    for name in names:
        for number, line in enumerate(lines_of(repository, name) if name.endswith(kind) else (), 1):
            if len(line) > COLUMNS[kind] and not USE[kind].match(line):
                yield f"{name}:{number}: above {COLUMNS[kind]} columns"


def lengths(repository: Repository, names: list[str]) -> Iterator[str]:
    """Files and definitions that are too long."""
    for name in names:
        count = len(lines_of(repository, name))
        if count > LINES:
            yield f"{name}: {count} lines"
    for name in names:
        if "/specs/" in name:
            yield from definitions(name, lines_of(repository, name))


def definitions(name: str, lines: list[str]) -> Iterator[str]:
    """Definitions of a file that are too long. An empty line ends one; comments and imports don't count."""
    first, count, word = 0, 0, ""
    for number, line in enumerate([*lines, ""], 1):
        if not line:
            if count > DEFINITION and word not in TABLES:
                yield f"{name}:{first}: {word} has {count} lines"
            count = 0
        elif not APART.match(line):
            if count == 0:
                first, word = number, re.split("[ :]", KEYWORDS.sub("", line))[0]
            count += 1
