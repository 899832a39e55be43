"""What the pictures are drawn from: tables of the documents, definitions, and enums of the code."""
import re
from collections.abc import Iterable

from ...repository import Repository
from ..specification import Definitions

from .canvas import Fault


def part(pattern: str, text: str) -> str:
    """What the group of a pattern matches in a text. Raises ValueError if that has no such part."""
    found = re.search(pattern, text)
    if found is None:
        raise ValueError(f"no '{pattern}' in '{text}'")
    return found.group(1)


class Sources:
    """The sources of a repository."""

    def __init__(self, repository: Repository) -> None:
        self.repository = repository
        self.definitions = Definitions(repository)

    def text(self, path: str) -> str:
        """The text of a file."""
        return self.repository.text(path)

    def table(self, path: str, *columns: str) -> list[list[str]]:
        """The rows of the table with these columns. An empty cell in the first column means the cell above it."""
        head = "\n| " + " | ".join(columns) + " |\n"
        text = self.text(path)
        if text.count(head) != 1:
            raise Fault(f"{path}: it has no one table with the columns {', '.join(columns)}")
        rows: list[list[str]] = []
        for line in text[text.index(head) + len(head) :].split("\n")[1:]:
            if not line.startswith("|"):
                break
            cells = [cell.strip().replace("`", "") for cell in line.strip("|").split("|")]
            if len(cells) != len(columns):
                raise Fault(f"{path}: a row has {len(cells)} cells of {len(columns)}: {line}")
            cells[0] = cells[0] or rows[-1][0]
            rows.append(cells)
        return rows

    def definition(self, place: str, name: str) -> str:
        """The lines of a definition, joined; `place` is a file such as `sv_scan/Scan`."""
        crate, _, file = place.partition("/")
        found = self.definitions.lines.get((f"Rattle.{crate}.specs.{file}", name))
        if found is None:
            raise Fault(f"crates/{crate}/specs/{file}.antt: it has no {name}")
        return "\n".join(found)

    def equations(self, place: str, name: str) -> dict[str, str]:
        """The right side of each equation of a definition, by its left side."""
        joined = re.sub(r"\n {2,}", " ", self.definition(place, name))
        return dict(line.partition(" = ")[::2] for line in joined.split("\n")[1:])

    def variants(self, path: str, name: str) -> dict[str, str]:
        """The variants of an enum of the code, each with the first sentence of its comment."""
        found = re.search(rf"\npub enum {name} \{{\n(.*?)\n\}}", self.text(path), flags=re.S)
        if not found:
            raise Fault(f"{path}: it has no enum {name}")
        told: list[str] = []
        variants: dict[str, str] = {}
        for line in found.group(1).split("\n"):
            line = line.strip()
            if line.startswith("///"):
                told.append(line[3:].strip())
            elif word := re.match(r"\w+", line):
                variants[word.group()] = re.split(r"\.(?: |$)", " ".join(told))[0]
                told = []
        return variants


def agree(path: str, what: str, here: Iterable[str], there: Iterable[str], other: str) -> None:
    """Raises Fault if a document doesn't say the same as a source."""
    for one in sorted(set(there) - set(here)):
        raise Fault(f"{path}: {what}: {one} is only in {other}")
    for one in sorted(set(here) - set(there)):
        raise Fault(f"{path}: {what}: {one} isn't in {other}")
