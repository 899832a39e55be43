"""Reads what the crates and their definitions say from the sources, for the tools that count, list and draw."""
import re
from collections.abc import Collection, Iterable, Iterator, Mapping, Sequence

from ..repository import Repository
from .rattle import Crate, Crates, Function, imports

WORD = re.compile(r"[A-Za-z_◌][\w\-'◌]*")
# The word for what a contract ensures, and the one for what a law has as its premise.
BOTH_SIDES = {"StandsFor", "State", "Sweeps", "Stimulates", "Steps"}
KEYWORDS = re.compile(r"^(?:(?:abbrev|unfoldable|pub|record|data|infix[lr]?(?: \d+)?) )+")
Name = tuple[str, str]  # a definition: its module and its name
Imports = Mapping[str, tuple[str, str | None]]  # by local name, the module and the name there
Sets = tuple[set[Name], set[Name], set[Name]]


def sentence(text: str) -> str:
    """The first sentence of a text, without its full stop."""
    text = " ".join(text.split())
    found = re.match(r"(.*?[^.A-Z])\.(?: |$)", text)
    return (found.group(1) if found else text.rstrip(".")).strip()


def head(text: str, mark: str) -> str:
    """The prose at the head of a file, in lines that begin with this mark."""
    said: list[str] = []
    for line in text.split("\n"):
        if not line.startswith(mark) or not line[len(mark) :].strip() and said:
            break
        said.append(line[len(mark) :].strip())
    return " ".join(said)


def crates(repository: Repository) -> dict[str, list[str]]:
    """The crates, lowest first, each with those that it depends on."""
    lines = [
        line
        for line in repository.text("crates.txt").splitlines()
        if not line.startswith("#") and ":" in line
    ]
    return {name: below.split() for name, _, below in (line.partition(":") for line in lines)}


def libraries(repository: Repository) -> dict[str, Crate]:
    """The crates that others can call, lowest first."""
    found = Crates(repository)
    return {name: found[name] for name in crates(repository) if name in found}


def told(repository: Repository, crate: str) -> str:
    """The first sentence of a crate."""
    for name in ("lib.rt", "main.rt"):
        path = f"crates/{crate}/src/{name}"
        if repository.has(path):
            return sentence(head(repository.text(path), "//!"))
    return ""


class Definitions:
    """All definitions of the crates' specs: their lines, their file below crates/, and the line of prose over each, by module and
    name.
    """

    def __init__(self, repository: Repository) -> None:
        self.lines: dict[Name, list[str]] = {}
        self.file: dict[Name, str] = {}
        self.constructors: dict[Name, Name] = {}
        self.imports: dict[str, Imports] = {}
        self.rule: dict[Name, str] = {}
        for path in repository.names("crates/*/specs/**/*.antt"):
            crate, _, rest = path[len("crates/") :].partition("/specs/")
            self._read(
                path[len("crates/") :],
                f"Rattle.{crate}.specs.{rest[:-5].replace('/', '.')}",
                repository.text(path),
            )

    def _read(self, path: str, module: str, text: str) -> None:
        self.imports[module] = imports(text)
        current: Name | None = None
        above: list[str] = []
        for line in text.split("\n"):
            if line.startswith("--"):
                above.append(line[2:].strip())
                continue
            if re.match(r"(pub )?(use|mod) ", line):
                above = []
                continue
            if not line.strip():
                current, above = None, []
                continue
            if KEYWORDS.match(line) or (current is None and not line.startswith(" ")):
                current = (module, re.split(r"[ :]", KEYWORDS.sub("", line))[0])
                self.lines[current] = []
                self.file[current] = path
                self.rule[current] = " ".join(above)
            if current:
                self.lines[current].append(line)
                variant = re.match(r"\s+(\S+) :", line)
                if variant and re.match(r"(pub )?data ", self.lines[current][0]):
                    self.constructors[(module, variant.group(1))] = current

    def find(self, module: str, name: str) -> Name | None:
        """The definition with this name, or the type that has this constructor."""
        if (module, name) in self.lines:
            return (module, name)
        return self.constructors.get((module, name))

    def cited(self, module: str, text: str, brought: Imports) -> Iterator[Name]:
        """The definitions that a text cites, in a module that imports these names."""
        for name in set(WORD.findall(text)):
            here = self.find(module, name)
            there, inside = brought.get(name, ("", None))
            if here is None and inside:
                here = self.find(there, inside)
            if here:
                yield here
        for prefix, name in set(re.findall(r"\b(\w+)\.([A-Za-z]\w*)", text)):
            if prefix in brought and brought[prefix][1] is None:
                here = self.find(brought[prefix][0], name)
                if here:
                    yield here

    def closure(self, start: Iterable[Name], left_out: Collection[str]) -> set[Name]:
        """What these definitions cite, over all crates, except names that are left out."""
        seen = set(start)
        open_ones = list(seen)
        while open_ones:
            one = open_ones.pop()
            for other in self.cited(one[0], "\n".join(self.lines[one]), self.imports[one[0]]):
                if other not in seen and other[1] not in left_out:
                    seen.add(other)
                    open_ones.append(other)
        return seen

    def start_of(self, repository: Repository, given: Iterable[Function]) -> set[Name]:
        """The names that the contracts of these functions cite, without StandsFor."""
        found = (
            one
            for function in given
            for one in self.cited("", function.head, imports(repository.text(function.path)))
        )
        return {one for one in found if one[1] != "StandsFor"}


def contracts(crate: Crate) -> Iterator[Function]:
    """The functions of a crate that are `pub` and have a contract, except laws."""
    return (one for one in crate.functions if one.is_pub and one.clauses and one.module != "laws")


def laws(repository: Repository, crate: str) -> Sequence[Function]:
    """The laws of a crate."""
    return [one for one in Crate(repository, crate).functions if one.module == "laws"]


def of_driver(seen: Iterable[Name]) -> set[Name]:
    """Those of these names that the crates of the driver define."""
    return {
        one for one in seen if one[0].startswith(("Rattle.sv_serve.", "Rattle.sv_driver_laws."))
    }


def believed(repository: Repository, definitions: Definitions) -> Sets:
    """What the promises of the server rest on, what its laws rest on in addition, and what all claims of the README rest on."""
    history = "Rattle.sv_history.specs."
    server = [
        one
        for one in contracts(Crate(repository, "sv_server"))
        if one.owner == "Server" or one.name == "input_refusal"
    ]
    start = definitions.start_of(
        repository, [one for one in server if one.name not in ("replay", "explain", "explain_end")]
    )
    start |= {(history + "History", "IsLogOf"), (history + "Settling", "IsSettled")}
    promises = definitions.closure(start, {"StandsFor"})
    start = {
        one
        for crate in ("sv_laws", "sv_driver_laws")
        for law in laws(repository, crate)
        for clause in law.ensured()
        for one in definitions.cited("", clause.text, imports(repository.text(law.path)))
    }
    besides = definitions.closure(start, BOTH_SIDES) - promises
    others = [
        one
        for crate in ("sv_replay", "sv_serve", "sv_driver_laws", "sv_net")
        for one in contracts(Crate(repository, crate))
    ]
    start = definitions.start_of(repository, [*server, *others])
    return promises, besides, promises | besides | definitions.closure(start, {"StandsFor"})
