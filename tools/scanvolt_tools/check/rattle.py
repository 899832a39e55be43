"""Reads the sources of Rattle: the functions that other crates may call, their contracts, and what a file imports.

The sources are read as `rt fmt` lays them out: a type's block begins and ends at the left margin, and its methods are indented
once. A head is what comes before a function's body: parameters, the type of the answer, and clauses.
"""
import re
from collections.abc import Iterator
from dataclasses import dataclass
from functools import cached_property, lru_cache

from ..repository import Repository

# What begins or ends a block, and what begins a function.
ITEM = re.compile(
    r"^(?:(?P<block>(?:unsafe )?impl\b|(?:pub )?trait\b)(?P<title>[^{;]*)\{(?P<empty>\})?|(?P<end>\})"
    r"|(?P<indent>(?: {4})?)(?P<visible>pub(?:\(\w+\))? )?(?:(?:const|unsafe) )*fn (?P<name>\w+))",
    re.M,
)
# What a head has besides words: comments, texts, characters, brackets, the arrow, the words that begin a clause, and the end.
TOKEN = re.compile(
    r"//[^\n]*|\"(?:\\.|[^\"\\])*\"|'(?:\\.|[^'\\])'|->|[()\[\]{}<>;]|\b(?:requires|ensures)\b",
    re.S,
)
CLAUSE = re.compile(r"(requires|ensures)(?: (\w+))? \{")
CLOSING = {"(": ")", "[": "]", "{": "}"}
# A trait whose implementations aren't counted. Its only one in the crates leaves the relations of `Machine` as they are by default, and
# then they say nothing. That leaves one clause, `accepted` of `stimulus`, and no edit turns it.
UNCOUNTED = {"Machine"}


@dataclass(frozen=True)
class Clause:
    """A clause of a contract: `requires` or `ensures`, its name if it has one, what is in its braces, and the comment above."""

    kind: str
    name: str
    text: str
    comment: str


@dataclass(frozen=True)
class Function:
    """A function or method. `owner` is the type or trait whose block has it, and `via` the trait which that block implements."""

    path: str
    line: int
    name: str
    owner: str
    via: str
    in_trait: bool
    is_pub: bool
    comment: str
    head: str
    answer: str
    clauses: tuple[Clause, ...]

    @property
    def module(self) -> str:
        """The name of the file."""
        return self.path.rpartition("/")[2][:-3]

    @property
    def shown(self) -> str:
        """Its name, with that of its type or trait."""
        return f"{self.owner}::{self.name}" if self.owner else self.name

    def ensured(self) -> list[Clause]:
        """What it ensures."""
        return [clause for clause in self.clauses if clause.kind == "ensures"]

    def required(self) -> list[Clause]:
        """What it requires."""
        return [clause for clause in self.clauses if clause.kind == "requires"]


def comment_above(text: str, at: int) -> str:
    """The comment above a place of a file, in lines that begin with `///`."""
    said: list[str] = []
    for line in reversed(text[:at].split("\n")[:-1]):
        line = line.strip()
        if line.startswith("///"):
            said.append(line[3:].strip())
        elif not line.startswith("#["):
            break
    return re.sub(r"\[(`[^`]*`)\](?:\([^)]*\))?", r"\1", " ".join(reversed(said)))


@lru_cache(maxsize=None)
def imports(text: str) -> dict[str, tuple[str, str | None]]:
    """The names that a file imports: the module and the name there, None for the whole module, by the local name."""
    found: dict[str, tuple[str, str | None]] = {}
    for line in text.split("\n"):
        line = re.sub(r"^(?:ghost |pub )", "", line.strip()).rstrip(";")
        match = re.match(r"use (Rattle\.[\w.\-]+)\.\{(.*)\}$", line)
        if match:
            for name in match.group(2).split(","):
                there, _, here = name.strip().partition(" as ")
                found[here or there] = (match.group(1), there)
            continue
        match = re.match(r"use (Rattle\.[\w.\-]+) as (\w+)$", line)
        if match:
            found[match.group(2)] = (match.group(1), None)
    return found


def closed(text: str, at: int) -> int:
    """The place after the bracket that closes the one at this place."""
    open_ones: list[str] = []
    for token in TOKEN.finditer(text, at):
        one = token.group()
        if one in CLOSING:
            open_ones.append(CLOSING[one])
        elif open_ones and one == open_ones[-1]:
            open_ones.pop()
            if not open_ones:
                return token.end()
    return len(text)


def generic(text: str, at: int) -> int:
    """The place after the type parameters that begin at this place, if there are any."""
    depth = 0
    for token in TOKEN.finditer(text, at) if text[at : at + 1] == "<" else ():
        depth += {"<": 1, ">": -1}.get(token.group(), 0)
        if depth == 0:
            return token.end()
    return at


def outside(text: str, at: int) -> Iterator[re.Match[str]]:
    """What a head has from this place on, without what is in brackets. A clause begins with its word, its name and its brace."""
    while True:
        token = TOKEN.search(text, at)
        if token is None:
            return
        clause = CLAUSE.match(text, token.start())
        if token.group() in ("(", "["):
            at = closed(text, token.start())
        else:
            yield clause or token
            at = closed(text, clause.end() - 1) if clause else token.end()


def head(text: str, start: int) -> tuple[int, str, tuple[Clause, ...]]:
    """Where the head ends that begins after a function's name; the type of its answer, empty if it has none; and its clauses."""
    after = closed(text, generic(text, start))
    answer_end: int | None = None
    comment: list[str] = []
    clauses: list[Clause] = []
    for token in outside(text, after):
        one = token.group()
        if one in ("{", ";"):
            answer = text[after : token.start() if answer_end is None else answer_end].strip()
            return (
                token.start(),
                answer[2:].strip() if answer.startswith("->") else "",
                tuple(clauses),
            )
        if one.startswith("//"):
            comment.append(one[2:].strip())
        elif one.endswith("{"):
            inside = text[token.end() : closed(text, token.end() - 1) - 1]
            clauses.append(Clause(token.group(1), token.group(2) or "", inside, " ".join(comment)))
            comment = []
        else:
            continue
        answer_end = token.start() if answer_end is None else answer_end
    raise ValueError("a function without an end: " + text[start : start + 60])


def functions(path: str, text: str) -> Iterator[Function]:
    """All functions and methods of a file, and the methods that its traits declare."""
    owner, via, in_trait = "", "", False
    for item in ITEM.finditer(text):
        if item.group("end") or item.group("empty"):
            owner, via, in_trait = "", "", False
        elif item.group("block"):
            title = text[generic(text, item.end("block")) : item.end("title")]
            via, _, name = title.rpartition(" for ")
            via, owner = word(via), word(name) or word(via)
            in_trait = item.group("block").endswith("trait")
        elif bool(item.group("indent")) == bool(owner):
            end, answer, clauses = head(text, item.end())
            yield Function(
                path,
                text.count("\n", 0, item.start()) + 1,
                item.group("name"),
                owner,
                via,
                in_trait,
                item.group("visible") == "pub ",
                comment_above(text, item.start()),
                text[item.end() : end].rstrip(),
                answer,
                clauses,
            )


def word(text: str) -> str:
    """The word with which a type or trait begins; empty if it begins with none."""
    found = re.match(r" *(\w*)", text)
    return found.group(1) if found else ""


class Crate:
    """A crate: its files of code, and the functions in them."""

    def __init__(self, repository: Repository, name: str) -> None:
        self.repository = repository
        self.name = name
        self.root = f"crates/{name}/src/lib.rt"

    @cached_property
    def files(self) -> list[str]:
        """Its files of code."""
        return self.repository.names(f"crates/{self.name}/src/**/*.rt")

    @cached_property
    def functions(self) -> list[Function]:
        """All functions."""
        return [one for path in self.files for one in functions(path, self.repository.text(path))]

    @cached_property
    def given(self) -> set[str]:
        """The types, traits and functions that the root names for other crates."""
        uses = re.findall(r"^pub use ([^;]*);", self.repository.text(self.root), flags=re.M)
        return set(re.findall(r"\w+", re.sub(r"\w+::", " ", " ".join(uses))))

    @cached_property
    def open_modules(self) -> set[str]:
        """The modules that other crates see as a whole."""
        return set(re.findall(r"^pub mod (\w+);", self.repository.text(self.root), flags=re.M))

    def is_given(self, function: Function) -> bool:
        """Whether other crates can name a function, or the type or trait whose block has it."""
        named = (
            function.module in self.open_modules or (function.owner or function.name) in self.given
        )
        return named and function.module != "tests"

    def exported(self) -> Iterator[Function]:
        """The functions that other crates may call, and the methods that its traits declare."""
        for one in self.functions:
            if (one.is_pub or one.in_trait) and self.is_given(one):
                yield one


class Crates(dict[str, Crate]):
    """The crates of a repository that other crates can call, by name."""

    def __init__(self, repository: Repository) -> None:
        names = [name.split("/")[1] for name in repository.names("crates/*/src/lib.rt")]
        super().__init__((name, Crate(repository, name)) for name in names)

    @cached_property
    def declared(self) -> dict[tuple[str, str], Function]:
        """The methods that traits declare, by the names of the trait and of the method."""
        return {
            (one.owner, one.name): one
            for crate in self.values()
            for one in crate.functions
            if one.in_trait
        }

    def clauses(self, name: str) -> Iterator[tuple[str, str, bool]]:
        """Each clause that an exported function of a crate ensures: the function, the clause's name, which is `ensures` if it has none,
        and whether it is a law. Each `impl` of a trait has the clauses that the trait declares. A law's function does nothing.
        """
        for one in self[name].functions:
            if one.in_trait or one.via in UNCOUNTED or not (one.is_pub or one.via):
                continue
            contract = self.declared.get((one.via, one.name)) if one.via else one
            for clause in contract.ensured() if contract and self[name].is_given(one) else ():
                yield one.shown, clause.name or "ensures", one.module == "laws"
