"""book [--check] [TOP] : writes what the sources say about themselves into docs/CLAIMS.md, RULES.md and CRATES.md.

- CLAIMS: for each crate, from the server down, its exported functions with a contract. For each function: its comment, its
  clauses with their comments, and the definitions that these name. Then two lists: the exported functions that require
  something, each with its condition; and those that can be refused memory.
- RULES: each file of definitions with its first sentence and the code whose contracts name it, and each definition in it with
  the line of prose over it. Files in Inside/ are left out. `p` marks what the promises of the server rest on; `l` what the
  laws rest on besides; `c` what the other claims of the README rest on.
- CRATES: each crate, lowest first, with its first sentence, the crates that it depends on, and how many clauses (tools/clauses),
  mutants, and rows or tests it has. Then each file of proofs that another crate cites, with its first sentence and who cites it.

It also writes the table of figures in docs/EVIDENCE.md, from bench/results: for each bench, the newest run of one commit.

To change a rule, change its definition; to change a claim, change its function; then run this. With --check it writes nothing,
but prints each page and table that isn't what it would write, each line of a block of docs/THEOREMS.md that no source has, each
count in docs/EVIDENCE.md and docs/THEOREMS.md that isn't the counted one, and each line of bench/results that is no value of a
measure in bench/measures.csv. TOP is a repository; without it, the tool's own.
Status: 0, or 1 if it prints something.
"""
import collections
import os
import re
from collections.abc import Callable, Iterable, Iterator, Sequence

import measures

from ..repository import Repository
from .rattle import Crate, Crates, Function, imports
from .specification import Definitions, Sets, believed, crates, head, of_driver, sentence, told
from .writing import printed, settled

# What clauses with these names say, wherever they occur.
CLAUSES = """A clause over a log holds for every log that the value stood for before the call. `stands`: afterwards the value stands for
that log with the call's act in front. `answer`: the function returns what the search of the log gives. `value`, `exact`: it
returns this function of the value's fields, or of the bytes. `found`, `only`: something is read exactly if the bytes encode it.
`measure` bounds the steps that remain, so that repeated steps terminate. [Conditions](#conditions) has what functions require,
[Out of memory](#out-of-memory) which functions can be refused memory."""
WRITTEN = "<!-- Written by tools/book from the sources; change those and run it. -->"
EVIDENCE, RESULTS = "docs/EVIDENCE.md", "bench/results"
# What stands before and after the table of figures.
FIGURES = (
    "<!-- Written by tools/book from bench/results; run it. -->\n",
    "<!-- The end of what it writes. -->\n",
)
# The variants of an error type that say that memory was refused.
MEMORY = re.compile(r"\b(?:AllocError|NoMemory|Memory)\b")


Page = Callable[["Sources"], Iterator[str]]


class Sources:
    """What the pages are written from."""

    def __init__(self, repository: Repository) -> None:
        self.repository = repository
        self.definitions = Definitions(repository)
        self.sets: Sets = believed(repository, self.definitions)
        self.order = crates(repository)
        self.crates = Crates(repository)
        self.libraries = {name: self.crates[name] for name in self.order if name in self.crates}


def cell(text: str) -> str:
    return text.replace("|", "\\|")


def link(path: str, text: str) -> str:
    return f"[{text}](../crates/{path})"


def exported(crate: Crate) -> list[Function]:
    """The functions that other crates may call; of each file, the methods that traits declare come last."""
    return sorted(crate.exported(), key=lambda one: (one.path, one.in_trait))


def shown(crate: Crate, one: Function) -> str:
    """The name of a function, with that of its module if other crates see the module as a whole."""
    return (
        one.module + "::" + one.name
        if one.module in crate.open_modules and not one.owner
        else one.shown
    )


def functions(
    repository: Repository, crate: Crate
) -> Iterator[tuple[str, str, list[tuple[str, str]], Function]]:
    """The exported functions of a crate that ensure something: their names, what is said of them, and their clauses with comments."""
    for one in exported(crate):
        if one.ensured():
            said, _, errors = one.comment.partition("# Errors")
            kept = implementers(repository, one.owner) if one.in_trait else []
            said = " ".join(said.split()).rstrip(".") + ("; by " + ", ".join(kept) if kept else "")
            # That memory may be refused is said once for all functions together.
            errors = " ".join(errors.split()).replace("Where memory is refused.", "")
            clauses = [(clause.name, clause.comment.rstrip(".")) for clause in one.ensured()]
            yield shown(crate, one), said + (
                ". Errors: " + errors.rstrip(".") if errors else ""
            ), clauses, one


def implementers(repository: Repository, trait: str) -> list[str]:
    """The types of the crates that implement a trait."""
    found: set[str] = set()
    for path in repository.names("crates/sv_*/src/**/*.rt"):
        found |= set(
            re.findall(rf"^impl.* {trait} for (\w\w+)[ <]", repository.text(path), flags=re.M)
        )
    return sorted(f"`{one}`" for one in found)


def memory_faults(repository: Repository) -> set[str]:
    """The types of errors that can say that memory was refused."""
    texts = {}
    for path in repository.names("crates/*/src/**/*.rt"):
        for name, body in re.findall(
            r"^pub enum (\w+) \{(.*?)\n\}", repository.text(path), flags=re.M | re.S
        ):
            texts[name] = re.sub(r" *//.*", "", body)
    faults = {name for name, body in texts.items() if MEMORY.search(body)}
    return faults | {
        name
        for name, body in texts.items()
        if any(re.search(rf"\(.*\b{fault}\b", body) for fault in faults)
    }


def may_lack(one: Function, faults: Iterable[str]) -> bool:
    """Whether the error of a function can say that memory was refused."""
    given = re.match(r"(?:io::)?Result<(.*)", one.answer)
    errors = given.group(1) if given else ""
    system = one.answer.startswith("io::Result") and "alloc: " in one.head
    return (
        system
        or MEMORY.search(errors) is not None
        or any(re.search(rf"\b{fault}\b", errors) for fault in faults)
    )


def quoted(names: Iterable[str]) -> str:
    """Names in back quotes, with commas between them."""
    return ", ".join(f"`{name}`" for name in names)


def named(sources: Sources, one: Function) -> str:
    """The definitions that a contract names, by their files."""
    by_file = collections.defaultdict(list)
    brought = imports(sources.repository.text(one.path))
    for cited in sorted(set(sources.definitions.cited("", one.head, brought))):
        by_file[sources.definitions.file[cited]].append(cited[1])
    return "; ".join(
        f"{link(path, os.path.basename(path)[:-5])}: {quoted(names)}"
        for path, names in sorted(by_file.items())
        if "/Inside/" not in path
    )


def claims(sources: Sources) -> Iterator[str]:
    yield "# What each contract claims\n"
    yield CLAUSES
    for name, crate in reversed(list(sources.libraries.items())):
        found = list(functions(sources.repository, crate))
        if found:
            yield f"\n## {name}\n\n| Function | What it answers | Clauses | Definitions |"
            yield "|---|---|---|---|"
        for function, said, clauses, one in found:
            listed = ", ".join(
                f"`{clause}`" + (f" ({cell(of_it)})" if of_it else "")
                for clause, of_it in clauses
                if clause
            )
            yield f"| `{function}` | {cell(said)} | {listed} | {named(sources, one)} |"
    yield from wants(sources)


def wants(sources: Sources) -> Iterator[str]:
    """The exported functions that require something, and those that can be refused memory."""
    faults = memory_faults(sources.repository)
    required, lacking = [], []
    for name, crate in sources.libraries.items():
        required += [
            f"| `{name}` | `{shown(crate, one)}` | `{cell(' '.join(clause.text.split()))}` |"
            for one in exported(crate)
            for clause in one.required()
        ]
        lack = {shown(crate, one) for one in exported(crate) if may_lack(one, faults)}
        if lack:
            lacking.append(f"| `{name}` | {quoted(sorted(lack))} |")
    yield "\n## Conditions\n\nAll that exported functions require.\n"
    yield "| Crate | Function | It requires |\n|---|---|---|"
    yield from required
    yield "\n## Out of memory\n\nThe exported functions whose error can say that memory was refused.\n"
    yield "| Crate | Functions |\n|---|---|"
    yield from lacking


def code_of(sources: Sources) -> dict[str, list[str]]:
    """For each file of definitions, the files of code whose contracts name one of its definitions."""
    found = collections.defaultdict(list)
    for crate in sources.order:
        for path in sources.repository.names(f"crates/{crate}/src/**/*.rt"):
            brought = imports(sources.repository.text(path))
            for module in sorted({module for module, _ in brought.values() if ".specs." in module}):
                found[module].append(path[len("crates/") :])
    return found


def rules(sources: Sources) -> Iterator[str]:
    yield "# Each rule, at its definition"
    promises, besides, others = sources.sets
    code = code_of(sources)
    definitions = sources.definitions
    files = collections.defaultdict(list)
    for one in definitions.lines:
        files[definitions.file[one]].append(one)
    for crate in sources.order:
        paths = [
            path for path in sorted(files) if path.startswith(crate + "/") and "/Inside" not in path
        ]
        for path in paths:
            module = files[path][0][0]
            own = [name for name in code[module] if name.startswith(crate + "/")] or code[module]
            yield f"\n## {crate} {path[len(crate) + 7 : -5]}\n"
            said = sentence(head(sources.repository.text("crates/" + path), "--"))
            yield f"| [Definition](../crates/{path}) | {cell(said)} | |\n|---|---|---|"
            if own:
                found = (link(name, name[name.index("/src/") + 5 :]) for name in own[:6])
                yield f"| code | {', '.join(found)} | |"
            for one in files[path]:
                mark = (
                    "p"
                    if one in promises
                    else "l"
                    if one in besides
                    else "c"
                    if one in others
                    else ""
                )
                yield f"| `{one[1]}` | {cell(definitions.rule[one])} | {mark} |"


def lemmas(repository: Repository) -> dict[str, set[str]]:
    """Each file of proofs that another crate cites, with the crates that cite it."""
    found = collections.defaultdict(set)
    folders = repository.names("crates/*/*/")
    for path in repository.names(
        *[folder + "**/*.antt" for folder in folders if not folder.endswith("/out/")]
    ):
        crate = path.split("/")[1]
        for other, rest in re.findall(
            r"^(?:pub )?use Rattle\.(\w+)\.proofs\.([\w.\-]+?)(?:\.\{| as )",
            repository.text(path),
            flags=re.M,
        ):
            there = f"{other}/proofs/{rest.replace('.', '/')}.antt"
            if other != crate and repository.has("crates/" + there):
                found[there].add(crate)
    return found


def counts(repository: Repository, known: Crates, crate: str) -> tuple[int, int, int, int]:
    """How many clauses of exported functions a crate has, how many more of laws, how many mutants, and how many rows or tests."""
    found: list[tuple[str, str, bool]] = []
    # A program, and a crate that only tests use, have no mutants.
    if crate in known and crate != "failing_alloc":
        found = list(known.clauses(crate))
    laws = sum(is_law for _, _, is_law in found)
    rows = lines_like(repository, f"crates/{crate}/rows/*.rows", r"title |singly$")
    if not rows:
        rows = lines_like(repository, f"crates/{crate}/src/**/*.rt", r" *#\[test\]")
    return (
        len(found) - laws,
        laws,
        len(repository.names(f"crates/{crate}/must-fail/*.edit")),
        rows,
    )


def lines_like(repository: Repository, pattern: str, wanted: str) -> int:
    """How many lines of these files begin with this pattern."""
    return sum(
        re.match(wanted, line) is not None
        for path in repository.names(pattern)
        for line in repository.text(path).split("\n")
    )


def crate_page(sources: Sources) -> Iterator[str]:
    yield (
        "# The crates\n\nA clause is one statement in the contract of an exported function, or in a law (a proved statement). "
        "A mutant can violate\nseveral clauses. An act is one thing that an event did. All acts together are the log; a part of "
        "the server, such as\nthe scanner, has a log of its own: the acts that concern it. The device is what all connections "
        "share. The wire is\nwhat carries bytes. Turn and Refuse are events that take a connection's next call: Turn executes the "
        "call,\nRefuse answers the call with an error. [ARCHITECTURE](ARCHITECTURE.md#words) explains more words.\n"
    )
    yield "| Crate | What it is | Uses directly | Clauses of functions | Clauses of laws | Mutants | Test cases |"
    yield "|---|---|---|---|---|---|---|"
    order = list(sources.order)
    repository = sources.repository
    sums: Sequence[int] = (0, 0, 0, 0)
    for name, below in sources.order.items():
        found = counts(repository, sources.crates, name)
        sums = [one + more for one, more in zip(sums, found)]
        cells = (
            f"[{name}](../crates/{name}/README.md)",
            cell(told(repository, name)),
            ", ".join(below),
            *(f"{count:,}" if count else "" for count in found),
        )
        yield f"| {' | '.join(cells)} |"
    yield f"| all | | | {' | '.join(f'{count:,}' for count in sums)} |"
    yield "\n## Lemmas that other crates cite\n\n| Crate | File of lemmas | What they say | Cited by |\n|---|---|---|---|"
    cited = lemmas(repository)
    for path in sorted(cited, key=lambda path: (order.index(path.split("/")[0]), path)):
        crate = path.split("/")[0]
        said = sentence(head(repository.text("crates/" + path), "--"))
        file = link(path, path[len(crate) + 8 : -5])
        by = ", ".join(sorted(cited[path], key=order.index))
        yield f"| {crate} | {file} | {cell(said)} | {by} |"


def squeezed(text: str) -> str:
    return re.sub(r"\s+", " ", text.strip())


def fenced(text: str) -> Iterator[tuple[int, str]]:
    """The lines of the fenced blocks of a document, with their numbers."""
    inside = False
    for number, line in enumerate(text.splitlines(), 1):
        if line.startswith("```"):
            inside = not inside
        elif inside and line.strip():
            yield number, line


def unsaid(repository: Repository) -> Iterator[str]:
    """Lines of the fenced blocks of docs/THEOREMS.md that no source has."""
    names = repository.names("crates/*/specs/**/*.antt", "crates/*/src/**/*.rt")
    said = "\n".join(squeezed(repository.text(path)) for path in names)
    for number, line in fenced(repository.text("docs/THEOREMS.md")):
        if squeezed(line) not in said:
            yield f"docs/THEOREMS.md:{number}: no source says this"


def miscounted(repository: Repository, known: Crates, there: int) -> Iterator[str]:
    """Counts in docs/EVIDENCE.md and docs/THEOREMS.md that aren't the counted ones. The laws rest on `there` lines of the driver's
    definitions.
    """
    for number, line in enumerate(repository.text(EVIDENCE).splitlines(), 1):
        found = re.match(r"\| `crates/(\w+)` \|.*\| ([\d,]+) (rows|lines|tests) \|$", line)
        if found:
            crate, told, what = found.groups()
            counted = f"{counts(repository, known, crate)[3]:,}"
            if counted != told:
                yield f"{EVIDENCE}:{number}: {crate} has {counted} {what}"
    if not re.search(
        rf"Of the driver's definitions only [^.:]*\b{there}\slines",
        repository.text("docs/THEOREMS.md"),
    ):
        yield f"docs/THEOREMS.md: the laws rest on {there} lines of the driver's definitions"


def with_figures(repository: Repository) -> str | None:
    """The text of docs/EVIDENCE.md with the table of figures; None if it has no place for it."""
    before, mark, rest = repository.text(EVIDENCE).partition(FIGURES[0])
    _, end, after = rest.partition(FIGURES[1])
    if not mark or not end:
        return None
    lines = measures.figures(repository.path(RESULTS))
    return before + mark + "\n".join(["", *lines, "", ""]) + end + after


def figures(repository: Repository, check: bool) -> list[str]:
    """Writes the table of figures, or compares it. Returns what is wrong."""
    text = with_figures(repository)
    if text is None:
        return [f"{EVIDENCE}: there is no place for the figures"]
    return settled(repository, EVIDENCE, text, check, "tools/book writes")


PAGES: dict[str, Page] = {
    "docs/CLAIMS.md": claims,
    "docs/RULES.md": rules,
    "docs/CRATES.md": crate_page,
}


def main(words: list[str]) -> int:
    check = words[:1] == ["--check"]
    repository = Repository(*words[check:][:1])
    sources = Sources(repository)
    results = measures.faults(repository.path(RESULTS))
    faults = [line[len(repository.top) + 1 :] for line in results]
    shows_figures = not faults
    if check:
        there = sum(len(sources.definitions.lines[one]) for one in of_driver(sources.sets[1]))
        faults += [*unsaid(repository), *miscounted(repository, sources.crates, there)]
    for name, page in PAGES.items():
        text = "\n".join([WRITTEN, *page(sources)]) + "\n"
        faults += settled(repository, name, text, check, "tools/book writes")
    if shows_figures:
        faults += figures(repository, check)
    return printed(faults)
