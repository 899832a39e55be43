"""lint : checks the rules that a proof doesn't see, and prints one line for each fault.
It reads only the sources, the edits and the documents, and needs Python 3, git and the kit.
Status: 0 there is no fault, 1 there is one, or a part of these ended with a status that its lines don't explain;
another if `rt` isn't there or fails.

- the layout of `rt fmt`;
- lines of at most 100 columns in .rt and 140 in .antt. A `use` line is left out: `rt fmt` keeps it on one line;
- files of at most 500 lines, and definitions (specs/) of at most 15, except some tables, which sizes.py names;
- edits: each clause of each exported function, except laws, has a must-fail edit that names it, on its line
  'turns: FUNCTION CLAUSE..'; each edit has such a line, about a clause that exists, and its file's name begins with
  the function's. Wrong bodies that are known by their name need neither: they may be refused in a private function;
  the text that an edit replaces occurs once in its file. edits.py has the exceptions;
- comments: each exported function that returns a Result says when which error comes, by tools/lint-errors;
- the row of headers in test_rows: that it is that of tools/header-rows;
- the text of rows, which tools/rows has to read, and the length of its files;
- the documents: how many clauses and mutants they say there are, the length of README.md; their map, links and columns,
  by tools/lint-documents;
- the pages that tools/book writes from the sources, and the pictures that tools/pictures draws;
- numbers of VXI-11, RPC and XDR that are written out in a Python, shell or awk file, by tools/lint-numbers;
- the layout and style of Python files, by tools/lint-python, if black and flake8 are installed;
- the tests of the tools, tools/tests.

The parts run side by side. Their lines are printed in the order above.
"""
import os
import shutil
import signal
import subprocess
import sys
import traceback
from collections.abc import Callable, Iterable
from concurrent.futures import ThreadPoolExecutor
from functools import partial

from ..repository import Repository
from . import edits, sizes
from .writing import printed

Part = tuple[str, Callable[[], Iterable[str]]]
# The tools that check a part by themselves.
TOOLS = (
    ("lint-errors",),
    ("header-rows", "--check"),
    ("rows", "--check"),
    ("lint-documents",),
    ("lint-numbers",),
    ("lint-python",),
    ("book", "--check"),
    ("pictures", "--check"),
)
DONE = "lint: %s ended with status %d"


class Ended(Exception):
    """A part ended with a status that its lines don't explain."""

    def __init__(self, status: int, lines: list[str]) -> None:
        super().__init__(status)
        self.status = 128 - status if status < 0 else status  # as a shell says it of a signal
        self.lines = lines


# What tools read of the environment: they run with the Python of this one, and not with one that has to be looked for.
AROUND = {
    "LC_ALL": "C.UTF-8",
    "PATH": os.path.dirname(sys.executable) + os.pathsep + os.environ.get("PATH", ""),
}


class Children(list[subprocess.Popen[str]]):
    """The processes of parts. They end with the tool."""

    def start(self, command: list[str], folder: str) -> subprocess.Popen[str]:
        """Starts a command in this folder."""
        child = subprocess.Popen(
            command,
            cwd=folder,
            stdin=subprocess.DEVNULL,
            stdout=subprocess.PIPE,
            stderr=subprocess.PIPE,
            encoding="utf-8",
            errors="replace",
            env={**os.environ, **AROUND},
        )
        self.append(child)
        return child

    def end(self) -> None:
        """Ends those that still run."""
        for child in self:
            if child.poll() is None:
                child.terminate()


class Lint:
    """The parts, over a repository, with the kit's program `rattle`."""

    def __init__(self, repository: Repository, rattle: str) -> None:
        self.repository = repository
        self.rattle = rattle
        self.children = Children()
        self.names = sizes.sources(repository)
        self.clauses = edits.Clauses([], 0)
        self.unread: list[str] = told(("tools/clauses", self.read_clauses))

    def parts(self) -> list[Part]:
        """The parts, in the order in which their lines are printed."""
        there = self.repository
        tools: list[Part] = [("tools/" + words[0], partial(self.tool, *words)) for words in TOOLS]
        return [
            ("layout", self.layout),
            ("columns", lambda: sizes.columns(there, self.names, ".rt")),
            ("columns", lambda: sizes.columns(there, self.names, ".antt")),
            ("lengths", lambda: sizes.lengths(there, self.names)),
            ("tools/clauses", lambda: self.unread),
            ("edits", lambda: edits.faults(there, self.clauses)),
            ("counts", lambda: edits.miscounted(there, self.clauses)),
            *tools,
            ("tools/tests", self.tests),
        ]

    def faults(self) -> list[str]:
        """The lines of all parts."""
        try:
            with ThreadPoolExecutor(len(self.parts())) as pool:
                return [line for lines in pool.map(told, self.parts()) for line in lines]
        finally:
            self.children.end()

    def read_clauses(self) -> list[str]:
        """Reads the clauses, which two parts need."""
        self.clauses = edits.clauses(self.repository)
        return []

    def layout(self) -> list[str]:
        """The files that `rt fmt` would change. It prints each to standard error."""
        child = self.children.start(
            [self.rattle, "fmt", "--check", *self.names], self.repository.path("crates")
        )
        unformatted = child.communicate()[1].splitlines()
        if child.returncode and not unformatted:
            raise Ended(1, [])
        return [f"{line} (run rt fmt)" for line in unformatted]

    def tool(self, *words: str) -> list[str]:
        """The lines of a tool, whose status is 1 if it prints some."""
        child = self.children.start(
            [self.repository.path("tools/" + words[0]), *words[1:]], self.repository.path("crates")
        )
        lines, said = child.communicate()
        sys.stderr.write(said)  # also what isn't checked, if the status is 0
        if child.returncode not in (0, 1) or child.returncode and not lines:
            raise Ended(child.returncode, lines.splitlines())
        return lines.splitlines()

    def tests(self) -> list[str]:
        """Runs the tests in as many groups as there are processors, side by side."""
        folder = self.repository.path("tools/tests")
        names = [
            os.path.basename(name)[: -len(".py")]
            for name in self.repository.names("tools/tests/test_*.py")
        ]
        count = min(os.cpu_count() or 1, len(names))
        command = [sys.executable, "-B", "-m", "unittest", "-q"]
        running = [
            self.children.start([*command, *names[at::count]], folder) for at in range(count)
        ]
        ended = [(child, child.communicate()[1]) for child in running]
        failed = [said for child, said in ended if child.returncode]
        sys.stderr.write("".join(failed))
        if failed:
            raise Ended(1, [])
        return []


def told(part: Part) -> list[str]:
    """The lines of a part, and one more if its status isn't explained by them."""
    name, work = part
    try:
        return list(work())
    except Ended as fault:
        return fault.lines + [DONE % (name, fault.status)]
    except Exception:
        traceback.print_exc()
        return [DONE % (name, 1)]


def main(words: list[str]) -> int:
    for number in (signal.SIGTERM, signal.SIGHUP):
        signal.signal(number, lambda *_: sys.exit(2))
    if shutil.which("rt") is None:
        print("lint: `rt` of the kit isn't there", file=sys.stderr)
        return 127
    guide = subprocess.run(["rt", "doc"], stdout=subprocess.PIPE, text=True)
    if guide.returncode:
        print(f"lint: `rt doc` ended with status {guide.returncode}", file=sys.stderr)
        return guide.returncode
    rattle = os.path.join(os.path.dirname(guide.stdout.strip()), "bin", "rattle")
    try:
        return printed(Lint(Repository(), rattle).faults())
    except KeyboardInterrupt:
        return 2
