"""lint-python : checks how Python files are laid out, by black 23, and their style, by flake8. Prints one line for each fault.

The settings are in pyproject.toml and .flake8. It needs git. If black 23 or flake8 isn't installed, a line on standard error
says what wasn't checked.
Status: 0 there is no fault in what was checked, 1 there is one, or a part ended with a status that no line explains.
"""

import re
import subprocess
import sys
from concurrent.futures import ThreadPoolExecutor

from ..repository import Repository
from .writing import printed

FOLDERS = ("python/", "examples/", "tools/", "bench/")
BLACK = ["black", "--config", "pyproject.toml", "--check"]
UNFORMATTED = re.compile(r"would reformat (.*)")
BROKEN = re.compile(r"error: cannot format (.*)")
LAID_OUT = "{0}: not as black lays it out (run black --config pyproject.toml {0})"


def files(repository: Repository) -> list[str]:
    """Modules, and scripts whose first line names Python."""
    found = []
    for name in repository.listed():
        if name.startswith(FOLDERS):
            with open(repository.path(name), "rb") as file:
                if name.endswith(".py") or re.match(rb"#!.*python", file.readline()):
                    found.append(name)
    return found


def version(tool: str) -> str:
    """What a tool says of its version; empty if it isn't installed."""
    try:
        done = subprocess.run([tool, "--version"], capture_output=True, text=True)
    except OSError:
        return ""
    return done.stdout


def ran(repository: Repository, command: list[str], names: list[str]) -> tuple[int, list[str]]:
    """The status of a tool, and what it prints about these files."""
    done = subprocess.run(
        [*command, *names],
        cwd=repository.top,
        stdout=subprocess.PIPE,
        stderr=subprocess.STDOUT,
        text=True,
    )
    return done.returncode, done.stdout.splitlines()


def explained(tool: str, status: int, lines: list[str]) -> list[str]:
    """The lines of a tool in their order; its status if there are none."""
    if status and not lines:
        return [f"lint-python: {tool} ended with status {status}"]
    return sorted(lines)


def laid_out(repository: Repository, names: list[str]) -> list[str]:
    """The files that black would change, or can't read."""
    status, printed_lines = ran(repository, BLACK, names)
    lines = []
    for line in printed_lines:
        if unformatted := UNFORMATTED.match(line):
            lines.append(LAID_OUT.format(unformatted[1]))
        elif broken := BROKEN.match(line):
            lines.append(broken[1])
    return explained("black", status, lines)


def styled(repository: Repository, names: list[str]) -> list[str]:
    """What flake8 finds."""
    return explained("flake8", *ran(repository, ["flake8"], names))


def unchecked(black: bool, flake8: bool) -> str:
    """What isn't checked without tools that aren't installed; empty if both are."""
    if black and flake8:
        return ""
    if black:
        return "the style of Python files isn't checked, since flake8 isn't installed"
    if flake8:
        return "the layout of Python files isn't checked, since black 23 isn't installed"
    return "Python files aren't checked, since black 23 and flake8 aren't installed"


def main(words: list[str]) -> int:
    repository = Repository(*words[:1])
    black, flake8 = version("black").startswith("black, 23."), bool(version("flake8"))
    told = unchecked(black, flake8)
    if told:
        print(f"lint-python: {told}", file=sys.stderr)
    names = files(repository)
    with ThreadPoolExecutor() as pool:
        parts = [
            pool.submit(part, repository, names)
            for part, is_there in ((laid_out, black), (styled, flake8))
            if is_there
        ]
    return printed([line for part in parts for line in part.result()])
