"""lint-errors [TOP] : prints each exported function that returns a Result, and has no section '# Errors' in its comment.

The methods of an open trait count as exported functions, but not those of its implementations. The section says when which
error is returned. TOP is a repository; without it, the tool's own.
Status: 0 each function has the section, 1 one doesn't.
"""
import re
from collections.abc import Iterator

from ..repository import Repository
from .book import shown
from .specification import libraries
from .writing import printed


def faults(repository: Repository) -> Iterator[str]:
    """A line for each function without the section."""
    for crate in libraries(repository).values():
        for one in crate.exported():
            if re.match(r"(?:\w+::)*Result<", one.answer) and "# Errors" not in one.comment:
                yield (
                    f"{one.path}:{one.line}: {shown(crate, one)} answers a Result, "
                    "and its comment has no '# Errors'"
                )


def main(words: list[str]) -> int:
    return printed(list(faults(Repository(*words[:1]))))
