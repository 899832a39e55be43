"""lint-documents [TOP] : checks the documents, and prints one line for each fault; without one, it
prints nothing, and its status is 0. TOP is a repository; without it, the tool's own.

- Each relative link of a *.md leads to a file that exists, and to a heading in it if it names one.
- No line of prose of a *.md passes 130 columns. Tables, headings and fenced blocks aren't prose.
"""
import os
import re
from collections.abc import Iterator, Sequence

from ..repository import Repository
from .writing import printed

COLUMNS = 130
LINK = re.compile(r"!?\[[^\]]*\]\(([^()\s]*(?:\([^()\s]*\)[^()\s]*)*)\)")
CODE = re.compile(r"`[^`]*`")


def outside_fences(lines: Sequence[str]) -> Iterator[tuple[int, str]]:
    """The lines outside fenced blocks, with their numbers."""
    fenced = False
    for number, line in enumerate(lines, 1):
        if line.startswith("```"):
            fenced = not fenced
        elif not fenced:
            yield number, line


def anchors(lines: Sequence[str]) -> set[str]:
    """The anchors of a document's headings, which are made from their texts."""
    found: dict[str, int] = {}
    for _, line in outside_fences(lines):
        heading = re.match(r"#{1,6} +(.*)", line)
        if heading:
            text = re.sub(r"\[([^\]]*)\]\([^)]*\)", r"\1", heading.group(1)).strip().lower()
            anchor = re.sub(r"[^\w\- ]", "", text).replace(" ", "-")
            found[anchor] = found.get(anchor, -1) + 1
    return {
        name if not count else f"{name}-{count}"
        for name, most in found.items()
        for count in range(most + 1)
    }


def links(repository: Repository, name: str, lines: Sequence[str]) -> Iterator[str]:
    """Links of a document that lead nowhere."""
    shown = dict(outside_fences(lines))
    text = "\n".join(shown.get(number, "") for number in range(1, len(lines) + 1))
    text = CODE.sub(lambda code: "\n" * code.group().count("\n"), text)
    for link in LINK.finditer(text):
        target = link.group(1)
        if re.match(r"[a-z]+:", target):
            continue
        number = text.count("\n", 0, link.end()) + 1
        where = f"{name}:{number}"
        path, _, anchor = target.partition("#")
        whole = os.path.normpath(os.path.join(os.path.dirname(name), path)) if path else name
        if not repository.has(whole):
            yield f"{where}: the link leads nowhere: {target}"
        elif anchor and (
            not whole.endswith(".md") or anchor not in anchors(repository.text(whole).splitlines())
        ):
            yield f"{where}: the link's heading isn't there: {target}"


def columns(name: str, lines: Sequence[str]) -> Iterator[str]:
    """Lines of prose that are too long."""
    for number, line in outside_fences(lines):
        if len(line) > COLUMNS and not line.startswith(("|", "#")):
            yield f"{name}:{number}: prose above {COLUMNS} columns"


def faults(repository: Repository) -> list[str]:
    """What is wrong in the documents, in their order."""
    told: list[str] = []
    for name in repository.listed():
        if name.endswith(".md"):
            lines = repository.text(name).splitlines()
            told += links(repository, name, lines)
            told += columns(name, lines)
    return sorted(told)


def main(words: list[str]) -> int:
    return printed(faults(Repository(*words[:1])))
