"""header-rows [--check] : writes a row of crates/test_rows about headers, from the table tools/headers.table.

It writes the file PATH. With --check it only checks that the file is there. The answers come from the table alone: a header is
compared with one pattern after the other, and within a pattern with all ways in which its nodes can take the words. So this is
also the simple program with which the tree of sv_header is compared.
"""
import functools
import itertools
import os
import re
import sys
from collections.abc import Iterable, Iterator, Sequence

from ..repository import TOP

TABLE = TOP + "/tools/headers.table"
PATH = TOP + "/crates/test_rows/rows/51-headers-by-the-table.rows"
Node = tuple[str, str, bool]  # its short form, its long form, and whether it may be absent
Header = tuple[
    bool, list[Node], bool, str
]  # whether a `*` leads it, its nodes, whether it is a query, and its command


def pattern(text: str) -> tuple[bool, list[Node], bool]:
    """A pattern: whether a `*` leads it; each node as its short form, its long form and whether it may be absent; the sign."""
    sign = text.endswith("?")
    nodes = [
        (re.sub("[a-z]", "", word), word.upper(), bool(may))
        for may, word in re.findall(r"(\[)?:?([A-Za-z]+)", text)
    ]
    return text.startswith("*"), nodes, sign


@functools.lru_cache(maxsize=None)
def table() -> tuple[Header, ...]:
    """The headers, in the order of the table."""
    with open(TABLE, encoding="ascii") as file:
        rows = [line.split() for line in file if not line.startswith("#")]
    return tuple((*pattern(text), command) for text, command in rows)


def fits(words: Sequence[str], nodes: Sequence[Node]) -> bool:
    """Whether these words are forms of the nodes, some of which may be absent."""
    if not nodes:
        return not words
    short, long, may = nodes[0]
    there = bool(words) and words[0].upper() in (short, long) and fits(words[1:], nodes[1:])
    return there or may and fits(words, nodes[1:])


def answers(message: str) -> list[str]:
    """The commands that the headers of a message name. Each header follows the path that those before it left."""
    path: list[str] = []
    found: list[str] = []
    for header in message.split(";"):
        common, root, sign = header[:1] == "*", header[:1] == ":", header[-1:] == "?"
        own = header.strip("*:?").split(":")
        words = own if common or root else path + own
        names = [
            row[3] for row in table() if row[0] == common and row[2] == sign and fits(words, row[1])
        ]
        found.append(names[0] if names else "UndefinedHeader")
        if names and not common:
            path = words[:-1]
    return found


def spelled(common: bool, words: Iterable[str], sign: bool) -> str:
    return "*" * common + ":".join(words) + "?" * sign


def mixtures(nodes: Sequence[Node]) -> Iterator[tuple[str, ...]]:
    """Each way to write the nodes: in either form, and left out if they may be."""
    return itertools.product(
        *[dict.fromkeys([short, long] + [""] * may) for short, long, may in nodes]
    )


def near(word: str) -> list[str]:
    """The word with one letter less, and with one letter more."""
    less = [word[:k] + word[k + 1 :] for k in range(len(word))]
    more = [word[:k] + word[k] + word[k:] for k in range(len(word))]
    return [other for other in dict.fromkeys(less + more) if other]


def mixed(word: str) -> str:
    return "".join(letter.lower() if k % 2 else letter for k, letter in enumerate(word))


def in_every_form() -> Iterator[str]:
    """Each command in every mixture of forms and of nodes that may be absent, then after the path, then from the root."""
    for common, nodes, sign, _ in table():
        for mixture in mixtures(nodes):
            words = [word for word in mixture if word]
            header = spelled(common, words, sign)
            yield header if common else f"{header};{spelled(common, words[-1:], sign)};:{header}"


def with_the_other_sign() -> Iterator[str]:
    """Headers without their query sign, or with one, where the table has no such command."""
    signs = {(common, str(nodes), sign) for common, nodes, sign, _ in table()}
    for common, nodes, sign, _ in table():
        if (common, str(nodes), not sign) not in signs:
            for mixture in mixtures(nodes):
                yield spelled(common, [word for word in mixture if word], not sign)


def nearly_right() -> Iterator[str]:
    """Headers with a letter less or more in one mnemonic: no command, unless that is another form."""
    for common, nodes, sign, _ in table():
        for k, node in enumerate(nodes):
            words = [short for short, _, _ in nodes]
            others = dict.fromkeys(
                other for form in dict.fromkeys(node[:2]) for other in near(form)
            )
            headers = [
                spelled(common, words[:k] + [other] + words[k + 1 :], sign) for other in others
            ]
            yield ";".join(header if common else ":" + header for header in headers)


def in_any_case() -> Iterator[str]:
    """Headers in upper, lower and mixed case; a common command leaves the path."""
    for common, nodes, sign, _ in table():
        long = [form for _, form, _ in nodes]
        header = spelled(common, long, sign)
        last = "" if common else f";*cls;{spelled(False, long[-1:], sign).lower()}"
        yield f"{spelled(common, map(mixed, long), sign)};{'' if common else ':'}{header.lower()}{last}"


def text() -> str:
    """The text of the file: one row, with a comment before the headers of each function."""
    made = [
        "# written by tools/header-rows",
        "title headers in every form, and headers that are nearly right",
        "kind parts",
    ]
    for function in (in_every_form, with_the_other_sign, nearly_right, in_any_case):
        made.append("# " + (function.__doc__ or ""))
        made += [f"headers {message} -> {' '.join(answers(message))}" for message in function()]
    return "\n".join(made) + "\n"


def main(words: list[str]) -> int:
    old = None
    if os.path.exists(PATH):
        with open(PATH, encoding="utf-8") as file:
            old = file.read()
    if old == text():
        return 0
    if words == ["--check"]:
        print(f"{os.path.relpath(PATH, TOP)}: not what tools/header-rows writes", file=sys.stderr)
        return 1
    with open(PATH, "w", encoding="utf-8") as file:
        file.write(text())
    return 0
