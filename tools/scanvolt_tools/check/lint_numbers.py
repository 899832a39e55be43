"""lint-numbers [TOP] : prints numbers of VXI-11, RPC or XDR that are written out in Python, shell or awk files, one line each;
nothing, and status 0, if there are none. TOP is a repository; without it, the tool's own.

Only python/scanvolt/vxi11 writes them out; all other files take them from there. Left out are tests that compare with bytes
of others on purpose, and this file.
"""
import re
from collections.abc import Iterable, Iterator

from ..repository import Repository
from .writing import printed

HOME = "python/scanvolt/vxi11/"
OUTSIDE = {
    "python/tests/test_rpc.py": "bytes as RFC 5531 and RFC 4506 have them",
    "python/tests/test_calls.py": "bytes as VXI-11 and RFC 1833 have them",
    "python/tests/tshark/test_tshark.py": "packets as a capture has them",
    "tools/scanvolt_tools/check/lint_numbers.py": "what is looked for",
    "tools/scanvolt_tools/check/panel_picture.py": "chunks of a picture as PNG has them",
    "tools/tests/test_numbers.py": "what is to be found",
}
SPELLED = [
    (what, re.compile(pattern, re.IGNORECASE))
    for what, pattern in (
        ("the number of a program", r"(?:0x0*|0)607(?:af|b0|b1)|39518[345](?!\d)"),
        ("the number of the port mapper", r"(?<![\w.])100000(?![\w.])|000186a0|0x0*186a0"),
        (
            "a record's mark",
            r"0x80000000|0x7fffffff|(?<!\d)2 ?\*\* ?31(?!\d)|1 ?<< ?31|(?<!\d)2147483648|(?<![0-9a-f])8000[0-9a-f]{4}"
            r"|[\"' ]800000[\"']",
        ),
        (
            "words that are packed",
            r"struct\.\w+\(\s*[bfru]*[\"'][>!]|to_bytes\(\s*4\b|from_bytes\([^()]*(?:\([^()]*\))?[^()]*big",
        ),
        (
            "the number of a procedure or a flag",
            r"\b(?:GETPORT|READSTB|ENABLE_SRQ|WAITLOCK|TERMCHRSET|DEVICE_[A-Z_]+"
            r"|(?:CREATE|DESTROY)_(?:LINK|INTR_CHAN))\b(?:, *\w+)* *=\s*\(?\d",
        ),
    )
]


def lines_of(path: str) -> list[str]:
    """The lines of a Python, shell or awk file; none for any other file."""
    with open(path, "rb") as file:
        first = file.readline(200)
        script = first.startswith(b"#!") and re.search(rb"python|sh\b|awk", first)
        if not script and not path.endswith((".py", ".sh", ".awk", "Makefile")):
            return []
        return (first + file.read()).decode("utf-8", "replace").splitlines()


def spelled(name: str, lines: Iterable[str]) -> Iterator[str]:
    """The numbers that are written out in the lines of a file."""
    for number, line in enumerate(lines, 1):
        for what, pattern in SPELLED:
            found = pattern.search(line)
            if found:
                yield f"{name}:{number}: {what}, {found.group().strip()}: scanvolt.vxi11 has it"


def main(words: list[str]) -> int:
    repository = Repository(*words[:1])
    names = [
        name for name in repository.listed() if not name.startswith(HOME) and name not in OUTSIDE
    ]
    return printed(
        [line for name in names for line in spelled(name, lines_of(repository.path(name)))]
    )
