"""runnable PROGRAM : checks that PROGRAM can be run, before anything is built, proved or measured for it.

PROGRAM has to be a program or a script: a file that may be executed and begins like one.
Status: 0 it can be run, 2 it can't, and standard error says why.
"""
import os
import sys

BEGINNINGS = (b"\x7fELF", b"#!")


def why_not(path: str) -> str | None:
    """Why a program can't be run; None if it can."""
    if not os.path.exists(path):
        return f"there is no {path}"
    if os.path.isdir(path):
        return f"{path} is a folder"
    if not os.path.isfile(path) or not os.access(path, os.R_OK):
        return f"{path} is no file that can be read"
    if not os.access(path, os.X_OK):
        return f"{path} may not be executed"
    with open(path, "rb") as file:
        if not file.read(4).startswith(BEGINNINGS):
            return f"{path} is neither a program nor a script"
    return None


def runs(path: str) -> bool:
    """Whether a program can be run. If not, says why."""
    why = why_not(path)
    if why is not None:
        print(f"the program can't be run: {why}", file=sys.stderr)
    return why is None


def main(words: list[str]) -> int:
    if len(words) != 1:
        print("usage: runnable PROGRAM", file=sys.stderr)
        return 2
    return 0 if runs(words[0]) else 2
