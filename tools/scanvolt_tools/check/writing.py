"""What the tools have in common that write files from the sources: they write a file, or check that it is what they would write."""

from ..repository import Repository


def settled(repository: Repository, name: str, text: str, check: bool, tool: str) -> list[str]:
    """Writes a file, unless it has this text. With `check` it writes nothing, and returns a line if the file has another text. `tool`
    says who writes it, such as `tools/book writes`.
    """
    if repository.is_text(name, text):
        return []
    if check:
        return [f"{name}: it differs from what {tool}"]
    repository.write(name, text)
    return []


def printed(lines: list[str]) -> int:
    """Prints these lines. Returns the status, which is 1 if there are any."""
    for line in lines:
        print(line)
    return 1 if lines else 0
