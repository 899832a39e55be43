"""explain-picture [--check] : draws docs/pictures/explained-hang.svg, the lanes of the page of `scanvolt-explain` for a session.

The session is python/tests/explained/hang.replay. A scanvolt with `explain` makes the page (SCANVOLT, or the one of the
checkout), and chromium draws its lanes. With --check it writes nothing, and prints a line if the picture isn't what it would
draw. Status: 0; 1 if something is printed; 2 if chromium or the program is missing.
"""
import os
import re
import shutil
import subprocess
import sys
import tempfile

from scanvolt.explaining.explanation import Explanation
from scanvolt.program import ProgramError, find_program

from ..repository import Repository
from .drawing.sources import part
from .writing import printed, settled

SESSION, TARGET = "python/tests/explained/hang.replay", "docs/pictures/explained-hang.svg"
WIDE, HIGH, TABLE = 1340, 900, 500  # pixels of the window, of which the table takes some


def lanes(page: str) -> tuple[list[str], int]:
    """The lanes as chromium draws them, as SVG."""
    with tempfile.TemporaryDirectory() as folder:
        path = os.path.join(folder, "page.html")
        with open(path, "w", encoding="utf-8") as file:
            file.write(page)
        command = [
            "chromium",
            "--headless",
            "--no-sandbox",
            "--disable-gpu",
            "--disable-dev-shm-usage",
            "--user-data-dir=" + folder,
            f"--window-size={WIDE},{HIGH}",
            "--virtual-time-budget=2000",
            "--dump-dom",
            f"file://{path}#at=9999&why=poll.6",
        ]
        told = subprocess.run(
            command, capture_output=True, text=True, check=True, timeout=120
        ).stdout
    parts = [part(rf'(?s)<svg id="{name}"[^>]*>(.*?)</svg>', told) for name in ("over", "svg")]
    return parts, int(part(r'<svg id="svg"[^>]*height="(\d+)', told))


def colours(page: str) -> str:
    """The style of the page that lanes need: its colours, light and dark, and the looks of text."""
    style = part(r"(?s)<style>(.*?)</style>", page)
    rules = re.findall(r":root\{.*?\}|svg text[^{]*\{.*?\}", style, flags=re.S)
    return "".join(rules).replace("\n", "").replace("svg text", "text")


def drawn(repository: Repository) -> str:
    """The picture: the axis above, and the lanes below it."""
    page = Explanation(repository.text(SESSION).splitlines(), find_program()).page("hang")
    (over, below), height = lanes(page)
    wide = WIDE - TABLE
    return (
        f'<svg xmlns="http://www.w3.org/2000/svg" width="{wide}" height="{height + 58}" '
        f'viewBox="0 0 {wide} {height + 58}" font-family="sans-serif">\n'
        "<title>A read that hangs: links, program units, lock, scan, errors and status bits over the steps of a session</title>\n"
        f"<style>{colours(page)} text.m{{font-family:monospace}}</style>\n"
        '<rect width="100%" height="100%" fill="var(--panel)"/>\n'
        f'<g>{over}</g>\n<g transform="translate(0 58)">{below}</g>\n</svg>\n'
    ).replace("&nbsp;", "&#160;")


def main(words: list[str]) -> int:
    repository = Repository()
    if shutil.which("chromium") is None:
        print("explain-picture: chromium isn't there", file=sys.stderr)
        return 2
    try:
        picture = drawn(repository)
    except ProgramError as fault:
        print(f"explain-picture: {fault}", file=sys.stderr)
        return 2
    return printed(
        settled(repository, TARGET, picture, words == ["--check"], "tools/explain-picture draws")
    )
