"""The newest section of CHANGELOG.md in the form of a Debian changelog."""
import email.utils
import re
import textwrap

from ..repository import Repository

COLUMNS = 78


def items(section: str) -> list[str]:
    """The items of a section, each on one line and without Markdown's marks."""
    found = re.split(r"^- ", section, flags=re.MULTILINE)[1:]
    # An item ends with an empty line, or with the next one.
    return [re.sub(r"\*\*|`", "", " ".join(item.split("\n\n")[0].split())) for item in found]


def text(date: int) -> str | None:
    """The section, with this date in seconds since 1970; None if CHANGELOG.md doesn't begin with the version in VERSION. The
    maintainer is that of packaging/control.
    """
    there = Repository()
    version = there.text("VERSION").strip()
    sections = re.split(r"^## ", there.text("CHANGELOG.md"), flags=re.MULTILINE)[1:]
    if not sections or not items(sections[0]) or sections[0].split("\n")[0] != version:
        return None
    maintainer = re.findall(r"^Maintainer: (.*)$", there.text("packaging/control"), re.MULTILINE)[0]
    lines = [f"scanvolt ({version}) unstable; urgency=medium\n"]
    for item in items(sections[0]):
        lines.append(textwrap.fill(item, COLUMNS, initial_indent="  * ", subsequent_indent="    "))
    written = email.utils.formatdate(date, usegmt=False).replace("-0000", "+0000")
    return "\n".join([*lines, f"\n -- {maintainer}  {written}\n"])
