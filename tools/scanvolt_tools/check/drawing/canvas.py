"""A picture as SVG: boxes, words and arrows, and how much room words take.

It can be read on a light and on a dark page, and has a background of its own, since a page may be dark on a machine set to
light. It brings no fonts. Room is computed for a wide font, so that words fit in other fonts too. Words without room are a fault.
"""
from collections.abc import Iterable, Iterator, Sequence
from xml.sax.saxutils import escape, quoteattr

FONTS = "'Segoe UI','Helvetica Neue',Helvetica,Arial,'Liberation Sans','DejaVu Sans',sans-serif"
FIXED = "'SFMono-Regular',Consolas,'Liberation Mono','DejaVu Sans Mono',monospace"
# Words, and lines with their heads: colors on light, and on dark.
INKS = {
    "ink": ("#1f2328", "#f0f6fc"),
    "soft": ("#59636e", "#9da7b3"),
    "blue": ("#0550ae", "#79c0ff"),
    "green": ("#116329", "#56d364"),
    "amber": ("#7d4e00", "#e3b341"),
    "red": ("#a40e26", "#ff8f88"),
}
# Boxes: colors of the background and the edge, on light, and on dark.
GROUNDS = {
    "page": ("#ffffff", "#d0d7de", "#0d1117", "#3d444d"),
    "plain": ("#f6f8fa", "#8c959f", "#1c2129", "#6e7681"),
    "room": ("none", "#afb8c1", "none", "#57606a"),
    "blue": ("#ddf4ff", "#0969da", "#10243e", "#4493f8"),
    "green": ("#dafbe1", "#1a7f37", "#10281a", "#3fb950"),
    "amber": ("#fff8c5", "#9a6700", "#2e240d", "#d29922"),
    "red": ("#ffebe9", "#cf222e", "#361a1c", "#f85149"),
}
# The widths of characters, as parts of the font's size; then that of all others.
WIDTHS = (
    (".,:;'|!ijlIJ ", 0.33),
    ('frt()[]/-"*`', 0.42),
    ("mwMW@%", 0.97),
    ("ABCDEFGHKLNOPQRSTUVXYZ&+=<>#", 0.73),
)
OTHERS, FIXED_WIDTH, BOLD = 0.63, 0.61, 1.1
# The free space below.
MARGIN = 24
Point = tuple[float, float]


class Fault(Exception):
    """Why the picture can't be drawn, in one line."""


def width(words: str, size: float = 13, look: str = "") -> float:
    """How wide words are at most."""
    if "fixed" in look:
        return FIXED_WIDTH * size * len(words)
    whole = sum(next((part for those, part in WIDTHS if one in those), OTHERS) for one in words)
    return whole * size * (BOLD if "bold" in look else 1)


def wrapped(text: str, room: float, size: float = 12, look: str = "") -> list[str]:
    """A text as lines that fit in this room."""
    lines: list[str] = []
    for word in text.split():
        longer = lines[-1] + " " + word if lines else word
        if lines and width(longer, size, look) <= room:
            lines[-1] = longer
        else:
            lines.append(word)
    return lines


def style(dark: bool) -> Iterator[str]:
    """The style rules for light, or for dark."""
    for name, inks in INKS.items():
        yield f".{name}{{fill:{inks[dark]}}}.line-{name}{{stroke:{inks[dark]}}}"
    for name, grounds in GROUNDS.items():
        fill, stroke = grounds[2 * dark : 2 * dark + 2]
        yield f".on-{name}{{fill:{fill};stroke:{stroke}}}"


class Canvas:
    """A picture that is being drawn. It becomes as high as needed."""

    def __init__(self, wide: float, title: str, told: str) -> None:
        self.wide = wide
        self.lowest: float = 0
        self.title = title
        self.told = told
        self.parts: list[str] = []

    def box(
        self, x: float, y: float, wide: float, high: float, look: str = "plain", corner: float = 6
    ) -> None:
        if x < 0 or x + wide > self.wide:
            raise Fault(f"{self.title}: a box leaves the picture")
        self.lowest = max(self.lowest, y + high)
        dashes = ' stroke-dasharray="5 4"' if look == "room" else ""
        self.parts.append(
            f'<rect x="{x:g}" y="{y:g}" width="{wide:g}" height="{high:g}" rx="{corner:g}" '
            f'class="on-{look}"{dashes}/>'
        )

    def words(
        self,
        x: float,
        y: float,
        text: str,
        look: str = "ink",
        size: float = 13,
        anchor: str = "start",
        room: float | None = None,
    ) -> None:
        """Writes words on a line with baseline y. `look` is an ink, with `bold` or `fixed` if they apply."""
        wide = width(text, size, look)
        left = {"start": x, "middle": x - wide / 2, "end": x - wide}[anchor]
        if wide > (room or self.wide) or left < 0 or left + wide > self.wide:
            raise Fault(f"{self.title}: there is no room for '{text}'")
        self.lowest = max(self.lowest, y)
        where = "" if anchor == "start" else f' text-anchor="{anchor}"'
        self.parts.append(
            f'<text x="{x:g}" y="{y:g}" font-size="{size:g}" class="{look}"{where}>'
            f"{escape(text)}</text>"
        )

    def lines(
        self,
        x: float,
        y: float,
        lines: Iterable[str],
        look: str = "ink",
        size: float = 12,
        anchor: str = "start",
        room: float | None = None,
    ) -> float:
        """Writes lines below each other. Returns where the next one would be."""
        for line in lines:
            self.words(x, y, line, look, size, anchor, room)
            y += round(size * 1.3)
        return y

    def way(
        self, points: Sequence[Point], ink: str = "soft", heads: str = "end", dashed: bool = False
    ) -> None:
        """Draws a line through these points, with an arrowhead at its end, at both ends, or at none."""
        path = "M" + "L".join(f"{x:g} {y:g}" for x, y in points)
        dashes = ' stroke-dasharray="5 4"' if dashed else ""
        self.parts.append(f'<path d="{path}" class="way line-{ink}"{dashes}/>')
        if heads in ("end", "both"):
            self.head(points[-2], points[-1], ink)
        if heads == "both":
            self.head(points[1], points[0], ink)

    def head(self, before: Point, at: Point, ink: str) -> None:
        """Draws an arrowhead, along the axis on which the line comes."""
        (x, y), across = at, before[1] == at[1]
        back = -8 if (at[0] > before[0] if across else at[1] > before[1]) else 8
        sides = (
            ((x + back, y - 4), (x + back, y + 4))
            if across
            else ((x - 4, y + back), (x + 4, y + back))
        )
        path = "M" + "L".join(f"{x:g} {y:g}" for x, y in (at, *sides)) + "Z"
        self.parts.append(f'<path d="{path}" class="{ink}"/>')

    def dot(self, x: float, y: float, ink: str = "soft", radius: float = 5) -> None:
        self.parts.append(f'<circle cx="{x:g}" cy="{y:g}" r="{radius:g}" class="{ink}"/>')

    def heading(self, further: str) -> None:
        """Writes the title, and further words after it."""
        self.words(24, 36, self.title, "ink bold", 18)
        self.words(24 + width(self.title, 18, "bold") + 12, 36, further, "soft", 13)

    def svg(self) -> str:
        """The text of the SVG file."""
        wide, high = self.wide, self.lowest + MARGIN
        rules = (
            "".join(style(False))
            + "@media (prefers-color-scheme:dark){"
            + "".join(style(True))
            + "}"
        )
        fonts = f"text{{font-family:{FONTS}}}.fixed{{font-family:{FIXED}}}.bold{{font-weight:bold}}"
        fixed = fonts + ".way{fill:none;stroke-width:1.5}"
        head = (
            f'<svg xmlns="http://www.w3.org/2000/svg" viewBox="0 0 {wide:g} {high:g}" '
            f'width="{wide:g}" height="{high:g}" role="img" aria-label={quoteattr(self.title)}>'
        )
        page = f'<rect x="0.5" y="0.5" width="{wide - 1:g}" height="{high - 1:g}" rx="10"'
        return (
            "\n".join(
                (
                    head,
                    "<!-- Written by tools/pictures from the sources and documents; change those and run it. -->",
                    f"<title>{escape(self.title)}</title>",
                    f"<desc>{escape(self.told)}</desc>",
                    f"<style>{fixed + rules}</style>",
                    page + ' class="on-page"/>',
                    *self.parts,
                    "</svg>",
                )
            )
            + "\n"
        )
