"""The way of a call through the crates, from the socket to the instrument and back."""
import re
from collections.abc import Callable, Iterable, Iterator, Mapping, Sequence

from ..specification import crates, told
from .canvas import Canvas, Fault, wrapped
from .sources import Sources, agree

PAGE = "docs/ARCHITECTURE.md"
COLUMNS = ("Crate", "Called by", "Comes in", "Goes back")
BESIDE = "\nBeside the way: "
WIDE, TOP = 1040, 58
# The two columns, how far to the right of its caller a crate is, and how far below the one before.
LEFT, RIGHT, COLUMN, INDENT, GAP = 24, 536, 480, 22, 12
# The crate whose part of the tree is in the right column, and the crate that joins both columns.
INSTRUMENT, SERVER = "sv_instrument", "sv_server"
Row = tuple[list[str], str, str]  # the callers of a crate, what comes in, and what goes back
Rows = dict[str, Row]
Box = tuple[float, float, float, float]


def below(name: str, stands_on: Mapping[str, Sequence[str]]) -> set[str]:
    """All crates that a crate depends on, directly or not."""
    found, open_ones = set(), [name]
    while open_ones:
        for other in stands_on.get(open_ones.pop(), ()):
            if other in stands_on and other not in found:
                found.add(other)
                open_ones.append(other)
    return found


def read(sources: Sources) -> tuple[Rows, list[str]]:
    """The rows of the page by crate, each with its callers, checked with crates.txt; and the crates beside the way."""
    stands_on = crates(sources.repository)
    rows = {
        crate: ([name.strip() for name in by.split(",")], comes, goes)
        for crate, by, comes, goes in sources.table(PAGE, *COLUMNS)
    }
    first = next(iter(rows))
    for place, (crate, (callers, _, _)) in enumerate(rows.items()):
        for caller in callers if place else ():
            if crate not in stands_on.get(caller, ()):
                raise Fault(f"{PAGE}: by crates.txt {caller} doesn't depend on {crate}")
        if place and callers[0] not in list(rows)[:place]:
            raise Fault(f"{PAGE}: {crate} is above its caller")
    line = re.search(BESIDE + r"(.*?)\.\n", sources.text(PAGE), flags=re.S)
    if not line:
        raise Fault(f"{PAGE}: it has no line 'Beside the way:'")
    beside = re.findall(r"`(\w+)`", line.group(1))
    agree(
        PAGE, "the way of a call", [*rows, *beside], {first, *below(first, stands_on)}, "crates.txt"
    )
    return rows, beside


def tree(rows: Rows, top: str, depth: int = 0) -> Iterator[tuple[str, int]]:
    """A crate and those that it calls, in the order of the page, each with its depth."""
    yield top, depth
    for crate, (callers, _, _) in rows.items():
        if callers[0] == top:
            yield from tree(rows, crate, depth + 1)


def crate_box(
    canvas: Canvas, x: float, y: float, wide: float, crate: str, row: Row, said: str, look: str
) -> float:
    """Draws a crate with what comes in, what goes back, and what is said of it. Returns how high it is."""
    lines = wrapped(said, wide - 24, 11)
    high = 46 + 15 * len(lines)
    canvas.box(x, y, wide, high, look)
    canvas.words(x + 12, y + 20, crate, "ink bold", 13)
    half = (wide - 24) / 2
    for at, ink, text in ((x + 12, "blue", row[1]), (x + 12 + half, "green", row[2])):
        ends = [(at, y + 34), (at + 18, y + 34)]
        canvas.way(ends if ink == "blue" else ends[::-1], ink)
        canvas.words(at + 24, y + 38, text, ink, 12, room=half - 28)
    canvas.lines(x + 12, y + 55, lines, "soft", 11, room=wide - 16)
    return high


def column(
    canvas: Canvas,
    x: float,
    y: float,
    nodes: Iterable[tuple[str, int]],
    rows: Rows,
    said: Callable[[str], str],
    looks: Callable[[str], str],
) -> dict[str, Box]:
    """Draws crates below each other. Returns the place and size of each."""
    places = {}
    for crate, depth in nodes:
        left = x + INDENT * depth
        wide = x + COLUMN - left
        high = crate_box(canvas, left, y, wide, crate, rows[crate], said(crate), looks(crate))
        places[crate] = (left, y, wide, high)
        y += high + GAP
    return places


def calls(canvas: Canvas, places: Mapping[str, Box], rows: Rows) -> None:
    """Draws the ways between crates and those that they call."""
    for crate, (callers, _, _) in rows.items():
        x, y, wide, high = places[crate]
        for place, caller in enumerate(callers):
            if caller not in places:
                continue
            from_x, from_y, from_wide, from_high = places[caller]
            if place or caller == SERVER and crate == INSTRUMENT:
                near = LEFT + COLUMN
                turn = near + (12 if crate == INSTRUMENT else 10)
                to = x if crate == INSTRUMENT else x + wide
                start, end = (from_x + from_wide, from_y + from_high / 2), (to, y + high / 2)
                canvas.way([start, (turn, start[1]), (turn, end[1]), end], "soft", "both")
            else:
                rail = from_x + INDENT / 2
                canvas.way(
                    [(rail, from_y + from_high), (rail, y + high / 2), (x, y + high / 2)],
                    "soft",
                    "both",
                )


def draw(sources: Sources) -> str:
    rows, beside = read(sources)
    first = next(iter(rows))
    inside = [crate for crate, _ in tree(rows, INSTRUMENT)]
    left = [one for one in tree(rows, first) if one[0] not in inside]
    trunk = [
        crate
        for crate, (callers, _, _) in rows.items()
        if crate in (first, SERVER) or crate in rows[SERVER][0]
    ]

    def looks(crate: str) -> str:
        return "blue" if crate in inside else "plain" if crate in trunk else "amber"

    def said(crate: str) -> str:
        return told(sources.repository, crate)

    canvas = Canvas(
        WIDE,
        "The way of a call",
        "A call goes from a socket through these crates to the instrument, and its reply"
        " goes back.",
    )
    canvas.heading("what comes in, what goes back, and what each crate is")
    canvas.box(LEFT, TOP, COLUMN, 34, "room")
    canvas.words(LEFT + 12, TOP + 22, rows[first][0][0], "ink bold", 13)
    places = column(canvas, LEFT, TOP + 34 + 26, left, rows, said, looks)
    places.update(column(canvas, RIGHT, TOP, tree(rows, INSTRUMENT), rows, said, looks))
    rail = LEFT + INDENT / 2
    canvas.way([(rail, TOP + 34), (rail, places[first][1])], "soft", "both")
    calls(canvas, places, rows)
    end = max(places[crate][1] + places[crate][3] for crate, _ in left)
    canvas.lines(
        LEFT, end + 30, wrapped("Beside the way: " + ", ".join(beside), COLUMN), "soft", 12
    )
    return canvas.svg()
