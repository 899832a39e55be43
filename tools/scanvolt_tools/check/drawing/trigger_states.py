"""The trigger states, and what leads from one to another."""

from . import trigger_moves
from .canvas import Canvas, Fault, wrapped
from .sources import Sources, agree

PAGE = "docs/INSTRUMENT.md"
COLUMNS = ("From", "By", "To", "When")
# The words of the page for the acts of sv_scan.
WORDS = {
    "Init": "INITiate",
    "Trigger": "trigger",
    "Sample": "tick",
    "Abort": "ABORt",
    "Reset": "*RST",
}
# The command or trigger that is named if an act is refused.
TOLD = {"Init": "INITiate", "Trigger": "a trigger from BUS"}
WIDE = 1000
TOP, BOX = 158, (212, 104)
# Where the states are, from the left.
PLACES = {"Idle": 40, "Waiting": 414, "Scanning": 748}
Moves = dict[
    tuple[str, str], tuple[str, str]
]  # by both states: what leads from one to the other, and when
# How far below the states the ways back from the last state are, and where they begin.
DEEP, INSET = {"Waiting": 44, "Idle": 106}, {"Waiting": 60, "Idle": 120}


def rows(sources: Sources) -> Moves:
    """The rows of the page. Checks that they are the moves of the definitions."""
    table = sources.table(PAGE, *COLUMNS)
    states = list(sources.variants(trigger_moves.STATES, "State"))
    if set(states) != set(PLACES):
        raise Fault(f"{trigger_moves.STATES}: there is no place for the states {', '.join(states)}")
    here = {
        (one, act.strip(), to)
        for start, by, to, _ in table
        for one in (states if start == "any" else [start])
        for act in by.split(",")
    }
    there = {(start, WORDS.get(act, act), to) for start, act, to in trigger_moves.moves(sources)}
    agree(
        PAGE,
        "the table of moves",
        [f"{start} by {by} to {to}" for start, by, to in here],
        [f"{start} by {by} to {to}" for start, by, to in there],
        "crates/sv_scan/specs",
    )
    return {(start, to): (by, when) for start, by, to, when in table}


def states(canvas: Canvas, sources: Sources) -> None:
    """Draws the states, each with what it is and its operation condition."""
    words = trigger_moves.conditions(sources)
    for name, told in sources.variants(trigger_moves.STATES, "State").items():
        x = PLACES[name]
        canvas.box(
            x,
            TOP,
            *BOX,
            "blue" if name == "Idle" else "amber" if name == "Waiting" else "green",
            16,
        )
        canvas.words(x + BOX[0] / 2, TOP + 28, name, "ink bold", 17, "middle")
        y = canvas.lines(
            x + BOX[0] / 2, TOP + 49, wrapped(told, BOX[0] - 24), "ink", 12, "middle", BOX[0] - 16
        )
        canvas.words(
            x + BOX[0] / 2, y + 7, f"STAT:OPER:COND? {words[name]}", "soft fixed", 11, "middle"
        )


def over(canvas: Canvas, moves: Moves) -> None:
    """Draws the moves that lead to the right, and around the last state."""
    middle = TOP + 34
    for start, to in (("Idle", "Waiting"), ("Waiting", "Scanning")):
        left, right = PLACES[start] + BOX[0], PLACES[to]
        canvas.way([(left, middle), (right, middle)], "blue")
        by, when = moves.pop((start, to))
        canvas.words(
            (left + right) / 2, middle - 9, by, "ink bold", 13, "middle", right - left - 10
        )
        canvas.lines(
            (left + right) / 2,
            middle + 20,
            wrapped(when, right - left - 24),
            "soft",
            12,
            "middle",
            right - left - 12,
        )
    left = PLACES["Scanning"] + BOX[0] - 70
    canvas.way([(left, TOP), (left, TOP - 26), (left + 48, TOP - 26), (left + 48, TOP)], "green")
    by, when = moves.pop(("Scanning", "Scanning"))
    canvas.words(left + 58, TOP - 70, by, "ink bold", 13, "end")
    canvas.lines(left + 58, TOP - 53, wrapped(when, 124), "soft", 12, "end", 124)


def under(canvas: Canvas, moves: Moves) -> None:
    """Draws the moves that lead back from the last state, below the states."""
    bottom, left = TOP + BOX[1], PLACES["Scanning"]
    for to, deep in DEEP.items():
        at, start, low = PLACES[to] + BOX[0] / 2, left + INSET[to], bottom + deep
        canvas.way([(start, bottom), (start, low), (at, low), (at, bottom)], "green")
        by, when = moves.pop(("Scanning", to))
        canvas.words(at + 12, low - 8, by, "ink bold", 13, room=36)
        canvas.words(at + 52, low - 8, when, "soft", 12, room=left - at)


def back(canvas: Canvas, moves: Moves) -> None:
    """Draws what ends each state, above the states."""
    high, at = TOP - 78, PLACES["Idle"] + BOX[0] / 2
    for name in ("Waiting", "Scanning"):
        x = PLACES[name] + 40
        canvas.way([(x, TOP), (x, high), (at, high), (at, TOP)], "red")
    by, when = moves.pop(("any", "Idle"))
    canvas.words(at + 12, high + 18, by, "ink bold", 13)
    canvas.words(at + 12, high + 35, when, "soft", 12)


def draw(sources: Sources) -> str:
    moves = rows(sources)
    canvas = Canvas(
        WIDE,
        "Trigger states",
        "INITiate leads from Idle to Waiting, a trigger to Scanning, and the end of the last scan"
        " back to Idle.",
    )
    canvas.heading("SCPI-1999, volume 2, 24")
    states(canvas, sources)
    over(canvas, moves)
    under(canvas, moves)
    back(canvas, moves)
    if moves:
        without = ", ".join(f"{start} to {to}" for start, to in moves)
        raise Fault(f"{canvas.title}: there is no way for {without}")
    y = TOP + BOX[1] + DEEP["Idle"] + 40
    for act, where, error in trigger_moves.refused(sources):
        if act in TOLD:
            canvas.words(40, y, f"{TOLD[act]} in {' or '.join(where)}: {error}", "soft", 12)
            y += 19
    return canvas.svg()
