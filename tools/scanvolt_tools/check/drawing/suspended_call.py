"""The life of a suspended call: what it waits for, and how that ends."""
import re
from collections.abc import Iterable, Mapping, Sequence

from .canvas import Canvas, Fault, wrapped
from .sources import Sources, agree, part

PAGE = "docs/INSTRUMENT.md"
COLUMNS = ("Waits for", "Call", "Resumes when", "At most", "Timed out", "device_abort")
WAITS, ADMISSION, RESUMING = (
    "crates/sv_links/src/waiting.rt",
    "sv_history/Admission",
    "sv_history/Resuming",
)
# What is waited for, if the page has another word for it than the code.
WORDS = {"Lock": "the lock", "Dial": "dialing"}
WIDE = 1040
TOP, LEFT, BOX, STEP = 112, 196, (390, 80), 98
LANES = (
    ("it resumes", "green", 640),
    ("it times out", "amber", 746),
    ("device_abort", "red", 852),
    ("connection closes", "soft", 958),
)
ENDS = 96


def word(wait: str) -> str:
    """What is waited for, in the words of the page."""
    return WORDS.get(wait, wait.lower())


def numbers(sources: Sources) -> dict[str, str]:
    """The numbers of the errors, by name."""
    lines = sources.equations("sv_vxi/ErrorCode", "error_number")
    return {left.split()[1]: right for left, right in lines.items()}


def late(sources: Sources, waits: Iterable[str]) -> dict[str, str]:
    """For each wait that has a deadline, the number of the error of a call that waited too long."""
    rules, codes = sources.equations(RESUMING, "late"), numbers(sources)
    text = sources.text("crates/sv_history/specs/Resuming.antt")
    names = {here: there for there, here in re.findall(r"(\w+) as (\w+)\}", text)}
    endless = set(re.findall(r"Awaits (\w+) None", sources.definition(ADMISSION, "channel_stop")))
    found = {}
    for wait in waits:
        error = rules.get("late " + wait, rules["late _"])
        found[wait] = "" if wait in endless else codes[names.get(error, error)]
    return found


def callers(sources: Sources) -> dict[str, str]:
    """The calls that wait for the device and for dialing, by wait, with their names in VXI-11."""
    found = {}
    for left, right in sources.equations(ADMISSION, "device_wait").items():
        wait = re.search(r"Some \((\w+), timeout\)", right)
        if wait:
            found[wait.group(1)] = part(r"\((\w+) ", left)
    found[
        part(r"Awaits (\w+) None", sources.definition(ADMISSION, "channel_stop"))
    ] = "CreateIntrChan"
    return {wait: re.sub(r"(?<!^)(?=[A-Z])", "_", name).lower() for wait, name in found.items()}


def anew(sources: Sources) -> tuple[str, list[str]]:
    """Which wait may lead to a further wait, and to which."""
    rules = sources.equations(RESUMING, "next_wait")
    found = [
        part(r"^next_wait (\w+) ", left)
        for left, right in rules.items()
        if right.startswith("device_wait")
    ]
    if len(found) != 1:
        raise Fault(
            "crates/sv_history/specs/Resuming.antt: next_wait: not one wait leads to another"
        )
    return found[0], [wait for wait in callers(sources) if wait != "Dial"]


def aborted(sources: Sources, waits: Iterable[str]) -> dict[str, str]:
    """For each wait, the error that device_abort gives to its call. It ends the calls that name the link."""
    named = {
        part(r"^link \(?(\w+)", left)
        for left, right in sources.equations("sv_vxi/Arguments", "link").items()
        if right.startswith("Some")
    }
    whole = numbers(sources)["Abort"]
    found = dict.fromkeys(waits, whole)
    if "CreateIntrChan" not in named:
        found["Dial"] = ""
    if "CreateLink" not in named:
        found["Lock"] = whole + ", except create_link"
    return found


def rows(sources: Sources) -> tuple[dict[str, str], dict[str, list[str]]]:
    """The row of the page for each wait. Checks that it agrees with the definitions."""
    waits = sources.variants(WAITS, "Wait")
    page = {row[0]: row[1:] for row in sources.table(PAGE, *COLUMNS)}
    agree(PAGE, "the table of calls that wait", page, [word(wait) for wait in waits], WAITS)
    found = {wait: page[word(wait)] for wait in waits}
    calls = callers(sources)
    for column, said in ((3, late(sources, waits)), (4, aborted(sources, waits))):
        for wait, answer in said.items():
            if found[wait][column] != answer:
                raise Fault(
                    f"{PAGE}: {word(wait)}: {COLUMNS[column + 1]}: "
                    f"by the definitions '{answer}', not '{found[wait][column]}'"
                )
    for wait, call in calls.items():
        if call not in re.findall(r"\w+", found[wait][0]):
            raise Fault(f"{PAGE}: {word(wait)}: {call} waits for it")
    closing = sources.equations("sv_history/History", "own_acts").get(
        "own_acts config polled (Close (Conn c)) log", ""
    )
    if "Waited (Left c)" not in closing:
        raise Fault(
            "crates/sv_history/specs/History.antt: own_acts: a connection that closes doesn't end its call's wait"
        )
    return waits, found


def lanes(canvas: Canvas, bottom: float) -> None:
    """Draws how a wait ends, from the top down to what the call then returns."""
    said = (
        "it is done, and answered",
        "an error; nothing changes",
        "an error; nothing changes",
        "no reply",
    )
    for (name, ink, x), answer in zip(LANES, said):
        lines = wrapped(name, ENDS, 13, "bold")
        canvas.lines(
            x,
            TOP - 1 - 17 * len(lines),
            lines,
            f"{'ink' if ink == 'soft' else ink} bold",
            13,
            "middle",
            ENDS + 4,
        )
        canvas.way([(x, TOP - 8), (x, bottom)], ink)
        look = "plain" if ink == "soft" else ink
        canvas.box(x - ENDS / 2, bottom, ENDS, 60, look)
        lines = wrapped(answer, ENDS - 12)
        canvas.lines(x, bottom + 34 - 8 * (len(lines) - 1), lines, "ink", 12, "middle", ENDS - 6)


def wait_row(canvas: Canvas, y: float, name: str, row: Sequence[str]) -> None:
    """Draws a wait: which calls have it, when they resume and how long it takes; and which lanes end it, with their results."""
    call, resumes, most, error, abort = row
    canvas.box(LEFT, y, *BOX, "blue")
    canvas.words(LEFT + 14, y + 23, name, "ink bold", 14)
    canvas.words(LEFT + BOX[0] - 12, y + 23, most, "soft fixed", 11, "end")
    canvas.words(LEFT + 14, y + 45, call, "ink", 12, room=BOX[0] - 20)
    canvas.words(LEFT + 14, y + 65, "until " + resumes, "soft", 12, room=BOX[0] - 20)
    middle = y + BOX[1] / 2
    canvas.way([(LEFT + BOX[0], middle), (LANES[3][2], middle)], "soft", "")
    number, _, but = abort.partition(", ")
    for (_, ink, x), answer in zip(LANES, (resumes, error, number, "no reply")):
        if answer:
            canvas.dot(x, middle, ink, 6)
    for at, answer in ((1, error), (2, number)):
        canvas.words(LANES[at][2] + 10, middle - 7, answer, LANES[at][1] + " bold", 13)
    canvas.lines(LANES[2][2] + 10, middle + 16, wrapped(but, 84, 11), "soft", 11)


def ways(canvas: Canvas, places: Mapping[str, float], start: str, others: Iterable[str]) -> None:
    """Draws how a call comes to wait, and to wait again."""
    trunk, rail, middle = LEFT - 44, LEFT - 22, BOX[1] / 2
    ends = sorted(places.values())
    canvas.way([(trunk, ends[0] + middle), (trunk, ends[-1] + middle)], "blue", "")
    for y in ends:
        canvas.way([(trunk, y + middle), (LEFT, y + middle)], "blue")
    canvas.box(20, TOP + 122, 112, 128, "plain")
    canvas.words(76, TOP + 148, "a call", "ink bold", 14, "middle")
    said = wrapped("what it needs isn't there: no reply yet, and later calls wait", 100)
    canvas.lines(76, TOP + 170, said, "soft", 12, "middle", 110)
    canvas.way([(132, TOP + 186), (trunk, TOP + 186)], "blue", "")
    for other in others:
        canvas.way(
            [
                (LEFT, places[start] + BOX[1] - 14),
                (rail, places[start] + BOX[1] - 14),
                (rail, places[other] + 16),
                (LEFT, places[other] + 16),
            ],
            "green",
        )


def draw(sources: Sources) -> str:
    waits, found = rows(sources)
    start, others = anew(sources)
    canvas = Canvas(
        WIDE,
        "A suspended call",
        "A call waits for the lock, for input, for a response or for dialing; it"
        " resumes, times out, is aborted, or its connection closes.",
    )
    canvas.heading("VXI-11, B.4.4 and B.6")
    places = {wait: TOP + STEP * place for place, wait in enumerate(waits)}
    lanes(canvas, TOP + STEP * len(waits) - 4)
    for wait in waits:
        wait_row(canvas, places[wait], word(wait), found[wait])
    ways(canvas, places, start, others)
    y = TOP + STEP * len(waits) + 26
    canvas.way([(LEFT - 22, y), (LEFT + 8, y)], "green")
    canvas.words(
        LEFT + 16, y + 4, "after the lock it may wait again, at its place in the order", "soft", 12
    )
    return canvas.svg()
