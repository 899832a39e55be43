"""The status model: registers, standard events, queues, the status byte and requests for service."""

from collections.abc import Iterable, Mapping

from . import status_bits
from .canvas import Canvas, Fault, Point, width, wrapped
from .sources import Sources
from .status_bits import Bits, Byte, Names, Nested

WIDE = 1040
# Where columns begin and how wide they are: sources of bits, filters, events, enables, the OR of bits; then the status byte.
SOURCE, FILTER, EVENT, ENABLE, OR = (52, 280), (352, 66), (438, 52), (510, 52), (582, 30)
LANES, BYTE, MASK, LAST = 630, (694, 166), (884, 50), (958, 30)
ROW, CELL, HEAD = 36, 32, 24
BYTE_TOP, BYTE_ROW = 200, 40
# The registers and queues from top to bottom, each with the header of its commands.
ORDER = (
    ("operation", "STAT:OPER:COND?"),
    ("standard events", ""),
    ("output queue", None),
    ("questionable", "STAT:QUES:COND?"),
    ("limits", "STAT:QUES:LIM:COND?"),
    ("error queue", None),
)


def cell(canvas: Canvas, at: Point, wide: float, bit: int, look: str) -> None:
    """The cell of a bit in a column."""
    canvas.box(at[0], at[1], wide, CELL, look, 3)
    canvas.words(at[0] + wide / 2, at[1] + 20, str(bit), "ink", 13, "middle")


def bit_row(canvas: Canvas, y: float, bit: int, said: tuple[str, str], has_filter: bool) -> None:
    """Draws a bit's way from its source to the OR."""
    name, stands = said
    canvas.box(SOURCE[0], y, SOURCE[1], CELL, "plain", 3)
    canvas.words(SOURCE[0] + 14, y + 21, str(bit), "ink bold", 13, "middle")
    canvas.words(SOURCE[0] + 28, y + 13, name, "ink bold", 12, room=SOURCE[1] - 32)
    canvas.words(SOURCE[0] + 28, y + 27, stands, "soft", 11, room=SOURCE[1] - 32)
    middle, end = y + CELL / 2, SOURCE[0] + SOURCE[1]
    if has_filter:
        canvas.way([(end, middle), (FILTER[0], middle)])
        end = FILTER[0] + FILTER[1]
    canvas.way([(end, middle), (EVENT[0], middle)])
    cell(canvas, (EVENT[0], y), EVENT[1], bit, "blue")
    canvas.way([(EVENT[0] + EVENT[1], middle), (ENABLE[0], middle)])
    cell(canvas, (ENABLE[0], y), ENABLE[1], bit, "amber")
    canvas.way([(ENABLE[0] + ENABLE[1], middle), (OR[0], middle)])


def heads(canvas: Canvas, y: float, title: str, header: str, has_filter: bool) -> None:
    """Draws the line over a register: its name and its commands."""
    canvas.words(
        SOURCE[0], y, title, "ink bold", 13, room=SOURCE[1] - 10 - width(header, 11, "fixed")
    )
    canvas.words(SOURCE[0] + SOURCE[1], y, header, "soft fixed", 11, "end")
    if has_filter:
        canvas.words(FILTER[0] + FILTER[1] / 2, y, "filters", "soft", 11, "middle")
    for (left, wide), name in zip(
        (EVENT, ENABLE), (":EVEN?", ":ENAB") if has_filter else ("*ESR?", "*ESE")
    ):
        canvas.words(left + wide / 2, y, name, "soft fixed", 11, "middle")


def filters(canvas: Canvas, y: float, high: float) -> None:
    """Draws the filters between condition and event."""
    canvas.box(FILTER[0], y, FILTER[1], high, "green")
    middle = FILTER[0] + FILTER[1] / 2
    canvas.words(middle, y + high / 2 - 20, "PTR", "ink bold", 12, "middle")
    canvas.words(middle, y + high / 2 - 6, "it rises", "soft", 11, "middle")
    canvas.words(middle, y + high / 2 + 12, "NTR", "ink bold", 12, "middle")
    canvas.words(middle, y + high / 2 + 26, "it falls", "soft", 11, "middle")


def gate(canvas: Canvas, left: float, wide: float, top: float, high: float) -> None:
    """Draws the OR of bits."""
    canvas.box(left, top, wide, high, "plain", 12)
    canvas.words(left + wide / 2, top + high / 2 + 4, "OR", "ink bold", 12, "middle")


def queue(canvas: Canvas, y: float, name: str, stands: str) -> tuple[float, Point]:
    """Draws a queue. Returns where it ends, and where its summary begins."""
    canvas.box(SOURCE[0], y, SOURCE[1], 40, "plain")
    canvas.words(SOURCE[0] + 14, y + 25, name, "ink bold", 13)
    canvas.words(SOURCE[0] + 128, y + 25, stands, "soft", 12, room=SOURCE[1] - 132)
    return y + 40, (SOURCE[0] + SOURCE[1], y + 20)


def block(canvas: Canvas, y: float, name: str, header: str, bits: Bits) -> tuple[float, Point]:
    """Draws a register. Returns where it ends, and where its summary begins."""
    has_filter = name != status_bits.STANDARD
    heads(canvas, y + 14, name, header, has_filter)
    top, high = y + HEAD, ROW * len(bits) - ROW + CELL
    if has_filter:
        filters(canvas, top, high)
    gate(canvas, OR[0], OR[1], top, high)
    for place, bit in enumerate(sorted(bits, reverse=True)):
        bit_row(canvas, top + ROW * place, bit, bits[bit], has_filter)
    return top + high, (OR[0] + OR[1], top + high / 2)


def blocks(canvas: Canvas, names: Names, bits: Byte) -> tuple[dict[str, float], dict[str, Point]]:
    """Draws all registers and queues below each other. Returns where each begins, and where its summary begins."""
    y: float = 60
    tops: dict[str, float] = {}
    summaries: dict[str, Point] = {}
    stands = {what: names[status_bits.BYTE][bit][1] for bit, what in bits.items()}
    for name, header in ORDER:
        tops[name] = y
        if header is None:
            y, summaries[name] = queue(canvas, y, name, stands[name])
        else:
            y, summaries[name] = block(canvas, y, name, header, names[name])
        y += 26
    return tops, summaries


def byte_y(bit: int) -> float:
    """The height of the middle of a bit of the status byte."""
    return BYTE_TOP + BYTE_ROW * (7 - bit) + BYTE_ROW / 2


def byte_row(canvas: Canvas, bit: int, bits: Byte, said: Bits) -> None:
    """Draws a bit of the status byte, and of its enable register."""
    left, wide = BYTE
    top, middle = BYTE_TOP + BYTE_ROW * (7 - bit), byte_y(bit)
    canvas.box(left, top + 2, wide, BYTE_ROW - 4, "blue" if bit in bits else "room", 3)
    canvas.words(
        left + 16, middle + 5, str(bit), "ink bold" if bit in bits else "soft", 13, "middle"
    )
    if bit not in bits:
        canvas.words(left + 34, middle + 5, "not used", "soft", 12)
        return
    canvas.words(left + 34, middle + 5, said[bit][0], "ink bold", 13, room=wide - 74)
    canvas.words(left + wide - 8, middle + 5, str(2**bit), "soft", 11, "end")
    if bits[bit] is None:
        return
    canvas.way([(left + wide, middle), (MASK[0], middle)])
    cell(canvas, (MASK[0], middle - CELL / 2), MASK[1], bit, "amber")
    canvas.way([(MASK[0] + MASK[1], middle), (LAST[0], middle)])


def status_byte(canvas: Canvas, bits: Byte, said: Bits) -> float:
    """Draws the status byte with its enable register, up to the request."""
    canvas.words(BYTE[0], BYTE_TOP - 26, "status byte", "ink bold", 13)
    canvas.words(BYTE[0], BYTE_TOP - 10, "*STB?, device_readstb", "soft", 11)
    canvas.words(MASK[0] + MASK[1] / 2, BYTE_TOP - 10, "*SRE", "soft fixed", 11, "middle")
    for bit in range(7, -1, -1):
        byte_row(canvas, bit, bits, said)
    summed = [bit for bit, what in bits.items() if what]
    whole = [bit for bit, what in bits.items() if not what]
    if len(whole) != 1 or not min(summed) < whole[0] < max(summed):
        raise Fault(f"{canvas.title}: MSS isn't one bit between others")
    top, end = byte_y(max(summed)) - 18, byte_y(min(summed)) + 18
    gate(canvas, LAST[0], LAST[1], top, end - top)
    y = byte_y(whole[0])
    canvas.way([(LAST[0], y), (BYTE[0] + BYTE[1], y)], "red")
    canvas.words((BYTE[0] + BYTE[1] + LAST[0]) / 2 + 4, y - 6, "MSS", "red bold", 12, "middle")
    return end


def request(canvas: Canvas, end: float, rules: Iterable[str]) -> None:
    """Draws how the service request comes about, by what the page says about polls."""
    left, top = BYTE[0] + 16, 570
    wide = WIDE - 24 - left
    middle = LAST[0] + LAST[1] / 2
    canvas.way([(middle, end), (middle, top)], "red")
    canvas.box(left, top, wide, 150, "red")
    canvas.words(left + 14, top + 24, "RQS, the request for service", "ink bold", 13)
    y: float = top + 46
    for rule in rules:
        y = 4 + canvas.lines(left + 14, y, wrapped(rule, wide - 24), "ink", 12, room=wide - 20)
    canvas.way([(middle, top + 150), (middle, top + 186)], "red")
    canvas.box(left, top + 186, wide, 62, "red")
    canvas.words(left + 14, top + 210, "device_intr_srq", "ink bold", 13)
    canvas.words(
        left + 14,
        top + 230,
        "by interrupt channel, for each link that enabled it",
        "ink",
        11,
        room=wide - 20,
    )


def sums(canvas: Canvas, summaries: Mapping[str, Point], bits: Byte) -> None:
    """Draws the ways from registers and queues to the status byte. Ways that rise keep to the right of those above them."""
    rising = [(start, bit) for bit, name in bits.items() if name for start in [summaries[name]]]
    rising.sort(
        key=lambda one: (
            byte_y(one[1]) > one[0][1],
            one[0][1] if byte_y(one[1]) <= one[0][1] else -one[0][1],
        )
    )
    for place, (start, bit) in enumerate(rising):
        lane = LANES + 12 * place
        canvas.way([start, (lane, start[1]), (lane, byte_y(bit)), (BYTE[0], byte_y(bit))], "blue")


def nested(
    canvas: Canvas,
    tops: Mapping[str, float],
    summaries: Mapping[str, Point],
    names: Names,
    inside: Nested,
) -> None:
    """Draws the ways from a register into a bit of another register's condition."""
    for name, (register, bit) in inside.items():
        start = summaries[name]
        place = sorted(names[register], reverse=True).index(bit)
        y = tops[register] + HEAD + ROW * place + CELL / 2
        between, left = tops[name] - 12, 30
        if not tops[register] < tops[name]:
            raise Fault(f"{canvas.title}: {name} is above {register}")
        turn = start[0] + 14
        canvas.way(
            [start, (turn, start[1]), (turn, between), (left, between), (left, y), (SOURCE[0], y)],
            "blue",
        )


def draw(sources: Sources) -> str:
    names, bits, inside = status_bits.read(sources)
    canvas = Canvas(
        WIDE,
        "Status model",
        "Conditions pass filters and become events; enabled events are summed up in the status"
        " byte, and enabled bits of it request service.",
    )
    canvas.heading("IEEE 488.2, 11; SCPI-1999, volume 2, 20")
    unplaced = sorted(
        (set(filter(None, bits.values())) | set(names))
        - {name for name, _ in ORDER}
        - {status_bits.BYTE}
    )
    if unplaced:
        raise Fault(f"{canvas.title}: there is no place for {', '.join(unplaced)}")
    tops, summaries = blocks(canvas, names, bits)
    end = status_byte(canvas, bits, names[status_bits.BYTE])
    request(canvas, end, status_bits.polling(sources))
    sums(canvas, summaries, bits)
    nested(canvas, tops, summaries, names, inside)
    return canvas.svg()
