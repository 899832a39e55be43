"""Values of the text: bytes in quotes, numbers, and words for numbers.

Bytes are pieces joined by `+`: `"text"` with the escapes of Python, or `hex"80 00"`. `N*` before a piece repeats
it.
"""
import re
from collections.abc import Mapping

PIECE = re.compile(r'(?:(\d+)\*)?(hex)?"((?:\\.|[^"\\])*)"')
WORD = re.compile(r'(?:[^\s"]|"(?:\\.|[^"\\])*")+')
ESCAPES = {"n": "\n", "r": "\r", "t": "\t"}
NAMED = {character: "\\" + letter for letter, character in ESCAPES.items()}
SHORTEST = 64  # bytes that a repetition has at least
LONGEST_PERIOD = 64
SEPARATORS = b"\n;, "  # a repeated text ends with the first of these that it has


class TextError(ValueError):
    """A line that can't be read."""


def split(line: str) -> list[str]:
    """The words of a line. A blank within quotes separates none."""
    left = WORD.sub("", line).strip()
    if left:
        raise TextError("a quote without its end: " + line)
    return WORD.findall(line)


def _unescaped(match: re.Match[str]) -> str:
    text = match[0]
    if text[1] == "x":
        return chr(int(text[2:], 16))
    return ESCAPES.get(text[1], text[1])


def bytes_of(text: str) -> bytes:
    """The bytes that a value describes."""
    place, data = 0, b""
    while True:
        found = PIECE.match(text, place)
        if not found:
            raise TextError("no bytes in quotes: " + text)
        count, is_hex, inner = found.groups()
        try:
            piece = (
                bytes.fromhex(inner)
                if is_hex
                else re.sub(r"\\(?:x[0-9a-f]{2}|.)", _unescaped, inner).encode("latin-1")
            )
        except ValueError:
            raise TextError("no bytes: " + found[0]) from None
        data += piece * int(count or 1)
        place = found.end()
        if place == len(text):
            return data
        if text[place] != "+":
            raise TextError("no + between two pieces: " + text)
        place += 1


def _spelled(byte: int) -> str:
    character = chr(byte)
    if character in '"\\':
        return "\\" + character
    return character if 32 <= byte < 127 else NAMED.get(character, f"\\x{byte:02x}")


def _piece(data: bytes) -> str:
    plain = sum(32 <= byte < 127 or byte in b"\r\n\t" for byte in data)
    if plain * 2 < len(data):
        return f'hex"{data.hex()}"'
    return f'"{"".join(map(_spelled, data))}"'


def _repeated(data: bytes, place: int) -> tuple[int, int]:
    """What repeats at a place: how many bytes, and how often. Of several repetitions, the one that reaches farthest."""
    best = (0, 0)
    for period in range(1, min(LONGEST_PERIOD, (len(data) - place) // 3) + 1):
        unit, count = data[place : place + period], 1
        while data.startswith(unit, place + period * count):
            count += 1
        if count > 2 and count * period >= max(SHORTEST, best[0] * best[1] + 1):
            best = (period, count)
    return best


def _shifted(data: bytes, place: int, period: int, count: int) -> tuple[int, int]:
    """The same repetition, shifted so that it begins after a separator."""
    for separator in SEPARATORS:
        for shift in range(period):
            if data[place + shift + period - 1] == separator:
                return shift, count - (shift > 0)
    return 0, count


def text_of(data: bytes) -> str:
    """The value that describes these bytes."""
    pieces: list[str] = []
    plain, place = b"", 0
    while place < len(data):
        period, count = _repeated(data, place)
        if not count:
            plain += data[place : place + 1]
            place += 1
            continue
        shift, count = _shifted(data, place, period, count)
        plain, place = plain + data[place : place + shift], place + shift
        pieces += [_piece(plain)] * bool(plain)
        pieces.append(f"{count}*{_piece(data[place : place + period])}")
        plain, place = b"", place + period * count
    if plain or not pieces:
        pieces.append(_piece(plain))
    return "+".join(pieces)


def number_of(text: str, names: Mapping[str, int] | None = None) -> int:
    """A number: decimal, hexadecimal after 0x, or a sum of words for numbers."""
    total = 0
    for word in text.split("+"):
        if names and word in names:
            total += names[word]
        elif re.fullmatch(r"-?\d+|0x[0-9a-f]+", word):
            total += int(word, 0)
        else:
            raise TextError("no number: " + text)
    return total


def word_of(number: int, names: Mapping[str, int]) -> str:
    """The name of a number, or the number if it has none."""
    found = [name for name, value in names.items() if value == number]
    return found[0] if found else plain_number(number)


def sum_of(number: int, names: Mapping[str, int]) -> str:
    """The names of a number's bits, or the number if a bit has none."""
    words = [name for name, value in names.items() if number & value]
    return (
        "+".join(words)
        if words and sum(names[word] for word in words) == number
        else plain_number(number)
    )


def plain_number(number: int) -> str:
    return f"{number}" if number < 2**24 else f"0x{number:x}"
