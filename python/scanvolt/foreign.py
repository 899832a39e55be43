"""What editors on Windows add to the lines of a scenario, and scanvolt refuses: carriage returns and byte order marks."""

from __future__ import annotations

import codecs

__tracebackhide__ = True  # pytest shows the line that calls the package, and not these frames
Fault = tuple[int, bytes, str]  # the number of a line, the line, and what is wrong with it
MARK = "the file begins with a byte order mark; save it as UTF-8 without one"
WIDE = "the file is UTF-16 text, as some programs on Windows write it; save it as UTF-8 without a byte order mark"
RETURN = (
    "it ends in a carriage return, as a line on Windows does%s; `sed -i 's/\\r$//' %s` removes it"
)


def without_additions(data: bytes, name: str) -> tuple[list[bytes], list[Fault]]:
    """The lines of a file of this name, without what editors add, and what they add: each kind once, at its first line."""
    lines = data.split(b"\n")
    if data.startswith((codecs.BOM_UTF16_LE, codecs.BOM_UTF16_BE)):
        return [], [(1, lines[0], WIDE)]
    faults: list[Fault] = []
    if data.startswith(codecs.BOM_UTF8):
        faults.append((1, lines[0], MARK))
        lines[0] = lines[0][len(codecs.BOM_UTF8) :]
    ended = [number for number, line in enumerate(lines, 1) if line.endswith(b"\r")]
    if ended:
        first, others = ended[0], len(ended) - 1
        if others == 1:
            also = ", and so does a line after it"
        elif others:
            also = f", and so do {others} lines after it"
        else:
            also = ""
        faults.append((first, data.split(b"\n")[first - 1], RETURN % (also, name)))
        lines = [line[:-1] if line.endswith(b"\r") else line for line in lines]
    return lines, faults
