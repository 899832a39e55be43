"""The lines that each kind of row has besides calls, replies and requests for service."""
import re
from collections.abc import Sequence

from .lines import Read, Reading, unquoted
from .short import answered, lines_of
from .values import TextError, bytes_of


class Scripts(Reading):
    """Lines of a replay or of events, and what is printed; for each kind that isn't in KINDS.

    `short` has lines that mean several of these. Lines for which the text has no words are copied as they are, after `line` or
    `prints`. `given` means the next line that is asked, as a row of the kind `line by line` prints it.
    """

    WANTED: tuple[str, ...] = ("reply", "request", "refused", "given", "prints")
    BYTES = "bytes %s %s"
    PRINTS = {"reply": "c%s %s", "request": "i%s %s"}
    AS_IT_IS = re.compile(
        r"input \d+ -?\d+|external|tick( \d+)?|clock \d+|times \d+|memory (\d+|\?)|used"
    )
    # A verb, which comes after a connection, and the line of the replay.
    VERBS = {
        "open core": "open %s core",
        "open abort": "open %s abort",
        "open portmap": "open %s portmap",
        "turn": "turn %s",
        "refuse": "refuse %s",
        "close": "close c%s",
        "close channel": "close i%s",
        "dialed ok": "dialed %s ok",
        "dialed failed": "dialed %s failed",
        "ask": "ask %s",
        "show": "show c%s",
        "show channel": "show i%s",
    }
    TOOK = re.compile(r"(\d+) took (\d+)( channel)?")

    def __init__(self, joined: bool = False) -> None:
        super().__init__(joined)
        self.given: list[str] = []  # lines that were asked and that no `given` has taken yet

    def meant(self, line: str) -> list[str]:
        return lines_of(line, self.numbering)

    def asked(self, line: str, more: Sequence[str] = ()) -> list[str]:
        """The lines that are asked."""
        made = self.lines(line, more)
        self.given += made
        return made

    def lines(self, line: str, more: Sequence[str]) -> list[str]:
        connection, _, verb = line.partition(" ")
        took = self.TOOK.fullmatch(line)
        if connection.isdigit() and verb not in self.VERBS and not took:
            return self.sent(connection, [verb, *more])
        plain = self.alone(line, more)
        if took:
            return [f"took {'i' if took[3] else 'c'}{took[1]} {took[2]}"]
        if connection.isdigit():
            if verb == "close" or verb.startswith("open"):
                self.numbering.opened(connection)
            return [self.VERBS[verb] % connection]
        if connection != "line" and not self.AS_IT_IS.fullmatch(line):
            raise TextError("neither asked nor wanted: " + line)
        return [plain]

    def wanted(self, line: str, more: Sequence[str] = ()) -> str:
        """The line that is wanted."""
        kind, _, rest = line.partition(" ")
        if kind in ("reply", "request"):
            return super().wanted(line, more)
        self.alone(line, more)
        if kind == "given":
            return "> " + self.given.pop(0)
        return line if kind == "refused" else unquoted(rest)


class Explained(Scripts):
    """The kind `explain`: a script, and what `scanvolt explain` prints for it.

    `- call c0` means the last call that was sent on connection 0. The bytes of a unit may be in quotes.
    """

    WANTED = Scripts.WANTED + ("@", "-", "=")
    UNIT = re.compile(r"(- (?:unit|interrupt) \d+) (\".*)")

    def __init__(self, joined: bool = False) -> None:
        super().__init__(joined)
        self.last: dict[
            str, str
        ] = {}  # for each connection, the last call that was sent, after the words that tell it

    def called(self, connection: str, line: str) -> tuple[bytes, dict[str, str]]:
        record, beside = super().called(connection, line)
        self.last["- call c" + connection] = f"- call c{connection} {record[4:].hex()}"
        return record, beside

    def wanted(self, line: str, more: Sequence[str] = ()) -> str:
        """The line that is wanted."""
        if line[0] not in "@-=":
            return super().wanted(line, more)
        unit = self.UNIT.fullmatch(line)
        if unit:
            return f"{unit[1]} {bytes_of(unit[2]).hex()}"
        return self.last.get(line, self.alone(line, more))


class Driver(Reading):
    """The kinds `sweeps`, `peers` and `pace`: what a wire answers, and after `> ` what the driver asks it.

    `0 CALL` gives the bytes that are read on connection 0; `peer 0 CALL` is what a peer sends.
    """

    WANTED = ("reply", "request", "gets", ">")
    BYTES = "read %s: %s"
    PRINTS = {"reply": "write c%s %s", "request": "write i%s %s"}
    JOINED = True
    CALL = re.compile(r"(peer )?(\d+) ((?!input |external).*)")

    def asked(self, line: str, more: Sequence[str] = ()) -> list[str]:
        """The lines that are asked."""
        found = self.CALL.fullmatch(line)
        if not found:
            return [self.alone(line, more)]
        return self.sent(found[2], [found[3], *more], "%.0s%s" if found[1] else None)

    def wanted(self, line: str, more: Sequence[str] = ()) -> str:
        """The line that is wanted."""
        kind, _, rest = line.partition(" ")
        if kind == "gets":  # a peer gets it on its connection
            return super().wanted(rest, more).replace("write ", "", 1)
        return unquoted(self.alone(rest, more)) if kind == ">" else super().wanted(line, more)


class Sockets(Reading):
    """The kind `sockets`: what peers do. Each peer is a letter: `a CALL` is what it sends, and `reply a ..` what it waits for.

    `a says "TEXT"` and `answer a "TEXT"` are the same with text. After `> ` comes any other line that is printed.
    """

    WANTED = (">",)
    BYTES = "%s < %s"
    PRINTS = {"reply": "%s %s", "request": "%s %s"}
    # What a peer does other than send a call.
    VERBS = "core abort portmap controls calls refused listens accepts closes before ends silent drains > <".split()
    PEER = re.compile(r"([a-z]) (\S+).*")
    SAYS = re.compile(r"([a-z]) says (.*)")
    POURS = re.compile(r"([a-z] pours \d+) (.*)")

    def meant(self, line: str) -> list[str]:
        peer = self.PEER.fullmatch(line)
        return (
            answered(peer[1], line[2:], self.numbering)
            if peer and peer[2] not in self.VERBS
            else []
        )

    def read_one(self, line: str, more: Sequence[str] = ()) -> Read:
        if line.split(" ", 1)[0] in ("reply", "request"):
            wanted = super().wanted(line, more)
            name, sent = wanted.split(" ")
            return [f"{name} > {len(sent) // 2}"], [wanted]
        if line.startswith("answer "):
            _, name, text = self.alone(line, more).split(" ", 2)
            data = bytes_of(text)
            return [f"{name} > {len(data)}"], [f"{name} {data.hex()}"]
        return super().read_one(line, more)

    def asked(self, line: str, more: Sequence[str] = ()) -> list[str]:
        """The lines that are asked."""
        says = self.SAYS.fullmatch(line)
        if says:
            return [self.BYTES % (says[1], bytes_of(says[2]).hex())]
        pours, peer = self.POURS.fullmatch(line), self.PEER.fullmatch(line)
        if pours:
            return self.sent(pours[1], [pours[2], *more], "%s %s")
        if peer and peer[2] not in self.VERBS:
            return self.sent(peer[1], [line[2:], *more])
        return [self.alone(line, more)]

    def wanted(self, line: str, more: Sequence[str] = ()) -> str:
        """The line that is wanted."""
        return unquoted(self.alone(line[2:], more))


class Parts(Reading):
    """The kind `parts`: `QUESTION -> ANSWER`, a line each; or `QUESTION ->` if nothing is answered."""

    def read_one(self, line: str, more: Sequence[str] = ()) -> Read:
        question, arrow, answer = self.alone(line, more).partition(" ->")
        if not arrow:
            raise TextError("a question without ` ->` and its answer: " + line)
        return [question], ["->" + answer]


# The lines of a row by the first word of its kind.
KINDS: dict[str, type[Reading]] = {
    "explain": Explained,
    "sweeps": Driver,
    "peers": Driver,
    "pace": Driver,
    "sockets": Sockets,
    "parts": Parts,
}
