"""Why a value is what it is: the newest change, who did it, and on what it rests; as a tree."""

from __future__ import annotations

from .asked import Asked, Unknown, asked
from .lines import Step, Value, as_number
from .model import MASTER, RQS, Model, Node
from .reasons import Reasons
from .story import Call, Wait, call_words
from .tables import SUMS
from .telling import numbers, shown
from .tries import Tried
from .words import LABELS, NAMES, SOURCES, bits, channels, error, millis, reading, volts


class Why:
    """Answers why. `tried` is what ended the waits at the end when it was tried."""

    def __init__(self, reasons: Reasons, tried: Tried | None = None) -> None:
        self._reasons, self._tried = reasons, tried
        self._doers = reasons.doers
        self._telling = reasons.telling
        self._story = reasons.story
        self._lines = reasons.lines
        self.model = Model(self._doers)

    def tree(self, text: str) -> Node:
        """The tree for a name and a moment. Raises Unknown."""
        one = asked(text)
        number = self._number(one)
        if one.name.startswith("wait "):
            return self._wait(one.name[5:], number)
        if one.bit is not None:
            return self.bit(one.name, one.bit, number)
        if one.name in NAMES:
            value = self._lines.bits(one.name, number)
            return Node(
                f"{LABELS[one.name]} is {value}",
                None,
                [self.bit(one.name, bit, number) for bit in range(15, -1, -1) if value >> bit & 1],
            )
        return self.errors(number) if one.name == "errors" else self.plain(one.name, number)

    def _number(self, one: Asked) -> int:
        """The newest step at or before a moment."""
        if one.clock is None and one.line is None:
            return self._story.end
        return next(
            (
                step.number
                for step in reversed(self._lines.steps)
                if (
                    step.moment.clock <= one.clock
                    if one.clock is not None
                    else step.moment.line <= (one.line or 0)
                )
            ),
            -1,
        )

    def bit(self, name: str, bit: int, number: int, lacks: bool = True) -> Node:
        """Why a bit is what it is; for a clear one also who had set it, and what it lacks."""
        node = self.model.bit(name, bit, number)
        if self._lines.bits(name, number) >> bit & 1:
            return node
        before = None if node.step is None else self.model.flip(name, bit, node.step.number - 1, 1)
        if before is not None:
            node.children.append(
                Node(
                    f"it had been set at {self._doers.by(before.step)}",
                    before.step,
                    self.model.causes(name, bit, 1, before, 1),
                )
            )
        if lacks:
            node.children += self._lacks(name, bit, number)
        return node

    def _lacks(self, name: str, bit: int, number: int) -> list[Node]:
        """What a bit that is clear lacks to be set."""
        if name == "poll" and bit == RQS:
            event, enable, labels = "stb", "sre", ("STB", "SRE")
        elif (name, bit) in SUMS:
            (event, enable) = SUMS[name, bit]
            labels = (LABELS[event], LABELS[enable])
        else:
            return []
        has, wants = (
            self._lines.bits(one, number) & (~MASTER if bit == RQS else -1)
            for one in (event, enable)
        )
        said = "; ".join(
            f"{label} has {', '.join(bits(one, value)) or 'nothing'}"
            for label, one, value in zip(labels, (event, enable), (has, wants))
        )
        if bit == RQS and has & wants:
            stayed = ", ".join(bits("stb", has & wants))
            return [
                Node(
                    f"{said}: {stayed} stayed set at the poll, and only a bit that is newly set, or newly enabled, requests again"
                )
            ]
        node = Node(f"{said}: no bit is in both")
        if bit == RQS:
            node.children = [
                Node(f"to get {self.model.title('poll', one)}: {lack.text}")
                for one in range(8)
                if wants >> one & 1
                for lack in self._lacks("poll", one, number)
            ]
        return [node]

    def errors(self, number: int) -> Node:
        """Which step put each error of the queue there."""
        queue = numbers(self._lines.at("errors", number))
        if queue:
            rows = zip(queue, self._origins(number))
            count = "1 error" if len(queue) == 1 else f"{len(queue)} errors"
            return Node(
                f"{count} in the queue, the oldest first",
                None,
                [Node(f"{error(one)}: {self._doers.by(step)}", step) for one, step in rows],
            )
        change = self._lines.last("errors", number)
        if change is None:
            return Node("the error queue is empty, and was so at power on")
        node = Node(
            f"the error queue has been empty since {self._doers.by(change.step)}", change.step
        )
        before = self._lines.last(
            "errors", number, lambda one: len(numbers(one.new)) > len(numbers(one.old))
        )
        if before is not None:
            last = error(numbers(before.new)[-1])
            node.children.append(
                Node(f"the last error was {last}: {self._doers.by(before.step)}", before.step)
            )
        return node

    def _origins(self, number: int) -> list[Step]:
        """The steps that put the errors of the queue there."""
        found: list[Step] = []
        for change in self._lines.history.get("errors", ()):
            old, new = numbers(change.old), numbers(change.new)
            if change.step.number > number:
                break
            if new[: len(old)] == old:
                found += [change.step] * (len(new) - len(old))
            elif new == old[len(old) - len(new) :]:
                found = found[len(old) - len(new) :]
            else:
                found = found[: len(new) - 1] + [change.step]
        return found

    def plain(self, name: str, number: int) -> Node:
        """A value that isn't a register."""
        value, change = self._lines.at(name, number), self._lines.last(name, number)
        if change is None:
            return Node(self._said(name, value) + ", and was so at power on")
        said = self._said(name, value, "has been", "has had", "has held")
        node = Node(f"{said} since {self._doers.by(change.step)}", change.step)
        if name == "lock":
            node.children = self._lock(value, change.step, number)
        elif name == "state" and value != "idle":
            node.children = [self.plain("source", number)] if value == "waiting" else []
            node.children.append(Node(self._reasons.scan(number)))
        elif name == "held" and value != "none":
            node.children = [self.plain("state", number)]
        return node

    def _said(
        self, name: str, value: Value, be: str = "is", has: str = "has", holds: str = "holds"
    ) -> str:
        """A value in words, with these verbs."""
        if name == "lock":
            if value == "none":
                return f"the lock {be} free"
            return f"{self._telling.link(int(str(value)))} {holds} the lock"
        if name == "reading":
            return f"there {be} no reading" if value == "none" else reading(value)
        if name in ("range", "upper", "lower"):
            return f"{name} {be} {volts(as_number(value))}"
        return {
            "held": f"{'no' if value == 'none' else 'a'} unit {be} held",
            "state": f"the scan {be} {value}",
            "source": f"the trigger source {be} {SOURCES.get(str(value), value)}",
            "list": f"the scan list {be} {channels(value)}",
            "response": f"the response {has} {value} bytes",
        }.get(name, f"{name} {be} {shown(value)}")

    def _lock(self, value: Value, step: Step, number: int) -> list[Node]:
        """Who waits for the lock, or who held it before."""
        if value != "none":
            waiting = [
                one
                for one in self._story.calls
                if any(wait.what == "lock" and wait.is_on(number) for wait in one.waits)
            ]
            return [
                Node(
                    f"{call_words(one)} has waited for it since {millis(one.waits[0].begin.moment.clock)}",
                    one.waits[0].begin,
                )
                for one in waiting
            ]
        before = self._lines.last("lock", step.number - 1)
        if before is None or before.new == "none":
            return []
        link, doer = self._telling.link(int(str(before.new))), self._doers.by(before.step)
        return [Node(f"before, {link} had held it since {doer}", before.step)]

    def _wait(self, port: str, number: int) -> Node:
        """Why the newest call of a connection waits, or waited."""
        call, wait = self._newest(port, number)
        over = wait.end is not None and wait.end.number <= number
        most = f", until {millis(wait.deadline)} at most" if wait.deadline is not None else ""
        node = Node(f"{call.who}: {self._reasons.headline(call, wait, over)}{most}", wait.begin)
        parent = node
        for reason in self._reasons.why(wait, wait.begin.number if over else number, over):
            parent.children.append(Node(reason))
            parent = parent.children[-1]
        if over and wait.end is not None:
            node.children.append(
                Node(f"it ended at {self._doers.by(wait.end)}: {call.reply.words}", wait.end)
            )
        elif self._tried is not None and wait.end is None:
            node.children.append(
                Node(
                    "would end it",
                    None,
                    [Node(str(one)) for one in self._tried.of(call) if one.is_end],
                )
            )
        return node

    def _newest(self, port: str, number: int) -> tuple[Call, Wait]:
        """The newest call of a connection that waited, and its wait."""
        found = [
            (one, wait)
            for one in self._story.calls
            if f"c{one.conn}" == port
            for wait in one.waits
            if wait.begin.number <= number
        ]
        if not found:
            raise Unknown(f"no call of {port} waited")
        return max(found, key=lambda pair: pair[1].begin.number)


def drawn(node: Node, lead: str = "", first: bool = True) -> list[str]:
    """A tree as lines."""
    found = [node.text] if first else []
    for place, child in enumerate(node.children):
        final = place == len(node.children) - 1
        found.append(lead + ("`- " if final else "|- ") + child.text)
        found += drawn(child, lead + ("   " if final else "|  "), False)
    return found
