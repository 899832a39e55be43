"""Calls of two connections that may have been taken the other way round.

A call that came while the server swept was taken in the next sweep, after calls that came later on
connections of lower numbers. A capture doesn't show the order in which waiting calls were taken, as for the lock.
"""

from __future__ import annotations

from collections.abc import Iterator

from .flows import Flow, Point, Reply, reply_at

NEAR = 3_000_000  # such calls came at most this many nanoseconds apart


def turn_of(points: list[Point], flow: Flow, place: int) -> str | None:
    """The line that takes the call of a reply, if the flow is that of a connection."""
    return next(
        (
            "turn " + name[1:]
            for name, one in points[place].owners.items()
            if one is flow and name[0] == "c"
        ),
        None,
    )


def ahead(
    points: list[Point], found: dict[int, bytearray], place: int, own: Flow
) -> Iterator[tuple[Flow, Reply]]:
    """Replies that the replay sent before this point and that come later in the capture."""
    due: dict[int, int] = {}
    for point in points[: place + 1]:
        for flow, count in point.due:
            due[id(flow)] = count
    flows = {id(one): one for one in points[place].owners.values()}
    for key, flow in flows.items():
        if flow is not own and len(found.get(key, b"")) > due.get(key, 0):
            reply = reply_at(flow, due.get(key, 0))
            if reply is not None:
                yield flow, reply


def later(
    points: list[Point], found: dict[int, bytearray], place: int, own: Flow, reply: Reply | None
) -> Iterator[None]:
    """Moves a call that the replay answered too early after the call of `own` whose reply differs at this
    point. Yields one trial after the other; each is undone before the next.
    """
    line = reply and turn_of(points, own, reply.turn)
    if reply is None or not line:
        return
    target = points[reply.turn]
    for flow, other in list(ahead(points, found, place, own)):
        source, moved = points[other.turn], turn_of(points, flow, other.turn)
        near = 0 <= target.time - source.time <= NEAR and other.turn <= reply.turn < other.due
        if not near or moved not in source.lines or line not in target.lines:
            continue
        kept, turn = (list(source.lines), list(target.lines)), other.turn
        source.lines.remove(moved)
        target.lines.insert(target.lines.index(line) + 1, moved)
        other.turn = reply.turn
        yield
        other.turn = turn
        source.lines[:], target.lines[:] = kept
