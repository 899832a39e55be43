"""Replays a session with `scanvolt serve` from its capture.

    scanvolt-capture compare CAPTURE [--scenario FILE] [--start SECONDS]
    scanvolt-capture virtual CAPTURE [--scenario FILE] [--start SECONDS]
    scanvolt-capture recorded CAPTURE --record FILE
    scanvolt-capture script CAPTURE > session.replay
    scanvolt-capture explain CAPTURE [OPTIONS OF scanvolt-explain]

CAPTURE is a pcap or pcapng file, as `tshark -i lo -f tcp -w CAPTURE` writes it; start that before the
server. `script` writes the script of docs/REPLAY.md with which `scanvolt replay` repeats the session.
`compare` replays it and compares each reply, and each call on an interrupt channel, byte by byte. It shows
the first reply or call that differs: the bytes around the place, and their text. `virtual` does what
`compare` does, and then makes the same calls by `scanvolt.virtual`: the replies have to be the same bytes,
and the service requests the same ones in the same order. `recorded` takes the record that the server kept of
this session, replays it with the server's ports, and compares what that sends with what the sockets took, on each
connection and each interrupt channel; it tries nothing else. `explain` says what happened, as `scanvolt-explain`
does; `scanvolt-capture explain --help` has its options. All five need `tshark`, from Debian's package of
that name; it also puts the bytes of each connection together.

These are exact: the bytes of each connection, the order of calls and replies, and who closes what. Ports in
the replies of create_link and GETPORT are shown as 4096 and 4097, as a replay has them.

Ticks aren't exact, since a capture has none. They are put where the times of the packets and --start
suggest, which may be wrong by one or two milliseconds. Some replies depend on that: those that show whether
a scan, an entry of the scenario or a deadline had come, such as a status byte, the error of a timeout, or a
live voltage. So `compare` tries other ticks at the call whose reply differs, up to --slack milliseconds
off. With a scenario, and without --start or with --other-starts, it also tries other starts of the server:
each up to 100 milliseconds off; and of those farther off, the ones at which a line of the scenario comes
about the time of that reply, up to 150 for triggers and 150 for voltages. It prints the first difference
before it tries anything, tries for at most a minute for each difference, and says what it tries and what it
moved. Give the start that `make serve` prints. If the calls of two connections came within 3 milliseconds and
waited, as for the lock, it tries the other order. With --slack 0 it moves nothing; nor does `script` without
--program. A server that stood still for more than a second lost the rest of that time, which a
capture doesn't show. Replies that the replay sends in the last 50 milliseconds of the capture may be
missing in the capture, which may have ended between a call and its reply: they count as equal.

If its peer closed an interrupt channel, the channel counts as closed after a reply says so. A channel whose
connection isn't in the capture isn't compared; the reply to its call says whether it was made.

Status: 0 a script was written, or all replies are equal; 1 a reply differs; 2 it can't be done: the file
isn't a capture, is cut off or lacks bytes; tshark is missing; --start is far from the first packet; or the
program that replays ends early. Standard error has the reason then.
"""

from __future__ import annotations

import argparse
import sys

from ..program import ProgramError, find_program
from ..vxi11.calls import PORT
from . import recorded
from .compare import Comparison
from .packets import Fault, moment, nanoseconds, packets
from .script import Scheduled, scenario, script
from .session import Session
from .streams import streams
from .telling import Telling, say
from .told import lacks_voltages, moves, start_of, summary
from .virtually import Again

NAME = "scanvolt-capture"
FAR = 60 * 10**9  # nanoseconds between the start and the first packet that are probably wrong


def words(given: list[str] | None) -> argparse.Namespace:
    """The arguments of the command line."""
    parser = argparse.ArgumentParser(
        prog=NAME, description=__doc__, formatter_class=argparse.RawDescriptionHelpFormatter
    )
    parser.add_argument("mode", choices=("script", "compare", "virtual", "recorded", "explain"))
    parser.add_argument("capture", metavar="CAPTURE")
    parser.add_argument(
        "--program",
        help="the scanvolt that replays. Without it, `compare` and `virtual` take the one "
        "that SCANVOLT, PATH or the checkout has, and `script` moves no ticks; with it, `script` "
        "compares too, and writes the ticks that it moved",
    )
    parser.add_argument("--scenario", help="the scenario of the session")
    parser.add_argument(
        "--record", metavar="FILE", help="of `recorded`: what the server wrote by its own --record"
    )
    parser.add_argument(
        "--start",
        help="when the server was ready, in seconds since 1970; "
        "without it, the time of the first packet",
    )
    parser.add_argument(
        "--other-starts",
        action="store_true",
        help="tries other starts too, near and far, if --start is given",
    )
    parser.add_argument(
        "--far-start",
        action="store_true",
        help="takes --start also if it is more than a minute from the "
        "first packet, as of a server that no client asked for so long",
    )
    parser.add_argument(
        "--slack",
        type=int,
        default=3,
        help="how many milliseconds ticks may be moved; 3 without it",
    )
    parser.add_argument(
        "--core", type=int, default=4096, help="the port of the core channel; 4096 without it"
    )
    parser.add_argument(
        "--abort", type=int, default=4097, help="the port of the abort channel; 4097 without it"
    )
    parser.add_argument(
        "--portmap", type=int, help=f"the port of the port mapper; {PORT} or 4111 without it"
    )
    found = parser.parse_args(given)
    if (found.mode == "recorded") != (found.record is not None):
        parser.error("`recorded` needs --record FILE, and only that does")
    return found


def session_of(given: argparse.Namespace) -> Session:
    """The session of the capture."""
    portmap = {given.portmap} if given.portmap else {PORT, 4111}
    ports: dict[str, set[int]] = {"core": {given.core}, "abort": {given.abort}, "portmap": portmap}
    start = nanoseconds(given.start) if given.start else None
    server = {port for found in ports.values() for port in found}
    found = packets(given.capture)
    end = max((packet.time for packet in found), default=0)
    session = Session(
        streams(given.capture, found, server), ports, end, start, given.mode == "recorded"
    )
    if not session.connections:
        raise Fault(
            f"the capture has no connection to the ports {', '.join(map(str, sorted(server)))}"
        )
    gap = session.points[0].time
    if abs(gap) > FAR and not given.far_start:
        side, first = "before" if gap > 0 else "after", moment(session.start + gap)
        raise Fault(
            f"--start {given.start} is {moment(abs(gap))} s {side} the first packet of the session, "
            f"which came at {first}; --far-start takes it"
        )
    return session


def compare(session: Session, entries: list[Scheduled], given: argparse.Namespace) -> int:
    """Compares, and prints the outcome. Returns the status."""
    comparison = Comparison(session, entries, given.program or find_program(), given.other_starts)
    telling = Telling(session, given.slack)
    difference, ticks = comparison.settle(given.slack, telling)
    if difference is None:
        telling.begin()
        say(["capture: all equal in the replay, " + moves(comparison, ticks)])
        return again(session, ticks, given) if given.mode == "virtual" else 0
    telling.remains(difference, comparison)
    if entries:
        say(["capture: " + start_of(comparison)])
    elif lacks_voltages(difference) and not given.scenario:
        say(["capture: without --scenario all inputs are 0 V; give the scenario of the session"])
    return 1


def again(session: Session, ticks: list[int], given: argparse.Namespace) -> int:
    """Makes the same calls in virtual time, and prints the outcome. Returns the status."""
    found = Again(session, ticks, given.program, given.scenario)
    told_again = found.differences()
    say(["capture: " + line for line in told_again or [found.summary()]])
    return 1 if told_again else 0


def record(session: Session, given: argparse.Namespace) -> int:
    """Compares the capture with the server's record, and prints the outcome. Returns the status."""
    found = recorded.replayed(
        given.program or find_program(), recorded.read(given.record), (given.core, given.abort)
    )
    differ = list(recorded.differences(session, found))
    say(
        [
            ("" if line.startswith(" ") else "capture: ") + line
            for line in differ or [recorded.summary(session)]
        ]
    )
    return 1 if differ else 0


def main(given_words: list[str] | None = None) -> int:
    """Runs the command. Returns its status."""
    own = sys.argv[1:] if given_words is None else given_words
    if own[:1] == ["explain"]:
        from ..explaining.command import main as explain

        return explain(own[1:], NAME + " explain")
    given = words(given_words)
    try:
        entries = scenario(given.scenario) if given.scenario else []
        session = session_of(given)
        if given.mode == "recorded":
            return record(session, given)
        if given.mode != "script":
            return compare(session, entries, given)
        print("capture: " + summary(session), file=sys.stderr)
        ticks = [point.ticks for point in session.points]
        if given.program:
            ticks = Comparison(session, entries, given.program).settle(given.slack)[1]
        say(script(session.points, ticks, entries))
        return 0
    except (Fault, ProgramError) as fault:
        print(f"{NAME}: {fault}", file=sys.stderr)
        return 2
    except KeyboardInterrupt:
        return 130
