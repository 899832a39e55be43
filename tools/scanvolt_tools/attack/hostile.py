"""hostile [--results] PROGRAM [SEED] : serves with `PROGRAM serve`, and attacks it with hostile peers.

Sixteen peers that leave while their calls wait, without room or after a fault, must free their
places at once. A peer that sends no more while its call waits must get the reply. Other peers drop
connections within a call, one after the other and sixteen at once, send random bytes and urgent
ones, reset, half-close, refuse and reset interrupt channels, make calls without a pause, and never
read. Clients of the control port send half, long and random lines, flood the port, half-close and
leave. Meanwhile a client that connected before them locks, clears, asks for the name, reads it,
polls and unlocks. It must lose no reply, and at the end all sixteen places must serve again. Then
a replay of the server's record must send what each socket took (recorded.py).
Memory, the idle share of a core and how late a deadline comes are printed, with their aims. These
are for the proved program on a machine with two free cores. A deadline that comes a second late
counts as lost. Status: 0 nothing is lost and no value misses its aim, 1 something is lost, 2 the
server can't be started or results can't be kept, 3 nothing is lost, but a value misses its aim.

The standard library and a C compiler are needed. SEED, a whole number, chooses other random points. With --results
tools/results appends what was found to bench/results/hostile.csv, unless something is lost.
"""
import os
import random
import subprocess
import sys
import tempfile
import time
from collections.abc import Callable, Sequence
from concurrent.futures import ThreadPoolExecutor

from measures import Found
from scanvolt.vxi11 import calls

from ..runnable import runs
from . import control
from .beside import Beside
from .calls import PATIENCE, Lost, Peer
from .crowd import DEADLINES, EACH, PROCESSES, latest
from .peers import (
    FURTHER,
    PLACES,
    TOO_LONG,
    all_gone,
    all_places,
    half_close,
    half_closed,
    interrupt_channel,
    reset_early,
    send_noise,
    urgent,
    visit,
)
from .served import Server, told, whose_aims

VISITS = 1000  # connections that are dropped within a call, in each of two stages
IDLE = 10  # seconds of the idle measure
Stage = Callable[[Server, random.Random, Beside], int]


def one_after_the_other(server: Server, chance: random.Random, _: object) -> int:
    for _ in range(VISITS):
        visit(server, chance)
    return VISITS


def sixteen_at_once(server: Server, chance: random.Random, _: object) -> int:
    waves = -(-VISITS // PLACES)
    with ThreadPoolExecutor(PLACES) as pool:
        for _ in range(waves):
            seeds = [chance.random() for _ in range(PLACES)]
            list(pool.map(lambda seed: visit(server, random.Random(seed)), seeds))
    return waves * PLACES


def repeated(action: Callable[[Server, random.Random], object], count: int) -> Stage:
    """A stage that does this that many times."""

    def stage(server: Server, chance: random.Random, _: object) -> int:
        for _ in range(count):
            action(server, chance)
        return count

    return stage


def without_a_pause(server: Server, _: object, beside: Beside) -> int:
    """Peers make calls that do nothing, again and again, while another call waits in vain."""
    with beside.turn:
        late = latest(server)
    server.found.row(f"the latest of {DEADLINES} deadlines, after it", max(0.0, late))
    return PROCESSES * EACH


def never_reading(server: Server, chance: random.Random, beside: Beside) -> int:
    """Peers send calls and read no reply, until the server reads no more of them."""
    count = 8
    peers = [Peer(server.core, narrow=True) for _ in range(count)]
    nothing = calls.null().encode(1) * 500
    rests = [nothing] * count
    for peer in peers:
        peer.socket.setblocking(False)
    begun = moved = time.monotonic()
    while time.monotonic() < min(begun + 20, moved + 1):
        for place, peer in enumerate(peers):
            try:
                rests[place] = rests[place][peer.socket.send(rests[place]) :] or nothing
                moved = time.monotonic()
            except BlockingIOError:
                pass
        time.sleep(0.002)
    if time.monotonic() < moved + 1:
        print("after 20 s calls were still taken of those that never read", flush=True)
    else:
        with beside.turn:
            # The server still has calls to do that came before.
            for _ in range(40):
                if server.share(0.5) < 3:
                    break
            share = server.share(3)
        server.found.row("share of a core while stuck with peers that never read", share)
    for peer in peers:
        peer.drop(chance)
    return count


def control_port(server: Server, chance: random.Random, _: object) -> int:
    """Clients of the control port attack it, four at a time. After each wave a new client must be served."""
    waves, slowest = 25, 0.0
    with ThreadPoolExecutor(4) as pool:
        for _ in range(waves):
            seeds = [chance.random() for _ in range(4)]
            list(
                pool.map(
                    lambda seed: random.Random(seed).choice(control.ATTACKS)(
                        server, random.Random(seed)
                    ),
                    seeds,
                )
            )
            slowest = max(slowest, control.served(server))
    server.found.row("a new client of the control port is served after", slowest)
    return waves * 4


STAGES: Sequence[tuple[str, Stage]] = (
    ("one after the other", one_after_the_other),
    ("sixteen at once", sixteen_at_once),
    ("random bytes", repeated(send_noise, 300)),
    ("resets", repeated(reset_early, 200)),
    ("half closed", repeated(half_close, 100)),
    ("urgent bytes", repeated(urgent, 100)),
    ("interrupt channels", repeated(interrupt_channel, 200)),
    ("control port", control_port),
    ("without a pause", without_a_pause),
    ("never reading", never_reading),
)


def attack(server: Server, chance: random.Random) -> int:
    found, connections = server.found, 0
    found.head()
    for name, behind in ("without room", FURTHER), ("at fault", TOO_LONG):
        found.row(
            f"sixteen that are gone, {name}: a new client is served after",
            all_gone(server, behind),
        )
    half_closed(server)
    beside = Beside(server.core)
    beside.start()
    try:
        all_places(server)
        before = server.memory()
        found.row("memory before", before)
        for name, stage in STAGES:
            known = beside.replies
            count = stage(server, chance, beside)
            if not server.alive():
                raise Lost(f"the server ended: {server.process.returncode}")
            if beside.fault:
                raise Lost(beside.fault)
            found.row(name + ": connections", count)
            found.row(name + ": replies beside", beside.replies - known)
            connections += count
        all_places(server)
        beside.going = False
        beside.join(2 * PATIENCE)
        if beside.fault or beside.is_alive():
            raise Lost(beside.fault or "the client beside still waits")
        found.row("slowest session beside", 1000 * beside.slowest)
        after = server.memory()
        found.row("memory afterwards", after)
        found.row("memory afterwards, more than before", after - before)
        found.row("share of a core while idle", server.share(IDLE))
        beside.replies += beside.peer.session()
        found.row("connections beside", connections)
        found.row("replies beside", beside.replies)
    finally:
        beside.going = False
    return beside.replies


def main(words: list[str]) -> int:
    kept = words[:1] == ["--results"]
    given = words[kept:]
    if len(given) not in (1, 2) or given[1:] and not given[1].isdigit():
        print("usage: hostile [--results] PROGRAM [SEED]", file=sys.stderr)
        return 2
    if not runs(given[0]):
        return 2
    whose = whose_aims(given[0])
    if whose:
        print("hostile: " + whose, flush=True)
    seed = int(given[1]) if len(given) > 1 else 1
    with tempfile.TemporaryDirectory() as folder:
        try:
            server = Server(os.path.abspath(given[0]), folder, Found("hostile"))
        except (Lost, subprocess.CalledProcessError) as fault:
            print("hostile: the server can't be started:", fault, file=sys.stderr)
            return 2
        try:
            replies = attack(server, random.Random(seed))
            recorded = server.compare()
        except (OSError, Lost) as fault:
            print(f"hostile: seed {seed}: {fault}", file=sys.stderr)
            return 1
        finally:
            server.close()
    print(f"hostile: {recorded}")
    print(f"hostile: {replies} replies beside, none lost; the server goes on")
    if kept and not server.found.keep():
        return 2
    return told("hostile", server.found.missed)
