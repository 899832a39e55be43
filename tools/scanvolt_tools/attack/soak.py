"""soak [--results] PROGRAM [MINUTES [SEED]] : serves with `PROGRAM serve` while hostile peers attack it.

Eight attackers at once connect, reset, half-close, never read, send garbage, hold the lock and leave, ask for
interrupt channels that refuse or vanish, fill a channel with 32 calls, and attack the control port. Meanwhile two clients must lose
nothing. One has had a link since before the attack: it locks, clears, asks, reads, polls and unlocks, and must
get each reply. The other causes service requests again and again, and must get each of them. At the end, memory
and file descriptors are compared with those after the first minute: memory may be at most 256 KiB more, and the
descriptors have to be as many. The idle share of a core is printed for the beginning and the end, with its aim,
which is that of the proved program.

Then two runs of a minute follow: one under a limit of 32 file descriptors, and one in which memory is used up
every other second. In both, create_link and create_intr_chan may be refused, but the server has to go on.
After each run, a replay of the server's record must send what each socket took (recorded.py).
Status: 0 nothing is lost and no value misses its aim, 1 something is lost, 2 the server can't be started or
results can't be kept, 3 nothing is lost, but a value misses its aim. MINUTES is 15 if not said. The standard
library and a C compiler are needed. SEED chooses other random points.
"""
import os
import random
import signal
import socket
import subprocess
import sys
import tempfile
import threading
import time
from collections.abc import Callable
from concurrent.futures import ThreadPoolExecutor

from measures import Found
from scanvolt.vxi11 import words
from scanvolt.vxi11.errors import NOT_ESTABLISHED, OUT_OF_RESOURCES

from ..runnable import runs
from . import control, peers
from .beside import Beside, Requests
from .calls import PATIENCE, Dropped, Lost, NoRoom, Peer
from .served import Server, library, told, whose_aims

WORKERS = 8
FIRST = 60  # seconds until memory and descriptors are first measured
LIMITED = 60  # seconds of each run under a limit
IDLE = 10  # seconds of the idle measure
MOST = 256  # KiB by which memory may grow
DESCRIPTORS = 32
ACTIONS = (
    peers.visit,
    peers.visit,
    peers.visit,
    peers.send_noise,
    peers.reset_early,
    peers.half_close,
    peers.interrupt_channel,
    peers.interrupt_channel,
    peers.take_the_lock,
    peers.take_the_lock,
    peers.fill_channel,
    peers.never_read,
    *control.ATTACKS,
)


class Attack:
    """A server, the clients that behave, and what came of those that attack it. `name` is that of the run."""

    def __init__(self, server: Server, seed: int, name: str) -> None:
        self.server, self.name = server, name
        self.chance = random.Random(seed)
        self.beside, self.requests = Beside(server.core), Requests(server.core)
        self.counts: dict[str, int] = {}
        self.refused = 0
        self.lost: str | None = None

    def work(self, seed: float, end: float) -> None:
        """Makes one attack after the other until `end`."""
        chance = random.Random(seed)
        while time.monotonic() < end and self.fault() is None:
            action = chance.choice(ACTIONS)
            self.counts[action.__name__] = self.counts.get(action.__name__, 0) + 1
            try:
                action(self.server, chance)
            except NoRoom:
                self.refused += 1
            except Lost as fault:
                self.lost = f"{action.__name__}: {fault}"
            except (OSError, Dropped):
                pass  # it was the seventeenth connection, or its bytes weren't a call

    def fault(self) -> str | None:
        """What went wrong; None if nothing did."""
        status = self.server.process.poll()
        ended = None if status is None else f"the server ended: {status}"
        return ended or self.beside.fault or self.requests.fault or self.lost

    def check(self) -> None:
        fault = self.fault()
        if fault is not None:
            raise Lost(fault)

    def go_on(self, seconds: float) -> None:
        """Attacks for this many seconds."""
        end = time.monotonic() + seconds
        with ThreadPoolExecutor(WORKERS) as pool:
            for _ in range(WORKERS):
                pool.submit(self.work, self.chance.random(), end)
        self.check()

    def rest(self) -> tuple[int, int, float]:
        """The memory, the descriptors and the idle share of a core, while all clients are silent."""
        with self.beside.turn, self.requests.turn:
            time.sleep(1)
            share = self.server.share(IDLE)
            return self.server.memory(), self.server.descriptors(), share

    def row(self, name: str, value: float) -> None:
        """Prints a value of this run."""
        self.server.found.row(f"{self.name}: {name}", value)

    def start(self) -> None:
        self.beside.start()
        self.requests.start()

    def end(self) -> str:
        """Lets the clients that behave come to an end, and returns what they got."""
        self.beside.going = self.requests.going = False
        for client in (self.beside, self.requests):
            client.join(2 * PATIENCE)
        self.check()
        if self.beside.is_alive() or self.requests.is_alive():
            raise Lost("a client beside still waits")
        self.row("replies beside", self.beside.replies)
        self.row("requests for service beside", self.requests.asked)
        return f"{self.beside.replies} replies and {self.requests.asked} requests beside, none lost"


def soak(attack: Attack, minutes: float) -> str:
    """Makes the long run."""
    attack.row("minutes", minutes)
    attack.row("share of a core while idle, at the beginning", attack.rest()[2])
    attack.start()
    peers.all_places(attack.server, taken=2)
    attack.go_on(FIRST)
    memory, descriptors, _ = attack.rest()
    attack.row("memory after the first minute", memory)
    attack.go_on(max(0, 60 * minutes - FIRST))
    after, others, share = attack.rest()
    attack.row("memory at the end, more than that", after - memory)
    attack.row("file descriptors after the first minute", descriptors)
    attack.row("file descriptors at the end, more than that", others - descriptors)
    attack.row("share of a core while idle, at the end", share)
    peers.all_places(attack.server, taken=2)
    came = attack.end()
    attack.row("attacks", sum(attack.counts.values()))
    for name, count in sorted(attack.counts.items()):
        attack.row("attacks, " + name, count)
    if attack.refused:
        raise Lost(f"{attack.refused} links were refused")
    if after - memory > MOST or others != descriptors:
        raise Lost("memory or file descriptors grew")
    return came


def few_descriptors(attack: Attack, _: object) -> str:
    """Makes a run under a limit of file descriptors. First all peers ask for channels, so that the limit is reached."""
    server = attack.server
    server.refusals = (NOT_ESTABLISHED,)
    attack.start()
    held: list[Peer] = []
    listeners: list[socket.socket] = []
    met = 0
    for _ in range(peers.PLACES - 2):
        peer = Peer(server.core)
        held.append(peer)
        listener = socket.create_server(("127.0.0.1", 0))
        listeners.append(listener)
        try:
            peer.make_link()
            found = peer.result(peers.remote(listener))
            met += found == words(NOT_ESTABLISHED)
        except OSError:  # it isn't accepted while no descriptor is free
            met += 1
            break
    for one in [*(peer.socket for peer in held), *listeners]:
        one.close()
    if not met:
        raise Lost(
            f"{len(held)} channels were open at once, under a limit of {DESCRIPTORS} descriptors"
        )
    attack.go_on(LIMITED)
    server.refusals = ()
    peers.all_places(server, taken=2)
    return attack.end()


def scarce_memory(attack: Attack, stop: threading.Event) -> str:
    """Makes a run in which memory is used up every other second. First a link is refused, and the same connection
    gets it when there is memory again."""
    server = attack.server
    attack.start()
    with Peer(server.core) as peer:
        made = refused = 0
        while made < 7:
            server.process.send_signal(signal.SIGUSR1)
            time.sleep(0.05)
            try:
                peer.make_link()
            except NoRoom:
                refused += 1
                server.process.send_signal(signal.SIGUSR2)
                time.sleep(0.05)
                peer.make_link()
            made += 1
        attack.row("links that were refused, and made after that", refused)
        if not refused:
            raise Lost("no link was refused")
    server.refusals = (OUT_OF_RESOURCES,)
    toggles = threading.Thread(target=use_up, args=(server, stop), daemon=True)
    toggles.start()
    attack.go_on(LIMITED)
    stop.set()
    toggles.join()
    server.process.send_signal(signal.SIGUSR2)
    server.refusals = ()
    time.sleep(0.1)
    peers.all_places(server, taken=2)
    return attack.end()


def use_up(server: Server, stop: threading.Event) -> None:
    number = signal.SIGUSR1
    while not stop.wait(1):
        server.process.send_signal(number)
        number = signal.SIGUSR1 if number == signal.SIGUSR2 else signal.SIGUSR2


def takes_memory_here(program: str) -> bool:
    """Whether the program takes its memory from the C library, as a proved program does."""
    symbols = subprocess.run(
        ["nm", "-D", "--undefined-only", program], stdout=subprocess.PIPE, check=True
    )
    return b" malloc" in symbols.stdout


def run(title: str, name: str, server: Server, seed: int, play: Callable[[Attack], str]) -> int:
    """Makes one run. Returns its status."""
    print("soak: " + title, flush=True)
    begun = len(server.found.missed)
    try:
        came = play(Attack(server, seed, name))
        recorded = server.compare()
    except (OSError, Lost) as fault:
        print(f"soak: seed {seed}: {fault}", file=sys.stderr)
        return 1
    finally:
        server.close()
    print(f"soak: {recorded}", flush=True)
    print(f"soak: {came}; the server goes on", flush=True)
    return told("soak", server.found.missed[begun:])


def main(words: list[str]) -> int:
    kept = words[:1] == ["--results"]
    given = words[kept:]
    try:
        minutes = float(given[1]) if len(given) > 1 else 15
        seed = int(given[2]) if len(given) > 2 else 1
    except ValueError:
        given = []
    if not 1 <= len(given) <= 3:
        print("usage: soak [--results] PROGRAM [MINUTES [SEED]]", file=sys.stderr)
        return 2
    if not runs(given[0]):
        return 2
    whose = whose_aims(given[0])
    if whose:
        print("soak: " + whose, flush=True)
    program = os.path.abspath(given[0])
    stop, found = threading.Event(), Found("soak")
    with tempfile.TemporaryDirectory() as folder:
        try:
            statuses = [
                run(
                    f"{minutes:g} minutes",
                    "long run",
                    Server(program, folder, found),
                    seed,
                    lambda attack: soak(attack, minutes),
                )
            ]
            server = Server(program, folder, found, descriptors=DESCRIPTORS)
            statuses.append(
                run(
                    f"a limit of {DESCRIPTORS} file descriptors",
                    "few file descriptors",
                    server,
                    seed,
                    lambda attack: few_descriptors(attack, stop),
                )
            )
            if takes_memory_here(program):
                server = Server(program, folder, found, [library("scarce", folder)])
                statuses.append(
                    run(
                        "memory that is used up",
                        "memory used up",
                        server,
                        seed,
                        lambda attack: scarce_memory(attack, stop),
                    )
                )
            else:
                print("soak: memory isn't used up, since this program brings a malloc of its own")
        except (Lost, subprocess.CalledProcessError) as fault:
            print("soak: the server can't be started:", fault, file=sys.stderr)
            return 2
    if 1 in statuses:
        return 1
    return 2 if kept and not found.keep() else max(statuses)
