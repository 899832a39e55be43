"""Clients that make calls without a pause, and how late a deadline comes meanwhile."""
import multiprocessing
import time
from multiprocessing.synchronize import Event, Semaphore

from scanvolt.vxi11 import calls, encode_reply, words
from scanvolt.vxi11.errors import LOCKED

from .calls import PATIENCE, Lost, Peer
from .served import Server

PROCESSES, EACH = 3, 4  # how many processes make calls, and on how many connections each
DEADLINES = 20
WAIT = 100  # milliseconds until a deadline
LATEST = 1000  # a deadline that comes this many milliseconds late counts as lost


def ask(port: int, begun: Semaphore, ended: Event) -> None:
    """On each of its connections makes a call that does nothing, and the next one as soon as its reply comes."""
    peers = [Peer(port) for _ in range(EACH)]
    nothing = calls.null().encode(1)
    for peer in peers:
        peer.send(nothing)
    begun.release()
    while not ended.is_set():
        for peer in peers:
            peer.take(len(encode_reply(1)))
            peer.send(nothing)


def lateness(peer: Peer, first: int, second: int) -> float:
    """By how many milliseconds a call that waits in vain for the lock returns late."""
    peer.do(calls.device_lock(first))
    begun = time.monotonic()
    found = peer.result(calls.device_lock(second, WAIT))
    late = 1000 * (time.monotonic() - begun) - WAIT
    if found != words(LOCKED):
        raise Lost(f"a call that waited for the lock returns something else: {found.hex()}")
    return late


def latest(server: Server) -> float:
    """The greatest lateness of DEADLINES calls, while other clients make calls without a pause."""
    begun, ended = multiprocessing.Semaphore(0), multiprocessing.Event()
    crowd = [
        multiprocessing.Process(target=ask, args=(server.core, begun, ended), daemon=True)
        for _ in range(PROCESSES)
    ]
    for asking in crowd:
        asking.start()
    try:
        if not all([begun.acquire(timeout=PATIENCE) for _ in crowd]):
            raise Lost("a connection of those that ask without a pause isn't served")
        with Peer(server.core) as peer:
            peer.make_link()
            first = peer.link
            peer.make_link()
            late = max(lateness(peer, first, peer.link) for _ in range(DEADLINES))
    finally:
        ended.set()
        for asking in crowd:
            asking.join(PATIENCE)
    if late > LATEST:
        raise Lost(f"a deadline of {WAIT} ms came {late:.0f} ms late")
    return late
