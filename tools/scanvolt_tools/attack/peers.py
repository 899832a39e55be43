"""The hostile peers, one function each. A connection may well be refused, dropped or reset: it may be the
seventeenth, or its bytes weren't a call.
"""
import random
import socket
import time

from scanvolt.vxi11 import calls, encode_call, encode_reply, mark, record, words
from scanvolt.vxi11.calls import Call
from scanvolt.vxi11.errors import LOCKED, NOT_ESTABLISHED

from .calls import TIMEOUT, Dropped, Lost, Peer, reset
from .served import Server

PLACES = 16
LONGEST = 0xFFFFFFFF  # the longest timeout, in milliseconds
ASK_PORT = calls.getport(calls.CORE, 1)
# Bytes after a waiting call that leave the connection no room: further calls, or a record that is too long.
FURTHER, TOO_LONG = calls.null().encode(1) * 1000, mark(8193)


def visit(server: Server, chance: random.Random) -> None:
    """Drops a connection at a random byte of its calls."""
    door = chance.choices(("core", "abort", "port_mapper"), (8, 1, 1))[0]
    peer = None
    try:
        peer = Peer(getattr(server, door), chance.randrange(1, 420 if door == "core" else 60))
        if door == "core":
            peer.make_link()
            peer.session()
        elif door == "abort":
            peer.result(calls.device_abort(0))
        else:
            peer.result(ASK_PORT)
    except (Dropped, ConnectionError):
        pass
    finally:
        if peer is not None:
            peer.drop(chance)


def noise(chance: random.Random) -> bytes:
    """Makes 10,000 random bytes: bare, in records, or as the arguments of calls."""
    kind = chance.randrange(3)
    data = b""
    while len(data) < 10000:
        rest = chance.randbytes(chance.randrange(200))
        if kind == 0:
            data += chance.randbytes(10000)
        elif kind == 1:
            data += record(rest)
        else:
            data += encode_call(
                len(data), calls.CORE, 1, chance.randrange(calls.DESTROY_INTR_CHAN + 2), rest
            )
    return data[:10000]


def send_noise(server: Server, chance: random.Random) -> None:
    """Sends random bytes, and waits a little for what the server does with them."""
    with Peer(chance.choice(server.ports)) as peer:
        peer.socket.settimeout(0.5)
        try:
            peer.send(noise(chance))
            peer.socket.recv(65536)
        except OSError:
            pass


def reset_early(server: Server, chance: random.Random) -> None:
    """Resets a connection while replies are on their way."""
    try:
        peer = Peer(server.core)
        peer.send(calls.null().encode(1) * chance.randrange(1, 200))
        time.sleep(chance.choice((0, 0, 0.001)))
        reset(peer.socket)
    except ConnectionError:
        pass


def half_close(server: Server, chance: random.Random) -> None:
    """Shuts down its sending direction after some calls, or within one. The server has to close the connection."""
    with Peer(server.core) as peer:
        data = calls.null().encode(1) * 3
        try:
            peer.send(data[: chance.randrange(1, len(data) + 1)])
            peer.socket.shutdown(socket.SHUT_WR)
            while peer.socket.recv(65536):
                pass
        except ConnectionError:
            pass
        except socket.timeout:
            raise Lost("a connection that its peer has half closed stays open") from None


def remote(listener: socket.socket) -> Call[None]:
    """A create_intr_chan to the port of this listener."""
    return calls.create_intr_chan(calls.LOOPBACK, listener.getsockname()[1])


def raise_once(peer: Peer) -> None:
    """Causes a service request, while it holds the lock, and clears the request."""
    peer.lock()
    peer.write(b"*CLS;*SRE 4;UNKNOWN\n")
    peer.write(b"*CLS;*SRE 0\n")
    peer.unlock()


def interrupt_channel(server: Server, chance: random.Random) -> None:
    """Has the instrument connect to a port that refuses it, resets it before its service request, or never
    accepts it; or leaves while the instrument dials."""
    kind = chance.choice(("refuse", "reset", "ignore", "leave"))
    with Peer(server.core) as peer, socket.create_server(("127.0.0.1", 0)) as listener:
        peer.make_link()
        where = remote(listener)
        if kind == "leave":
            peer.send(where.encode(2))
            peer.drop(chance)
            return
        if kind == "refuse":
            listener.close()
        found = peer.result(where)
        if found not in server.outcomes(NOT_ESTABLISHED if kind == "refuse" else 0):
            raise Lost(f"create_intr_chan returns something else: {found.hex()}")
        if kind == "reset" and found == words(0):
            reset(listener.accept()[0])
            peer.do(calls.device_enable_srq(peer.link, b"hostile"))
            raise_once(peer)
            found = peer.result(calls.destroy_intr_chan())
            if found != words(NOT_ESTABLISHED):
                raise Lost(f"an interrupt channel that was reset still exists: {found.hex()}")


def take_the_lock(server: Server, chance: random.Random) -> None:
    """Takes the lock, or waits for it, and leaves."""
    with Peer(server.core) as peer:
        peer.make_link()
        lock = calls.device_lock(peer.link, TIMEOUT)
        if chance.random() < 0.5:
            peer.do(lock)
            time.sleep(chance.choice((0, 0.001, 0.02)))
        else:
            peer.send(lock.encode(9))
        peer.drop(chance)


def fill_channel(server: Server, chance: random.Random) -> None:
    """Causes 33 service requests by one message: its channel has room for 32 of them."""
    with Peer(server.core) as peer, socket.create_server(("127.0.0.1", 0)) as listener:
        peer.make_link()
        found = peer.result(remote(listener))
        if found not in server.outcomes(0):
            raise Lost(f"create_intr_chan returns something else: {found.hex()}")
        if found != words(0):
            return
        peer.do(calls.device_enable_srq(peer.link, b"filled"))
        peer.lock()
        peer.write(b"*CLS;*SRE 4\n")
        peer.write(b";".join([b"*CLS;UNKNOWN"] * 33) + b"\n")
        peer.write(b"*CLS;*SRE 0\n")
        peer.unlock()
        if chance.random() < 0.5:
            channel = listener.accept()[0]
            channel.settimeout(peer.socket.gettimeout())
            with channel:
                size = 32 * len(calls.device_intr_srq(b"filled").encode(1))
                if len(channel.recv(size, socket.MSG_WAITALL)) != size:
                    raise Lost("a channel gets fewer calls than it has room for")


def never_read(server: Server, chance: random.Random) -> None:
    """Sends calls and reads no reply, until the server reads no more calls. Then stays for a while."""
    with Peer(server.core, narrow=True) as peer:
        rest = nothing = calls.null().encode(1) * 500
        peer.socket.setblocking(False)
        end = time.monotonic() + chance.uniform(0.5, 3)
        while time.monotonic() < end:
            try:
                rest = rest[peer.socket.send(rest) :] or nothing
            except BlockingIOError:
                time.sleep(0.02)
        peer.drop(chance)


def all_gone(server: Server, behind: bytes) -> float:
    """Takes all places with peers, each of which has a call that waits, and these bytes after it. Then resets
    all at once. Returns how many milliseconds later a new client was served.
    """
    peers = [Peer(server.core) for _ in range(PLACES)]
    for peer in peers:
        peer.make_link()
    # The first holds the lock, and reads a response that comes after a trigger, which never comes.
    peers[0].do(calls.device_lock(peers[0].link))
    peers[0].write(b"*RST;*CLS;:TRIG:SOUR EXT;:INIT;*OPC?\n")
    for place, peer in enumerate(peers):
        if place == 0:
            waiting = calls.device_read(peer.link, 1024, LONGEST).encode(9)
        else:
            waiting = calls.device_lock(peer.link, LONGEST).encode(9)
        peer.send(waiting + behind)
    time.sleep(0.2)
    for peer in peers:
        peer.socket.setblocking(False)
        try:
            answer = peer.socket.recv(1)
        except BlockingIOError:
            continue
        raise Lost(
            f"a call that should wait was answered, or its connection closed: {answer.hex()}"
        )
    for peer in peers:
        reset(peer.socket)
    time.sleep(0.2)
    begun = time.monotonic()
    try:
        with Peer(server.core) as peer:
            peer.make_link()
            peer.session()
    except OSError as fault:
        raise Lost(f"sixteen peers that are gone keep their places: {fault}") from None
    return 1000 * (time.monotonic() - begun)


def half_closed(server: Server) -> None:
    """Shuts down its sending direction while its call waits and the server reads no more. It must get the reply."""
    with Peer(server.core) as holder, Peer(server.core) as peer:
        holder.make_link()
        peer.make_link()
        holder.do(calls.device_lock(holder.link))
        peer.send(calls.device_lock(peer.link, 300).encode(9) + FURTHER)
        peer.socket.shutdown(socket.SHUT_WR)
        wanted = encode_reply(9, words(LOCKED))
        try:
            found = peer.take(len(wanted))
        except OSError as fault:
            raise Lost(
                f"a call that waits isn't answered where its peer sends no more: {fault}"
            ) from None
        if found != wanted:
            raise Lost(
                f"where its peer sends no more, a call returns something else: {found.hex()}"
            )


def urgent(server: Server, chance: random.Random) -> None:
    """Sends a byte of urgent data between two calls. It must get both replies."""
    with Peer(server.core) as peer:
        peer.make_link()
        peer.socket.settimeout(1)
        first, second = (calls.null().encode(xid) for xid in (7, 8))
        wanted = encode_reply(7) + encode_reply(8)
        cut = chance.randrange(len(second))
        try:
            peer.socket.sendall(first)
            peer.socket.send(b"!", socket.MSG_OOB)
            peer.socket.sendall(second[:cut])
            peer.socket.sendall(second[cut:])
            found = peer.take(len(wanted))
        except socket.timeout:
            raise Lost("a call after a byte of urgent data isn't answered") from None
        if found != wanted:
            raise Lost(f"calls around a byte of urgent data return something else: {found.hex()}")


def all_places(server: Server, taken: int = 1) -> None:
    """Checks, three times, that the port mapper serves again, and all places except `taken` of them."""
    try:
        for _ in range(3):
            time.sleep(0.2)
            with Peer(server.port_mapper) as peer:
                if peer.result(ASK_PORT) != words(server.core):
                    raise Lost("the port mapper returns something else")
            time.sleep(0.2)
            peers = [Peer(server.core) for _ in range(PLACES - taken)]
            for peer in peers:
                peer.make_link()
            for peer in peers:
                peer.session()
                peer.socket.close()
    except OSError as fault:
        raise Lost(f"one of the {PLACES} places doesn't serve: {fault}") from None
