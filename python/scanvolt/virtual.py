"""An instrument in virtual time, without ports and without waiting.

    with Meter() as meter, meter.connect() as connection, connection.create_link() as link:
        meter.set_input(1, "1.25")
        print(link.query("MEAS:VOLT? (@1)"), meter.clock)

Time passes only where a call waits and where `advance` lets it pass. A call that waits advances time to its
reply, millisecond by millisecond of the instrument, or to its timeout. So a test takes only as long as the
program computes, and always ends in the same way. The program is `scanvolt replay`.

Meter is the instrument, Connection a connection to it, on which `create_link` makes a scanvolt.vxi11.Link. Pending is a call
that was started, and Requests are the service requests of a connection. Milliseconds are whole numbers, 0 to 4,294,967,295; any
other raises TypeError or ValueError at once.
"""

from __future__ import annotations

import collections
import contextlib
import functools
import itertools
import threading
import weakref
from collections.abc import Callable, Iterator
from typing import TYPE_CHECKING, Any, Optional, TypeVar

from . import vxi11
from .connection import Connection, NoAnswer, Pending, Requests
from .faults import Faults
from .forking import One, Twins, fork
from .interleaving import OrderFails
from .keeping_time import NeverEnds, keeping_time
from .lockstep import LockStep, NotInStep, seeded
from .program import Name, ProgramError, find_program
from .replay import Replay
from .serving.ports import ROLES
from .stimulus import Entry, Volts, input_line, read_scenario
from .vxi11 import RequestStream, ServiceRequest, calls
from .vxi11.timeouts import Milliseconds
from .vxi11.timeouts import milliseconds as checked
from .vxi11.whole import whole

if TYPE_CHECKING:
    from .explaining.explanation import Explanation
    from .interleaving import Controller

__all__ = [
    "Connection",
    "Meter",
    "NeverEnds",
    "NoAnswer",
    "NotInStep",
    "OrderFails",
    "PATIENCE",
    "Pending",
    "Requests",
]
__tracebackhide__ = True  # pytest shows the line that calls the package, and not these frames
Value = TypeVar("Value")
PLACES = 16  # connections that the instrument has room for
# those that there are, in their order
METERS: weakref.WeakValueDictionary[int, Meter] = weakref.WeakValueDictionary()
STARTED: list[Callable[[Meter], object]] = []  # what is told of each meter that is turned on
_numbers = itertools.count()
Awaited = tuple[Pending[Any], Callable[[Optional[Exception]], None]]
PATIENCE = 600000  # milliseconds of virtual time that a call may wait
SHORT = 10000  # milliseconds of patience that take no longer to pass than to be explained


class Meter:
    """An instrument that has just been turned on, in virtual time. `close` ends it, and so does the end of a
    `with` block.

    `program` is the path of the program; without it, `find_program` finds one. `scenario` is a file of
    voltages and external triggers, as `scanvolt serve` takes it. `patience` is how many milliseconds of virtual
    time a call may wait before NoAnswer is raised. `call_time` is how many milliseconds each call of a connection or
    a link takes, besides those that it waits; calls by `start` take none. Both may be set at any time.

    `clock` is how many milliseconds have passed. `faults` makes calls and connections fail on order (scanvolt.faults.Faults).
    While `dials` is false, the instrument can't connect an interrupt channel.

    Threads may share a meter. Outside of `threads`, which of them comes first depends on the machine, and a call that waits
    doesn't wait for what another thread is about to do. Each process needs a meter of its own: in a fork of the process, the
    parent's meter raises ProgramError.

    The program also ends with Python, even if that is killed. After `close` each call raises ConnectionError, and what is
    closed again closes quietly. If the program can't be found, or ends by itself, ProgramError says why.
    """

    patience = Milliseconds()
    call_time = Milliseconds()

    def __init__(
        self,
        program: Name | None = None,
        scenario: Name | None = None,
        patience: int = PATIENCE,
        call_time: int = 0,
    ) -> None:
        self.patience, self.call_time = patience, call_time
        entries = [] if scenario is None else read_scenario(scenario)
        self._ahead: collections.deque[Entry] = collections.deque(entries)
        self.clock = 0  # milliseconds since the instrument was turned on
        self.dials = True  # whether the dialing of an interrupt channel succeeds
        # calls that were sent, and service requests that were handed on
        self._sent = self._handed = 0
        self.connections: dict[int, Connection] = {}  # those that are open, by number
        self._deliveries: collections.deque[Callable[[], object]] = collections.deque()
        self.faults = Faults(self)  # faults on order
        self._awaited: dict[int, Awaited] = {}  # calls of tasks of asyncio
        self._guard: contextlib.AbstractContextManager[object] = threading.RLock()
        self._steps: LockStep | None = None  # the block of `threads` that there is
        self._twins = Twins()  # of the meter from which this one was forked
        self._ended: Exception | None = None  # why the meter is off
        self._replay = Replay(find_program() if program is None else str(program))
        METERS[next(_numbers)] = self
        for tell in STARTED:
            tell(self)
        with self._guard:
            self._play()

    def __repr__(self) -> str:
        if not self.is_open:
            return f"<Meter, closed at {self.clock} ms>"
        count = len(self.connections)
        connections = f"{count} connection" + ("" if count == 1 else "s")
        return f"<Meter at {self.clock} ms, {connections}>"

    @property
    def is_open(self) -> bool:
        """Whether the program runs: it wasn't ended on this side, nor found to have ended."""
        return self._replay.program.close.alive

    def __enter__(self) -> Meter:
        return self

    def __exit__(self, kind: type[BaseException] | None, *_: object) -> None:
        self.close()

    def close(self) -> None:
        """Turns the instrument off: its connections and its program end."""
        with self._guard:
            self._end(
                ConnectionError(
                    "the meter is closed: its `with` block ended, or `close` was called"
                )
            )

    def connect(self, role: str = "core") -> Connection:
        """Opens a connection to the core channel (core), the abort channel (abort) or the port mapper (portmap).

        At most sixteen connections may be open, of all kinds together. Raises ConnectionError if all are taken.
        """
        if role not in ROLES:
            raise ValueError(f"no role of a connection: {role!r}")
        with self._guard:
            number = next((place for place in range(PLACES) if place not in self.connections), None)
            if number is None:
                raise ConnectionError(f"all {PLACES} connections of the meter are taken")
            self._perform(b"open %d %s\n" % (number, role.encode()))
            self.connections[number] = Connection(self, number, role)
            return self.connections[number]

    def drop(self, connection: Connection, reason: ConnectionError | None = None) -> None:
        """Ends a connection: its links end, and its calls that wait get no reply, but raise this. If the program ended
        before, nothing is left to do.
        """
        with self._guard:
            if not connection.is_open:
                return
            self._gone(connection, reason or ConnectionError("the connection was closed"))
            with contextlib.suppress(ProgramError):
                self._perform(b"close c%d\n" % connection.number)
            self._deliver()

    def drop_channel(self, connection: Connection) -> None:
        """Ends the interrupt channel of a connection, as if it had failed."""
        if not connection.has_channel:
            raise ValueError("the connection has no interrupt channel")
        with self._guard:
            connection.has_channel = False
            self._perform(b"close i%d\n" % connection.number)

    def set_input(self, channel: int, volts: Volts) -> None:
        """Sets the voltage at the input of a channel, 1 to 128, from now on: -1000 to 1000 V, in whole
        microvolts.

        A float is rounded to the nearest microvolt.
        """
        with self._guard:
            self._perform(input_line(channel, volts))
            self._deliver()

    def external(self) -> None:
        """Gives the external trigger."""
        with self._guard:
            self._perform(b"external\n")
            self._deliver()

    def advance(self, milliseconds: int) -> None:
        """Lets this much time pass. Service requests are handed on at their millisecond."""
        self.until(lambda: False, checked(milliseconds, "advance"))

    def until(self, holds: Callable[[], bool], most: int) -> bool:
        """Lets time pass until this holds, but at most this many milliseconds. Returns whether it holds then."""
        end = self.clock + checked(most, "until")
        if self._steps is not None:
            return self._steps.until(holds, end)
        while True:
            with self._guard:
                if holds():
                    return True
                if self.clock >= end:
                    return False
                self._pass_most(end - self.clock)

    @contextlib.contextmanager
    def _awaiting(
        self, pending: Pending[Value], awake: Callable[[Exception | None], None]
    ) -> Iterator[None]:
        """Within this block, `awake` is called when a call is answered, with None, or with NoAnswer if that can't be."""
        self._awaited[id(pending)] = pending, awake
        try:
            yield
        finally:
            self._awaited.pop(id(pending), None)

    def _answered(self, pending: Pending[object]) -> None:
        """Says that a call was answered, or ended."""
        found = self._awaited.pop(id(pending), None)
        if found is not None:
            self._handed += 1
            found[1](None)

    def _give_up(self) -> bool:
        """Ends the waits of tasks of asyncio for calls that can't be answered. Returns whether there were any."""
        with self._guard:
            awaited, self._awaited = self._awaited, {}
            for pending, awake in awaited.values():
                awake(
                    NoAnswer(
                        self._hopeless(pending)
                        or f"{pending.call.name} waits for more than {self.patience} ms of virtual time"
                    )
                )
        return bool(awaited)

    def keeping_time(self) -> contextlib.AbstractContextManager[Meter]:
        """Makes Python's time the meter's, for the thread that enters this `with` block; other threads keep real time.

        time.sleep, asyncio.sleep, and waits with a timeout (Event, Condition, Semaphore, queue.Queue) advance the
        meter; a wait ends early if a callback of a service request ends it. time.time, monotonic and perf_counter,
        also in nanoseconds, advance from where they are by the time that passes in the meter. So a driver that
        waits takes no real time.

        What the meter's time can't end raises NeverEnds: a clock that is read ten thousand times in a row while no time
        passes, and a wait without a timeout, which no service request and no other thread ends. A wait with a timeout
        for what another thread does in real time ends too early, since the meter's time passes at once.

        Some times stay real: datetime.datetime.now, time.localtime, queue.SimpleQueue, locks, sockets, Thread.join,
        and names that were imported from `time`, as by `from time import sleep`.
        """
        return keeping_time(self)

    def explain(self) -> Explanation:
        """What the instrument saw until now, as another program tells it. Raises ProgramError if it can't, or if the session has
        become too long to be kept.
        """
        from .explaining.explanation import Explanation

        with self._guard:
            script = self._replay.script()
            faults = list(self.faults.told)
        return Explanation(script, self._replay.path, faults=faults)

    def threads(self, count: int, seed: int | None = None) -> LockStep:
        """Makes threads that use the meter go in lock step, in this `with` block: so many, which are those that are started
        in the block, and if they are fewer, the thread of the block itself.

        Time passes only while all of them wait in the meter, or for another of them. They take turns, a call each, in the
        order in which they were started; with a seed, in an order at random that is the same for the same seed. So each
        run is the same. What a thread raises, the block raises at its end. If no thread can ever go on, each call that
        waits raises NoAnswer. NotInStep is raised if a thread sleeps outside of the meter, still runs at the end of the
        block, or is one too many.
        """
        return LockStep(
            self,
            whole(count, 1, PLACES, "threads wants a number of threads"),
            None if seed is None else seeded(seed),
        )

    def interleavings(
        self,
        *controllers: Controller,
        count: int | None = None,
        seed: int = 0,
        order: str | None = None,
    ) -> int:
        """Runs two or more controllers in every order of their calls; with `count`, in so many orders at random by seed; with
        `order`, in that one. Each is a function that takes a meter, a fork of this one, and opens its own connections.

        Returns how many orders there were. If a controller raises, raises OrderFails, an AssertionError that tells the order
        in letters, A for the first controller: order="ABBA" repeats it. Raises RuntimeError after 10,000 orders.
        """
        from .interleaving import interleavings

        return interleavings(self, controllers, count, seed, order)

    def fork(self) -> Meter:
        """A second instrument that is as this one is now, to try what else might happen. Its program executes what this one
        has executed. It has the same connections: `twin_of` returns them. It isn't closed with this one.

        Service requests of the second one go into the queues of its connections. Raises ProgramError if the session became
        too long to be kept.
        """
        return fork(self)

    def twin_of(self, one: One) -> One:
        """What a connection, a link, or a call that waits, of the meter from which this one was forked, is here. Raises
        ValueError if it wasn't there at the fork.
        """
        return self._twins.of(one)

    def _hopeless(self, pending: Pending[object]) -> str | None:
        """Why a call can't be answered, since nothing is due within the meter's patience; None if it may be. It isn't asked
        if the patience is short, or if the call's timeouts are. No other thread may use the meter meanwhile.
        """
        first = pending.connection._pending[0] if pending.connection._pending else pending
        if self.patience <= SHORT or first.call.wait <= self.patience:
            return None
        from .explaining import meters

        return meters.why_no_answer(self, pending)

    @property
    def _has_channel(self) -> bool:
        """Whether there is an interrupt channel: if not, nothing happens on this side while time passes."""
        return any(one.has_channel for one in self.connections.values())

    def _pass_most(self, most: int) -> None:
        """Lets at most this many milliseconds pass, and no more than up to the first at which something happens."""
        if self._ahead:
            most = min(most, self._ahead[0].clock - self.clock)
        most = self.faults._at_most(most)
        if self._is_quiet():
            passed, printed = most, self._asked(lambda: self._replay.pass_time(most))
        else:
            most = min(most, self._next_deadline(most))
            passed, printed = self._asked(lambda: self._replay.seek(most))
        self.clock += passed
        self._take(printed)
        self.faults._come()
        self._play()
        self._deliver()

    def _send(self, connection: Connection, pending: Pending[object]) -> None:
        """Sends a call on a connection."""
        with self._guard:
            connection.check_open()
            record = pending.call.encode(pending.xid)
            self._sent += 1
            ended = self.faults._before(pending)
            connection._pending.append(pending)
            if ended is not None:
                self.drop(connection, ended)
                return
            first = len(connection._pending) == 1
            if pending._made:
                lines = b""
            else:
                lines = b"bytes %d %s\n" % (connection.number, record.hex().encode())
            lines += self._turn(connection) if first else b""
            if lines and 4 in self._perform(lines):
                connection._pending.remove(pending)
                raise ConnectionError("there is no room for a further call of the connection")
            self._deliver()

    def _asked(self, question: Callable[[], Value]) -> Value:
        """Asks the program. If that fails or is interrupted, the meter is closed."""
        if isinstance(self._ended, ProgramError):
            raise ProgramError(f"the program was ended before: {self._ended}")
        if self._ended is not None:
            raise ConnectionError(str(self._ended))
        try:
            return question()
        except ProgramError as fault:
            self._end(fault)
            raise
        except BaseException:
            self._end(ConnectionError("the meter is closed, since a call was interrupted"))
            raise

    def _is_quiet(self) -> bool:
        """Whether nothing can be printed while time passes."""
        return not any(one._pending or one.has_channel for one in self.connections.values())

    def _next_deadline(self, most: int) -> int:
        """How many milliseconds remain to the next timeout of a call that waits."""
        waiting = [one._pending[0] for one in self.connections.values() if one._pending]
        ends = [
            one._turned + one.call.wait - self.clock for one in waiting if one._turned is not None
        ]
        return min((end for end in ends if end > 0), default=most)

    def _play(self) -> None:
        """Executes the entries of the scenario for this millisecond."""
        while self._ahead and self._ahead[0].clock <= self.clock:
            self._perform(self._ahead.popleft().line)

    def _turn(self, connection: Connection) -> bytes:
        """The lines that make the instrument take the first call of a connection, and dial if the call asks for that.
        Calls before it that a fault on order answers are done then.
        """
        while connection._pending and connection._pending[0]._made is not None:
            pending = connection._pending.popleft()
            pending._turned, body = self.clock, pending._made or b""
            if not self.faults._comes_later(pending, body):
                pending._end(self.clock, body)
        if not connection._pending:
            return b""
        pending = connection._pending[0]
        pending._turned = self.clock
        lines = b"turn %d\n" % connection.number
        if pending.call.program == calls.CORE and pending.call.procedure == calls.CREATE_INTR_CHAN:
            lines += b"dialed %d %s\n" % (connection.number, b"ok" if self.dials else b"failed")
        return lines

    def _perform(self, lines: bytes) -> list[int]:
        """Executes events. Returns the reasons of those that were refused. Calls after answered ones are taken."""
        return self._take(self._asked(lambda: self._replay.do(lines)))

    def _take(self, printed: bytes) -> list[int]:
        """Handles what was printed, and lets the instrument take further calls. Returns the reasons of refused events."""
        refused: list[int] = []
        while printed:
            answered: list[Connection] = []
            for line in printed.splitlines():
                name, _, said = line.partition(b" ")
                if name == b"refused":
                    refused.append(int(said))
                else:
                    self._came(name, bytes.fromhex(said.decode()), answered)
            lines = self._cut() + b"".join(self._turn(one) for one in answered if one._pending)
            printed = self._asked(lambda: self._replay.do(lines)) if lines else b""
        return refused

    def _cut(self) -> bytes:
        """The lines that end the connections that a fault on order cut."""
        cut, self.faults._cut = self.faults._cut, []
        for connection, reason in cut:
            self._gone(connection, reason)
        return b"".join(b"close c%d\n" % connection.number for connection, _ in cut)

    def _came(self, port: bytes, data: bytes, answered: list[Connection]) -> None:
        """Handles bytes that came on a port: replies, or service requests."""
        connection = self.connections.get(int(port[1:]))
        if connection is None:
            return
        if port[:1] == b"i":
            for request in connection.requests._stream.push(data, self.clock):
                if not self.faults._loses(connection, request):
                    self._deliveries.append(functools.partial(self._hand, connection, request))
            return
        for record in connection._records.push(data):
            if not connection._pending:
                raise ProgramError(f"a reply that nobody waits for: {record.body.hex()}")
            self._answer(connection, connection._pending.popleft(), record.body)
            answered.append(connection)

    def _answer(self, connection: Connection, pending: Pending[object], body: bytes) -> None:
        """Handles the reply to a call."""
        if not self.faults._reply(pending, body):
            pending._end(self.clock, body)
        if pending.call.program == calls.CORE and body[4:] == vxi11.words(1, 0, 0, 0, 0, 0):
            if pending.call.procedure == calls.CREATE_INTR_CHAN:
                connection.has_channel = True
                connection.requests._stream = RequestStream()
            elif pending.call.procedure == calls.DESTROY_INTR_CHAN:
                connection.has_channel = False

    def _end(self, reason: Exception) -> None:
        """Ends the program, and all connections. The first reason is kept."""
        self._ended = self._ended or reason
        self._replay.close()
        for connection in list(self.connections.values()):
            self._gone(connection, reason)

    def _gone(self, connection: Connection, reason: Exception) -> None:
        """Ends a connection on this side: its calls end with this exception."""
        connection.is_open = connection.has_channel = False
        self.connections.pop(connection.number, None)
        for pending in connection._pending:
            pending._end(self.clock, fault=reason)
        connection._pending.clear()
        self.faults._gone(connection, reason)

    def _hand(self, connection: Connection, request: ServiceRequest) -> None:
        """Hands on a service request."""
        self._handed += 1
        if connection.requests.callback is None:
            connection.requests.queue.put(request)
        else:
            connection.requests.callback(request)

    def _deliver(self) -> None:
        """Hands on the service requests that came. A callback may make calls, during which more of them come."""
        while self._deliveries:
            self._deliveries.popleft()()
