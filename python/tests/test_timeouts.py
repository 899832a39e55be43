"""Counts of milliseconds: whatever isn't a whole number from 0 to 2**32 - 1 is refused before the program is asked."""

from __future__ import annotations

import unittest
from collections.abc import Callable
from typing import Any

from scanvolt.program import Server
from scanvolt.virtual import Meter
from scanvolt.vxi11 import Client, Link, calls

WRONG: tuple[Any, ...] = (0.5, 2.0, True, "2", None, -1, 2**32)
Use = Callable[[Any], object]


class Wanted:
    """What equals a whole number, and is no int: as numbers of NumPy are."""

    def __index__(self) -> int:
        return 7


class Milliseconds(unittest.TestCase):
    """Each use of a count, in virtual time and over sockets. The instrument goes on."""

    def refuses(self, link: Link, uses: dict[str, Use], wrong: tuple[Any, ...] = WRONG) -> None:
        for name, use in uses.items():
            for count in wrong:
                kind = ValueError if type(count) is int else TypeError
                text = f"^{name} wants milliseconds, a whole number from 0 to 4294967295, and not {count!r}$"
                with self.subTest(name=name, count=count), self.assertRaisesRegex(kind, text):
                    use(count)
        self.assertEqual(link.query("*IDN?"), "SCANVOLT,SV32,0,1.0")

    def of_link(self, link: Link) -> dict[str, Use]:
        return {
            "io_timeout": lambda count: setattr(link, "io_timeout", count),
            "lock_timeout": lambda count: setattr(link, "lock_timeout", count),
        }

    def test_virtual_time(self) -> None:
        with Meter() as meter, meter.connect() as connection, connection.create_link() as link:
            uses = self.of_link(link)
            uses.update(
                {
                    "advance": meter.advance,
                    "wait": connection.requests.wait,
                    "until": lambda count: meter.until(lambda: False, count),
                    "patience": lambda count: setattr(meter, "patience", count),
                    "call_time": lambda count: setattr(meter, "call_time", count),
                }
            )
            self.refuses(link, uses)
            self.refuses(
                link,
                {
                    "patience": lambda count: Meter(patience=count),
                    "call_time": lambda count: Meter(call_time=count),
                },
            )
            self.refuses(
                link,
                {
                    "io_timeout": lambda count: connection.create_link(io_timeout=count),
                    "lock_timeout": lambda count: connection.create_link(lock_timeout=count),
                },
            )
            self.assertEqual((meter.clock, meter.connect().create_link().number), (0, 2))
            meter.advance(Wanted())  # type: ignore[arg-type]
            self.assertEqual(meter.clock, 7)

    def test_locks(self) -> None:
        with Meter() as meter, meter.connect() as connection, connection.create_link() as link:
            wrong = tuple(count for count in WRONG if count is not None)
            self.refuses(link, {"lock_timeout": link.lock}, wrong)
            self.refuses(link, {"lock_timeout": link.calls.lock}, wrong)

    def test_sockets(self) -> None:
        with Server() as server, Client(port=server.core) as client, client.create_link() as link:
            requests = client.listen()
            self.refuses(link, {"wait": requests.wait, **self.of_link(link)})
            self.refuses(link, {"io_timeout": lambda count: client.create_link(io_timeout=count)})
            self.assertRaisesRegex(TimeoutError, "within 1 ms", requests.wait, 1)

    def test_calls(self) -> None:
        """Calls that are made and not sent."""
        with Meter() as meter, meter.connect().create_link() as link:
            timed: tuple[Callable[[int, Any, Any], object], ...] = (
                lambda number, io, lock: calls.device_write(number, b"", io, lock),
                lambda number, io, lock: calls.device_read(number, 1, io, lock),
                calls.device_readstb,
                calls.device_trigger,
                calls.device_clear,
                calls.device_remote,
                calls.device_local,
                lambda number, io, lock: calls.device_docmd(number, 1, b"", io, lock),
            )
            for call in timed:
                self.refuses(
                    link,
                    {
                        "io_timeout": lambda count: call(1, count, 0),
                        "lock_timeout": lambda count: call(1, 0, count),
                    },
                )
            self.refuses(
                link,
                {
                    "lock_timeout": lambda count: calls.device_lock(1, count),
                    "wait": lambda count: calls.create_intr_chan(1, 1, wait=count),
                },
            )
            self.refuses(
                link, {"lock_timeout": lambda count: calls.create_link("inst0", True, count)}
            )


if __name__ == "__main__":
    unittest.main()
