"""Drivers under asyncio: over sockets, and in virtual time, which passes only while no task can run."""

from __future__ import annotations

import asyncio
import gc
import time
import unittest
import warnings
from collections.abc import Coroutine
from typing import Any, ClassVar

from scanvolt import aio, vxi11
from scanvolt.faults import Relay
from scanvolt.program import Server, free_ports
from scanvolt.virtual import NoAnswer
from scanvolt.vxi11 import DeviceError
from scanvolt.vxi11.calls import LOOPBACK
from scanvolt.vxi11.core import Core

from .limits import within

LONG = 2**32 - 1


class Sockets(unittest.TestCase):
    """A client over sockets."""

    server: ClassVar[Server]

    @classmethod
    def setUpClass(cls) -> None:
        cls.server = Server()
        cls.addClassCleanup(cls.server.close)

    def test_a_session(self) -> None:
        async def session() -> None:
            async with aio.Client(
                port_mapper=self.server.port_mapper
            ) as client, await client.create_link(lock=True) as link:
                await link.clear()
                self.assertEqual(await link.query("*RST;*CLS;*IDN?"), "SCANVOLT,SV32,0,1.0")
                requests = await client.listen()
                await link.enable_srq(b"meter 1")
                await link.write("*SRE 4;UNKNOWN")
                self.assertEqual(
                    ((await requests.wait(5000)).handle, await link.readstb()), (b"meter 1", 68)
                )
                await link.unlock()
                with self.assertRaisesRegex(DeviceError, "no lock held by this link"):
                    await link.unlock()

        asyncio.run(session())

    def test_two_tasks(self) -> None:
        """One waits for the lock while the other one has it; the loop is free meanwhile."""

        async def session() -> list[str]:
            told: list[str] = []

            async def waits() -> None:
                async with aio.Client(
                    port=self.server.core
                ) as client, await client.create_link() as link:
                    await link.lock(5000)
                    told.append("locked")

            async with aio.Client(port=self.server.core) as client, await client.create_link(
                lock=True
            ) as link:
                task = asyncio.create_task(waits())
                await asyncio.sleep(0.1)
                told.append("frees")
                await link.unlock()
                await task
            return told

        self.assertEqual(asyncio.run(session()), ["frees", "locked"])

    def test_an_abort(self) -> None:
        async def session() -> None:
            async with aio.Client(port=self.server.core) as client:
                link = await client.create_link()
                await link.clear()
                await link.write("*RST;:TRIG:SOUR EXT;:INIT;*OPC?")
                task = asyncio.create_task(link.read())
                await asyncio.sleep(0.1)
                await link.abort()
                with self.assertRaisesRegex(DeviceError, "abort .23."):
                    await task
                await link.clear()
                await link.write("ABOR")

        asyncio.run(session())

    def test_tasks_share_a_client(self) -> None:
        """Their calls go one after the other. One that is cancelled closes the client, since its reply would come later."""

        async def session() -> None:
            async with aio.Client(
                port=self.server.core
            ) as client, await client.create_link() as link:
                await link.clear()
                await link.write("*RST;*CLS;*SRE 0")
                self.assertEqual(
                    await asyncio.gather(*(link.readstb() for _ in range(20))), [0] * 20
                )
                await link.write("TRIG:SOUR EXT;:INIT;*OPC?")
                with self.assertRaises(asyncio.TimeoutError):
                    await asyncio.wait_for(link.read(), 0.1)
                self.assertFalse(client.is_open)
                with self.assertRaisesRegex(ConnectionError, "the connection is closed"):
                    await link.readstb()
            async with aio.Client(
                port=self.server.core
            ) as client, await client.create_link() as link:
                await link.clear()
                await link.write("ABOR")

        asyncio.run(session())

    def test_the_interrupt_channel_ends_quietly(self) -> None:
        """It ends with the client, and with a loop that leaves the client open: neither is reported as a fault."""

        async def session(is_closed: bool) -> None:
            asyncio.get_running_loop().set_exception_handler(
                lambda _, context: faults.append(context)
            )
            client = aio.Client(port=self.server.core)
            await client.open()
            link = await client.create_link()
            requests = await client.listen()
            await link.enable_srq(b"ends")
            await link.write("*CLS;*SRE 4;UNKNOWN")
            self.assertEqual((await requests.wait(5000)).handle, b"ends")
            await link.write("*CLS;*SRE 0")
            if is_closed:
                await client.close()
                self.assertEqual(
                    (client._carriers, asyncio.all_tasks()), (set(), {asyncio.current_task()})
                )

        faults: list[object] = []
        with warnings.catch_warnings():
            # of the sockets that the second one leaves open
            warnings.simplefilter("ignore", ResourceWarning)
            for is_closed in True, False:
                asyncio.run(session(is_closed))
            gc.collect()
        self.assertEqual(faults, [])

    def test_what_fails(self) -> None:
        async def session() -> None:
            with self.assertRaisesRegex(ConnectionRefusedError, "no port mapper is there"):
                await aio.Client(port_mapper=free_ports(1)[0]).open()
            with Relay(self.server.core) as relay:
                async with aio.Client(port=relay.port) as client:
                    link = await client.create_link(io_timeout=0)
                    client.patience = 0.2
                    relay.drop(36)
                    with self.assertRaisesRegex(
                        ConnectionError, "no reply to device_readstb within 0.2 s"
                    ):
                        await link.readstb()
                    with self.assertRaisesRegex(ConnectionError, "the connection is closed"):
                        await link.readstb()
                async with aio.Client(port=relay.port) as client:
                    relay.cut(after=3)
                    with self.assertRaisesRegex(ConnectionError, "ended within create_link"):
                        await client.create_link()

        asyncio.run(session())


class Virtual(unittest.TestCase):
    """A meter whose time is the loop's."""

    def run_with(self, session: Coroutine[Any, Any, None]) -> None:
        """Runs it; an hour of the meter takes no second."""
        began = time.monotonic()
        asyncio.run(session)
        self.assertLess(time.monotonic() - began, within(20))

    def test_tasks(self) -> None:
        """A read waits 2,048 ms, a task sleeps 1 s and polls, another one triggers: each at its millisecond."""
        told: list[tuple[str, object, int]] = []

        async def session() -> None:
            async with aio.Meter() as meter:

                async def reads() -> None:
                    async with meter.connect() as connection, await connection.create_link(
                        io_timeout=LONG
                    ) as link:
                        await link.write("CONF:VOLT (@1:128);:TRIG:COUN 16;:READ?")
                        told.append(("reads", (await link.read()).count(b","), meter.clock))

                async def sleeps() -> None:
                    link = await meter.connect().create_link()
                    await asyncio.sleep(1)
                    told.append(("sleeps", await link.readstb(), meter.clock))
                    await meter.advance(60000)
                    told.append(("sleeps", "again", meter.clock))

                await asyncio.gather(reads(), sleeps())

        self.run_with(session())
        self.assertEqual(
            told, [("sleeps", 0, 1000), ("reads", 2047, 2048), ("sleeps", "again", 61000)]
        )

    def test_a_lock_and_a_request(self) -> None:
        async def session() -> None:
            async with aio.Meter() as meter:
                one, other = meter.connect(), meter.connect()
                first = await one.create_link(lock=True)
                second = await other.create_link(lock_timeout=LONG)
                requests = await one.listen()
                await first.enable_srq(b"first")
                task = asyncio.create_task(second.write("*SRE 4;UNKNOWN"))
                await asyncio.sleep(0.03)
                self.assertFalse(task.done())
                await first.unlock()
                self.assertEqual((await requests.wait(100)).clock, 30)
                await task

        self.run_with(session())

    def test_what_never_comes(self) -> None:
        """A call that nothing can end raises NoAnswer; one with a timeout of asyncio ends at its millisecond."""

        async def session() -> None:
            async with aio.Meter(patience=15000) as meter:
                link = await meter.connect().create_link(io_timeout=LONG)
                await link.write("TRIG:SOUR EXT;:INIT;*OPC?")
                with self.assertRaises(asyncio.TimeoutError):
                    await asyncio.wait_for(link.read(), 2)
                self.assertEqual(meter.clock, 2000)
                with self.assertRaisesRegex(
                    NoAnswer, "isn't taken: it is behind device_read|can't be answered"
                ):
                    await link.read()

        self.run_with(session())

    def test_call_time(self) -> None:
        async def session() -> None:
            async with aio.Meter(call_time=1) as meter:
                link = await meter.connect().create_link()
                await link.readstb()
                self.assertEqual(meter.clock, 2)

        self.run_with(session())

    def test_sockets_and_virtual_time_have_the_same_methods(self) -> None:
        """And they are those of links and connections that aren't under asyncio."""
        for one, other in (vxi11.Link, aio.Link), (Core, aio.Core):
            for name in vars(one):
                if not name.startswith("_"):
                    self.assertIn(name, vars(other))

    def test_an_interrupt_channel(self) -> None:
        async def session() -> None:
            async with aio.Meter() as meter, meter.connect() as connection:
                await connection.create_intr_chan(LOOPBACK, 1)
                with self.assertRaisesRegex(DeviceError, "channel already established"):
                    await connection.listen()
                await connection.destroy_intr_chan()
                await connection.listen()

        self.run_with(session())


if __name__ == "__main__":
    unittest.main()
