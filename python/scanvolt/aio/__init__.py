"""The client and the virtual instrument for drivers under asyncio: `Client`, and `Meter` whose time is the loop's.

    async with Client(port=4096) as client:
        link = await client.create_link()
        print(await link.query("*IDN?"))

Links and connections have the methods of those in scanvolt.vxi11 and scanvolt.virtual, which are awaited where they wait. What a
Meter lacks here, its `virtual` has, such as `explain` and `faults`.
"""

from .client import Client
from .link import Core, Link, Requests
from .meter import Connection, Meter

__all__ = ["Client", "Connection", "Core", "Link", "Meter", "Requests"]
