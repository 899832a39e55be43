"""Locks as VISA has them (VPP-4.3, 3.6): shared ones by access key beside exclusive ones, and the statuses of viLock's table."""

from __future__ import annotations

import threading
import unittest
from collections.abc import Callable
from typing import Any

from pyvisa.constants import AccessModes, Lock, StatusCode
from scanvolt.virtual import NoAnswer
from scanvolt.vxi11 import DeviceError
from test_backend import WithResource


class Shared(WithResource):
    """Three sessions to one instrument."""

    def setUp(self) -> None:
        super().setUp()
        self.other, self.third = self.open(timeout=50), self.open(timeout=50)

    def status(self, resource: Any, kind: Lock = Lock.shared, key: Any = None) -> StatusCode:
        """The status with which a lock is taken."""
        found = self.manager.visalib.lock(resource.session, kind, 0, key)[1]
        assert isinstance(found, StatusCode)
        return found

    def test_those_with_the_key(self) -> None:
        """They work by turns; one without the key is refused, and so is a client that isn't of VISA."""
        key = self.resource.lock()
        self.assertEqual(self.other.lock(requested_key=key), key)
        self.resource.write("CALC:LIM:UPP 5")
        self.assertEqual(self.other.query("CALC:LIM:UPP?"), "+5.000000")
        self.assertEqual(self.resource.query("CALC:LIM:UPP?"), "+5.000000")
        self.error(StatusCode.error_resource_locked, self.third.read_stb)
        self.assertRaises(DeviceError, self.meter.connect().create_link().readstb)
        self.assertEqual(self.third.lock_state, AccessModes.shared_lock)

    def test_which_key(self) -> None:
        self.assertEqual(self.resource.lock(requested_key="bench 7"), "bench 7")
        self.error(StatusCode.error_resource_locked, lambda: self.other.lock(0))
        self.error(StatusCode.error_resource_locked, lambda: self.other.lock(0, "bench 8"))
        self.error(StatusCode.error_timeout, lambda: self.other.lock(30, "bench 8"), 30)
        self.error(StatusCode.error_invalid_access_key, lambda: self.other.lock(0, ""))
        self.error(StatusCode.error_invalid_access_key, lambda: self.other.lock(0, 256 * "k"))
        self.error(StatusCode.error_invalid_access_key, lambda: self.resource.lock(0, "bench 8"))
        self.assertEqual(self.other.lock(0, "bench 7"), "bench 7")
        self.assertNotEqual(
            self.open("TCPIP::scanvolt2").lock(), self.open("TCPIP::scanvolt3").lock()
        )

    def test_nested(self) -> None:
        library, session = self.manager.visalib, self.resource.session
        self.assertEqual(self.status(self.resource), StatusCode.success)
        self.assertEqual(self.status(self.resource), StatusCode.success_nested_shared)
        self.assertEqual(self.status(self.resource, Lock.exclusive), StatusCode.success)
        self.assertEqual(
            self.status(self.resource, Lock.exclusive), StatusCode.success_nested_exclusive
        )
        self.assertEqual(
            [library.unlock(session) for _ in range(4)],
            [
                StatusCode.success_nested_exclusive,
                StatusCode.success_nested_shared,
                StatusCode.success_nested_shared,
                StatusCode.success,
            ],
        )
        self.error(StatusCode.error_session_not_locked, self.resource.unlock)
        self.other.lock_excl(0)

    def test_the_exclusive_lock_of_one_that_shares(self) -> None:
        key = self.resource.lock()
        self.other.lock(requested_key=key)
        self.other.lock_excl()
        self.error(StatusCode.error_resource_locked, self.resource.read_stb)
        self.error(StatusCode.error_resource_locked, lambda: self.resource.lock_excl(0))
        self.error(StatusCode.error_resource_locked, lambda: self.third.lock(0, key))
        self.assertEqual(self.other.read_stb(), 0)
        self.other.unlock()
        self.assertEqual(self.resource.read_stb(), 0)

    def test_who_leaves(self) -> None:
        """The lock stays with those that are left, whether one unlocks or closes; with the last one it ends."""
        key = self.resource.lock()
        self.other.lock(requested_key=key)
        self.resource.unlock()
        self.error(StatusCode.error_resource_locked, self.resource.read_stb)
        self.resource.lock(requested_key=key)
        self.other.close()
        self.error(StatusCode.error_resource_locked, self.third.read_stb)
        self.resource.close()
        self.assertEqual(self.third.read_stb(), 0)
        self.third.lock_excl(0)

    def test_one_that_waits(self) -> None:
        """It waits until all that share have ended that, and never gets the lock between two of their calls."""
        key = self.resource.lock()
        self.other.lock(requested_key=key)
        told: list[str] = []

        def share() -> None:
            for _ in range(5):
                self.resource.read_stb()
                self.other.read_stb()
                self.meter.advance(3)
            self.resource.unlock()
            self.other.unlock()
            told.append("ended")

        def wait() -> None:
            self.third.lock_excl(timeout=1000)
            told.append("granted")

        threads = [threading.Thread(target=one) for one in (share, wait)]
        with self.meter.threads(2):
            for thread in threads:
                thread.start()
            for thread in threads:
                thread.join(30)
        self.assertEqual((told, self.meter.clock), (["ended", "granted"], 15))

    def test_without_a_timeout(self) -> None:
        """A wait that nobody ends isn't endless."""
        key = self.resource.lock()
        self.other.lock(requested_key=key)
        self.other.lock_excl()
        self.resource.timeout = self.third.timeout = None
        for take in self.third.lock_excl, self.third.lock, self.resource.lock_excl:
            self.assertRaisesRegex(
                NoAnswer,
                "no lock within 600000 ms of virtual time: other sessions share the lock",
                take,
            )

    def test_over_an_exclusive_lock(self) -> None:
        """A session that has the exclusive lock may share it, and others come in when it ends."""
        self.resource.lock_excl()
        self.error(StatusCode.error_resource_locked, lambda: self.other.lock(0, "key"))
        self.resource.lock(requested_key="key")
        self.error(StatusCode.error_timeout, lambda: self.other.lock(20, "key"), 20)
        self.resource.unlock()
        self.other.lock(requested_key="key")
        self.assertEqual((self.other.read_stb(), self.resource.read_stb()), (0, 0))

    def test_other_clients(self) -> None:
        """A link that isn't of VISA has the instrument's lock: viLock's statuses are the same."""
        self.meter.connect().create_link(lock=True)
        for kind in Lock.shared, Lock.exclusive:
            take: Callable[[int], object] = lambda timeout: self.manager.visalib.lock(
                self.resource.session, kind, timeout
            )
            self.error(StatusCode.error_resource_locked, lambda: take(0))
            self.error(StatusCode.error_timeout, lambda: take(40), 40)
        self.assertEqual(self.resource.lock_state, AccessModes.no_lock)


if __name__ == "__main__":
    unittest.main()
