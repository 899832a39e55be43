"""Locks of sessions as VISA has them: exclusive ones, and shared ones by an access key, over the one lock of the instrument.

The instrument's lock belongs to one link. While sessions share a lock, the one that makes a call has it: it goes from link to
link, and no time passes meanwhile. Sessions without the key are refused by the instrument. A session that waits for
a shared lock to end waits here, and not in the instrument, whose lock it could get between two calls.
"""

from __future__ import annotations

import itertools
from collections.abc import Callable
from typing import TYPE_CHECKING

from pyvisa.constants import StatusCode
from scanvolt.virtual import NoAnswer
from scanvolt.vxi11 import DeviceError
from scanvolt.vxi11.errors import LOCKED

from .statuses import Refusal

if TYPE_CHECKING:
    from .session import Session

__tracebackhide__ = True  # pytest shows the line that calls the package, and not these frames
KEY_MOST = 255  # characters of an access key
_numbers = itertools.count(1)


class Sharing:
    """The locks of the sessions to one instrument."""

    def __init__(self) -> None:
        self._key = ""
        self.shares: dict[Session, int] = {}  # how often each session took the shared lock
        # of these, the one whose link has the instrument's lock
        self._holder: Session | None = None
        self._exclusive: Session | None = None  # of these, the one that has the exclusive lock too

    def enter(self, session: Session) -> None:
        """Before a call of a session: gives its link the instrument's lock if the session shares it."""
        if session not in self.shares:
            return
        if self._exclusive not in (None, session):
            raise Refusal(StatusCode.error_resource_locked)
        if self._holder is not session:
            self._move(session)

    def _move(self, session: Session) -> None:
        """Moves the instrument's lock to the link of a session."""
        if self._holder is not None:
            self._holder.link.unlock()
        self._holder = None
        session.link.lock(0)
        self._holder = session

    def lock_shared(
        self, session: Session, timeout: int, requested: str | None
    ) -> tuple[str, StatusCode]:
        """Takes the shared lock, with this key or a new one. Returns the key."""
        if requested is not None and not (
            isinstance(requested, str) and 0 < len(requested) <= KEY_MOST
        ):
            raise Refusal(StatusCode.error_invalid_access_key)
        if session in self.shares:
            if requested not in (None, self._key):
                raise Refusal(StatusCode.error_invalid_access_key)
            self.shares[session] += 1
            return self._key, StatusCode.success_nested_shared
        began = session.meter.clock
        self._await(
            session,
            timeout,
            lambda: not self.shares or requested == self._key and self._exclusive is None,
        )
        if not self.shares:
            if session.locks == 0:
                self._take(session, timeout, began)
            self._key, self._holder = requested or f"scanvolt-{next(_numbers)}", session
            self._exclusive = session if session.locks else None
        self.shares[session] = 1
        return self._key, StatusCode.success

    def lock_exclusive(self, session: Session, timeout: int) -> StatusCode:
        """Takes the exclusive lock."""
        if session.locks:
            session.locks += 1
            return StatusCode.success_nested_exclusive
        began, is_member = session.meter.clock, session in self.shares
        self._await(
            session, timeout, lambda: self._exclusive is None if is_member else not self.shares
        )
        if is_member:
            self._exclusive = session
            if self._holder is not session:
                self._move(session)
        else:
            self._take(session, timeout, began)
        session.locks = 1
        return StatusCode.success

    def unlock(self, session: Session) -> StatusCode:
        """Undoes one lock: an exclusive one before a shared one."""
        if session.locks:
            session.locks -= 1
            if session.locks:
                return StatusCode.success_nested_exclusive
            if session not in self.shares:
                session.link.unlock()
                return StatusCode.success
            self._exclusive = None
            return StatusCode.success_nested_shared
        if session not in self.shares:
            raise Refusal(StatusCode.error_session_not_locked)
        self.shares[session] -= 1
        if self.shares[session]:
            return StatusCode.success_nested_shared
        self.leave(session)
        return StatusCode.success

    def leave(self, session: Session) -> None:
        """Ends the share of a session, which may be about to close: another one gets the instrument's lock."""
        if self.shares.pop(session, None) is None:
            return
        if self._exclusive is session:
            self._exclusive = None
        if not self.shares:
            self._key = ""
        if self._holder is session:
            session.link.unlock()
            self._holder = None
            if self.shares:
                self._move(next(iter(self.shares)))

    @staticmethod
    def _await(session: Session, timeout: int, holds: Callable[[], bool]) -> None:
        """Waits until the locks of other sessions here allow one, for at most this many milliseconds. Raises NoAnswer if that is
        more than the meter's patience, and that was in vain.
        """
        patience = session.meter.patience
        if session.meter.until(holds, min(timeout, patience)):
            return
        if timeout > patience:
            raise NoAnswer(
                f"no lock within {patience} ms of virtual time: other sessions share the lock of the instrument"
            )
        raise Refusal(StatusCode.error_timeout if timeout else StatusCode.error_resource_locked)

    @staticmethod
    def _take(session: Session, timeout: int, began: int) -> None:
        """Takes the instrument's lock with the link of a session, in what is left of a timeout."""
        try:
            session.link.lock(max(0, timeout - (session.meter.clock - began)))
        except DeviceError as fault:
            if fault.number == LOCKED and timeout > 0:
                raise Refusal(StatusCode.error_timeout) from None
            raise
