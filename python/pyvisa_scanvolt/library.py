"""The library that PyVISA calls. It finds sessions by number, and instruments by host name."""

from __future__ import annotations

import itertools
import re
from collections.abc import Callable, Iterable
from typing import Any, NoReturn, TypeVar

from pyvisa import constants, errors, highlevel, rname
from pyvisa.constants import StatusCode
from pyvisa.util import LibraryPath
from scanvolt.virtual import Meter

from . import attributes, settings
from .session import Session
from .sharing import Sharing
from .statuses import FAULTS, Refusal, VisaIOError, status_of

__tracebackhide__ = True  # pytest shows the line that calls the package, and not these frames
Value = TypeVar("Value")
HOST = re.compile(r"scanvolt[0-9a-z_.-]*", re.IGNORECASE)
FIRST = "TCPIP0::scanvolt::inst0::INSTR"  # is always listed
NONE = "no scenario"
UNSUPPORTED = """
    assert_interrupt_signal assert_utility_signal get_buffer_from_id gpib_command gpib_control_atn
    gpib_pass_control gpib_send_ifc in_8 in_16 in_32 in_64 map_address map_trigger memory_allocation
    memory_free move move_asynchronously move_in_8 move_in_16 move_in_32 move_in_64 move_out_8 move_out_16
    move_out_32 move_out_64 out_8 out_16 out_32 out_64 peek_8 peek_16 peek_32 peek_64 poke_8 poke_16 poke_32
    poke_64 read_asynchronously read_to_file set_buffer terminate unmap_address unmap_trigger usb_control_in
    usb_control_out vxi_command_query write_asynchronously write_from_file
""".split()


class ScanvoltLibrary(highlevel.VisaLibraryBase):
    """Instruments in virtual time. An operation that isn't possible raises VisaIOError with VISA's status."""

    @staticmethod
    def get_library_paths() -> Iterable[LibraryPath]:
        """One path, for instruments without a scenario."""
        return (LibraryPath(NONE),)

    @staticmethod
    def get_debug_info() -> dict[str, Any]:
        """The path of the program, or why none was found."""
        from scanvolt.program import ProgramError, find_program

        try:
            return {"Program": find_program()}
        except ProgramError as fault:
            return {"Program": str(fault)}

    def _init(self) -> None:
        if self.library_path == NONE:
            self._settings = settings.Settings()
        else:
            self._settings = settings.read(str(self.library_path))
        self._sharings: dict[str, Sharing] = {}
        self._meters: dict[str, Meter] = {}
        self._given: list[str] = []  # the hosts of instruments that were made elsewhere
        self._sessions: dict[int, Session] = {}
        self._contexts: dict[int, constants.EventType] = {}
        self._numbers = itertools.count(1)
        self._manager: Any = None
        self._common = attributes.common()

    def meter(self, resource: Any) -> Meter:
        """The instrument of a resource, or of a resource's name. It is turned on now if it wasn't on."""
        name = getattr(resource, "_resource_name", resource)
        return self._meter(self._parsed(str(name))[1])

    def _meter(self, host: str) -> Meter:
        if host.lower() not in self._meters:
            self._meters[host.lower()] = self._settings.meter()
            self._sharings[host.lower()] = Sharing()
        return self._meters[host.lower()]

    def host_of(self, meter: Meter) -> str:
        """The host name of an instrument. One that has none gets one here. Names of such that were closed are forgotten."""
        found = next((host for host, one in self._meters.items() if one is meter), None)
        if found is None:
            for host in [host for host in self._given if not self._meters[host].is_open]:
                del self._meters[host], self._sharings[host]
                self._given.remove(host)
            found = f"scanvolt-meter-{next(self._numbers)}"
            self._given.append(found)
            self._meters[found], self._sharings[found] = meter, Sharing()
        return found

    def _parsed(self, name: str) -> tuple[Any, str]:
        """The parts of a resource name, and its host. Raises VisaIOError if no instrument here can have that name."""
        try:
            parsed = rname.ResourceName.from_string(name)
        except rname.InvalidResourceName:
            self._refused(StatusCode.error_invalid_resource_name)
        given = self._settings.host(name)
        if given is not None:
            return parsed, given
        if not isinstance(parsed, rname.TCPIPInstr) or not HOST.fullmatch(parsed.host_address):
            self._refused(StatusCode.error_resource_not_found)
        if parsed.board != "0":
            self._refused(StatusCode.error_interface_number_not_configured)
        return parsed, parsed.host_address

    def _refused(self, status: StatusCode) -> NoReturn:
        """Raises VisaIOError with this status."""
        self.handle_return_value(None, status)
        raise AssertionError(f"a status that is no error: {status!s}")

    def _done(self, number: Any, action: Callable[[Session], Value]) -> Value:
        """Does an action of a session, and returns its result. A fault is raised as VisaIOError."""
        session = self._sessions.get(number)
        status = StatusCode.error_invalid_object
        cause: Exception | None = None
        if session is not None:
            try:
                return action(session)
            except FAULTS as fault:
                status, cause = status_of(fault), fault
        try:
            self.handle_return_value(number, status)
        except errors.VisaIOError as error:
            raise error if cause is None else VisaIOError(error.error_code, cause) from None
        raise AssertionError(f"a status that is no error: {status!s}")

    def _told(self, number: Any, action: Callable[[Session], StatusCode]) -> StatusCode:
        """Does an action of a session that returns a status."""
        return self.handle_return_value(number, self._done(number, action))

    def _plain(self, number: Any, action: Callable[[Session], object]) -> StatusCode:
        """Does an action of a session whose result isn't wanted."""
        self._done(number, action)
        return self.handle_return_value(number, StatusCode.success)

    def open_default_resource_manager(self) -> tuple[Any, StatusCode]:
        """Opens the session of the resource manager (viOpenDefaultRM)."""
        number: Any = next(self._numbers)
        self._manager = number
        return self._manager, self.handle_return_value(self._manager, StatusCode.success)

    def list_resources(self, session: Any, query: str = "?*::INSTR") -> tuple[str, ...]:
        """The instruments that are on, and one that is always listed (viFindRsrc)."""
        names = (
            {f"TCPIP0::{host}::inst0::INSTR" for host in self._meters}
            | {FIRST}
            | set(self._settings.hosts)
        )
        return rname.filter(sorted(names), query)

    def open(
        self,
        session: Any,
        resource_name: str,
        access_mode: constants.AccessModes = constants.AccessModes.no_lock,
        open_timeout: int = constants.VI_TMO_IMMEDIATE,
    ) -> tuple[Any, StatusCode]:
        """Opens a session to an instrument, with its lock if access_mode asks for that (viOpen)."""
        if access_mode not in (constants.AccessModes.no_lock, constants.AccessModes.exclusive_lock):
            self.handle_return_value(session, StatusCode.error_invalid_access_mode)
        parsed, host = self._parsed(resource_name)
        device = getattr(parsed, "lan_device_name", "inst0")
        lock_timeout = None if access_mode == constants.AccessModes.no_lock else open_timeout
        status = StatusCode.success
        try:
            meter = self._meter(host)
            opened = Session(
                meter,
                self._sharings[host.lower()],
                attributes.of_instrument(parsed, host, device),
                device,
                lock_timeout,
            )
        except FAULTS as fault:
            if isinstance(fault, ConnectionError):
                status = StatusCode.error_allocation
            else:
                status = status_of(fault)
        self.handle_return_value(session, status)
        number: Any = next(self._numbers)
        opened.number, opened.new_context = number, self._new_context
        self._sessions[number] = opened
        return number, self.handle_return_value(number, StatusCode.success)

    def _new_context(self) -> int:
        """Makes the context of an event."""
        number = next(self._numbers)
        self._contexts[number] = constants.EventType.service_request
        return number

    def close(self, session: Any) -> StatusCode:
        """Closes a session, an event, or the resource manager, which turns off all instruments that it turned on."""
        if session in self._contexts:
            del self._contexts[session]
        elif session == self._manager:
            made_elsewhere = [self._meters[host] for host in self._given]
            for one in self._sessions.values():
                if one.meter in made_elsewhere:
                    one.close()
            for meter in self._meters.values():
                if meter not in made_elsewhere:
                    meter.close()
            self._meters.clear()
            self._given.clear()
            self._sharings.clear()
            self._sessions.clear()
            self._contexts.clear()
        else:
            self._done(session, Session.close)
            del self._sessions[session]
        return self.handle_return_value(None, StatusCode.success)

    def get_attribute(self, session: Any, attribute: Any) -> tuple[Any, StatusCode]:
        """The state of an attribute of a session, an event or the resource manager (viGetAttribute)."""
        if session in self._contexts:
            if attribute == constants.EventAttribute.event_type:
                return self._contexts[session], self.handle_return_value(
                    session, StatusCode.success
                )
            self.handle_return_value(session, StatusCode.error_nonsupported_attribute)
        if session == self._manager:
            if attribute not in self._common:
                self.handle_return_value(session, StatusCode.error_nonsupported_attribute)
            return self._common[attribute].state, self.handle_return_value(
                session, StatusCode.success
            )
        if attribute == constants.ResourceAttribute.resource_manager_session:
            return self._manager, self.handle_return_value(session, StatusCode.success)
        state = self._done(session, lambda one: [one.get(attribute)])[0]
        if attribute == constants.ResourceAttribute.resource_lock_state:
            state = self._lock_state(self._sessions[session].meter)
        return state, self.handle_return_value(session, StatusCode.success)

    def _lock_state(self, meter: Meter) -> constants.AccessModes:
        """Whether any session to this instrument has its lock, or shares it."""
        sessions = [one for one in self._sessions.values() if one.meter is meter]
        if any(one.locks for one in sessions):
            return constants.AccessModes.exclusive_lock
        if any(one.sharing.shares for one in sessions):
            return constants.AccessModes.shared_lock
        return constants.AccessModes.no_lock

    def set_attribute(self, session: Any, attribute: Any, attribute_state: Any) -> StatusCode:
        """Sets an attribute of a session (viSetAttribute)."""
        return self._plain(session, lambda one: one.put(attribute, attribute_state))

    def write(self, session: Any, data: bytes) -> tuple[int, StatusCode]:
        """Writes bytes. Returns how many were taken (viWrite)."""
        count = self._done(session, lambda one: one.write(bytes(data)))
        return count, self.handle_return_value(session, StatusCode.success)

    def read(self, session: Any, count: int) -> tuple[bytes, StatusCode]:
        """Reads at most `count` bytes (viRead)."""
        data, status = self._done(session, lambda one: one.read(count))
        return data, self.handle_return_value(session, status)

    def buffer_write(self, session: Any, data: bytes) -> tuple[int, StatusCode]:
        """Nothing is buffered."""
        return self.write(session, data)

    def buffer_read(self, session: Any, count: int) -> tuple[bytes, StatusCode]:
        """Nothing is buffered."""
        return self.read(session, count)

    def flush(self, session: Any, mask: constants.BufferOperation) -> StatusCode:
        """Nothing is buffered."""
        return self._plain(session, lambda one: None)

    def read_stb(self, session: Any) -> tuple[int, StatusCode]:
        """Reads the status byte (viReadSTB)."""
        status_byte = self._done(session, Session.read_stb)
        return status_byte, self.handle_return_value(session, StatusCode.success)

    def clear(self, session: Any) -> StatusCode:
        """Clears the device (viClear)."""
        return self._plain(session, Session.clear)

    def assert_trigger(self, session: Any, protocol: constants.TriggerProtocol) -> StatusCode:
        """Triggers the instrument (viAssertTrigger)."""
        return self._plain(session, lambda one: one.trigger(protocol))

    def gpib_control_ren(self, session: Any, mode: constants.RENLineOperation) -> StatusCode:
        """Selects remote or local operation (viGpibControlREN)."""
        return self._plain(session, lambda one: one.control_ren(mode))

    def lock(
        self,
        session: Any,
        lock_type: constants.Lock,
        timeout: int,
        requested_key: str | None = None,
    ) -> tuple[str, StatusCode]:
        """Takes the exclusive lock, or a shared one by an access key. Waits for it up to `timeout` milliseconds (viLock)."""
        key, status = self._done(
            session, lambda one: one.lock(lock_type, int(timeout), requested_key)
        )
        return key, self.handle_return_value(session, status)

    def unlock(self, session: Any) -> StatusCode:
        """Frees the lock (viUnlock)."""
        return self._told(session, Session.unlock)

    def enable_event(
        self,
        session: Any,
        event_type: constants.EventType,
        mechanism: constants.EventMechanism,
        context: None = None,
    ) -> StatusCode:
        """Turns on service requests (viEnableEvent)."""
        return self._told(session, lambda one: one.enable(event_type, mechanism))

    def disable_event(
        self, session: Any, event_type: constants.EventType, mechanism: constants.EventMechanism
    ) -> StatusCode:
        """Turns off service requests (viDisableEvent)."""
        return self._told(session, lambda one: one.disable(event_type, mechanism))

    def discard_events(
        self, session: Any, event_type: constants.EventType, mechanism: constants.EventMechanism
    ) -> StatusCode:
        """Discards service requests that came (viDiscardEvents)."""
        return self._told(session, lambda one: one.discard(event_type, mechanism))

    def wait_on_event(
        self, session: Any, in_event_type: constants.EventType, timeout: int | None
    ) -> tuple[constants.EventType, Any, StatusCode]:
        """Waits for a service request, up to `timeout` milliseconds (viWaitOnEvent)."""
        status = self._told(session, lambda one: one.wait(in_event_type, timeout))
        return constants.EventType.service_request, self._new_context(), status

    def install_handler(
        self, session: Any, event_type: constants.EventType, handler: Any, user_handle: Any
    ) -> tuple[Any, Any, Any, StatusCode]:
        """Adds a handler of service requests. It is called while they are turned on (viInstallHandler)."""
        if event_type != constants.EventType.service_request:
            self.handle_return_value(session, StatusCode.error_invalid_event)
        status = self._plain(session, lambda one: one.handlers.append((handler, user_handle)))
        return handler, user_handle, handler, status

    def uninstall_handler(
        self, session: Any, event_type: constants.EventType, handler: Any, user_handle: Any = None
    ) -> StatusCode:
        """Removes a handler (viUninstallHandler)."""

        def uninstall(one: Session) -> None:
            if (handler, user_handle) not in one.handlers:
                raise Refusal(StatusCode.error_invalid_handler_reference)
            one.handlers.remove((handler, user_handle))

        return self._plain(session, uninstall)

    def status_description(self, session: Any, status: StatusCode) -> tuple[str, StatusCode]:
        """A status in words."""
        known = errors.completion_and_error_messages.get(status)
        words: str | tuple[str, ...] | list[str] = known or ("unknown status",)
        return words if isinstance(words, str) else words[-1], StatusCode.success

    def _unsupported(self, session: Any, *_rest: Any, **_named: Any) -> Any:
        """Refuses an operation that these instruments don't have."""
        return self.handle_return_value(session, StatusCode.error_nonsupported_operation)


for _name in UNSUPPORTED:
    setattr(ScanvoltLibrary, _name, ScanvoltLibrary._unsupported)
