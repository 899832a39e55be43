"""The attributes of a session, by VISA's names: their initial states, and the states that may be set."""

from __future__ import annotations

from collections.abc import Callable
from typing import Any, NamedTuple

from pyvisa import constants
from pyvisa.constants import ResourceAttribute as Name
from pyvisa.constants import StatusCode

from .statuses import Refusal

__tracebackhide__ = True  # pytest shows the line that calls the package, and not these frames
LONGEST = 0xFFFFFFFF  # VI_TMO_INFINITE
SPEC_VERSION = 0x00500800  # 5.8
IMPL_VERSION = 0x00200000  # 2.0
NO_SECONDARY = 0xFFFF  # VI_NO_SEC_ADDR
QUEUE_LENGTH = 50  # events that a queue holds, unless the attribute is set


class Kept(NamedTuple):
    """An attribute: its state, and which states may be set. Without `accepts` it is read-only."""

    state: Any
    accepts: Callable[[Any], bool] | None = None


def _number(most: int) -> Callable[[Any], bool]:
    return lambda state: isinstance(state, int) and 0 <= state <= most


def _boolean(state: Any) -> bool:
    return state in (0, 1)


def _only(*states: Any) -> Callable[[Any], bool]:
    return lambda state: state in states


def common() -> dict[Name, Kept]:
    """The attributes of every session, also that of the resource manager."""
    return {
        Name.resource_manufacturer_name: Kept("scanvolt"),
        Name.resource_manufacturer_id: Kept(0),
        Name.resource_spec_version: Kept(SPEC_VERSION),
        Name.resource_impl_version: Kept(IMPL_VERSION),
        Name.user_data: Kept(0, _number(2**64 - 1)),
        Name.max_queue_length: Kept(QUEUE_LENGTH, _number(LONGEST)),
    }


def of_instrument(parsed: Any, host: str, device: str) -> dict[Name, Kept]:
    """The attributes of a session to an instrument, by its parsed resource name."""
    states = common()
    states.update(
        {
            Name.resource_name: Kept(str(parsed)),
            Name.resource_class: Kept("INSTR"),
            Name.resource_lock_state: Kept(constants.AccessModes.no_lock),
            Name.timeout_value: Kept(2000, _number(LONGEST)),
            Name.termchar: Kept(10, _number(255)),
            Name.termchar_enabled: Kept(False, _boolean),
            Name.send_end_enabled: Kept(True, _boolean),
            Name.suppress_end_enabled: Kept(False, _only(False)),
            Name.io_prot: Kept(constants.VI_PROT_NORMAL, _only(constants.VI_PROT_NORMAL)),
            Name.file_append_enabled: Kept(False, _boolean),
            Name.dma_allow_enabled: Kept(False, _boolean),
            Name.trigger_id: Kept(constants.VI_TRIG_SW, _only(constants.VI_TRIG_SW)),
            Name.read_buffer_operation_mode: Kept(
                constants.VI_FLUSH_DISABLE,
                _only(constants.VI_FLUSH_DISABLE, constants.VI_FLUSH_ON_ACCESS),
            ),
            Name.write_buffer_operation_mode: Kept(
                constants.VI_FLUSH_WHEN_FULL,
                _only(constants.VI_FLUSH_WHEN_FULL, constants.VI_FLUSH_ON_ACCESS),
            ),
            Name.read_buffer_size: Kept(4096),
            Name.write_buffer_size: Kept(4096),
        }
    )
    states.update(_of_interface(parsed, host, device))
    return states


def _of_interface(parsed: Any, host: str, device: str) -> dict[Name, Kept]:
    """The attributes of the interface that a resource name has."""
    interface = parsed.interface_type
    states = {
        Name.interface_type: Kept(getattr(constants.InterfaceType, interface.lower())),
        Name.interface_number: Kept(int(getattr(parsed, "board", 0))),
        Name.interface_instrument_name: Kept(
            f"{interface}{getattr(parsed, 'board', '0')} ({host})"
        ),
    }
    if interface == "TCPIP":
        states.update(
            {
                Name.tcpip_address: Kept("127.0.0.1"),
                Name.tcpip_hostname: Kept(host),
                Name.tcpip_device_name: Kept(device),
                Name.tcpip_is_hislip: Kept(False),
            }
        )
    if interface == "GPIB":
        states.update(
            {
                Name.gpib_primary_address: Kept(int(parsed.primary_address)),
                Name.gpib_secondary_address: Kept(int(parsed.secondary_address) or NO_SECONDARY),
                Name.gpib_readdress_enabled: Kept(True, _boolean),
                Name.gpib_unadress_enable: Kept(False, _boolean),
            }
        )
    return states


def get(states: dict[Name, Kept], name: Name) -> Any:
    """The state of an attribute."""
    if name not in states:
        raise Refusal(StatusCode.error_nonsupported_attribute)
    return states[name].state


def put(states: dict[Name, Kept], name: Name, state: Any) -> None:
    """Sets an attribute."""
    if name not in states:
        raise Refusal(StatusCode.error_nonsupported_attribute)
    accepts = states[name].accepts
    if accepts is None:
        raise Refusal(StatusCode.error_attribute_read_only)
    if not accepts(state):
        raise Refusal(StatusCode.error_nonsupported_attribute_state)
    states[name] = states[name]._replace(state=state)
