"""Fixtures: each test has an instrument of its own, once in virtual time and once on sockets."""

from __future__ import annotations

import contextlib
import importlib.util
import pathlib
import sys
from collections.abc import Callable, Iterator
from typing import NamedTuple

import pytest
import pyvisa

HERE = pathlib.Path(__file__).resolve().parent
SCENARIO = HERE / "stand.scenario"
if importlib.util.find_spec("scanvolt") is None:  # it isn't installed: this is a checkout
    sys.path.insert(0, str(HERE.parent.parent / "python"))
from voltmeter import Voltmeter  # noqa: E402

pytest_plugins = ["scanvolt.pytest_plugin"]


class Stand(NamedTuple):
    """An instrument that has just been turned on."""

    manager: pyvisa.ResourceManager
    address: str
    is_virtual: bool


@contextlib.contextmanager
def in_virtual_time(_request: pytest.FixtureRequest) -> Iterator[Stand]:
    """An instrument without ports. time.sleep and time.monotonic use its virtual time."""
    manager = pyvisa.ResourceManager(f"{SCENARIO}@scanvolt")
    with contextlib.closing(manager), manager.visalib.meter(
        "TCPIP::scanvolt::INSTR"
    ).keeping_time():
        yield Stand(manager, "TCPIP::scanvolt::INSTR", True)


@contextlib.contextmanager
def on_sockets(request: pytest.FixtureRequest) -> Iterator[Stand]:
    """An instrument on sockets, by PyVISA-py, which would otherwise ask the port mapper at port 111."""
    rpc = pytest.importorskip("pyvisa_py.protocols.rpc", reason="PyVISA-py isn't there")
    server = request.getfixturevalue("scanvolt_server")
    request.getfixturevalue("monkeypatch").setattr(rpc, "PMAP_PORT", server.port_mapper)
    manager = pyvisa.ResourceManager("@py")
    with contextlib.closing(manager):
        yield Stand(manager, "TCPIP::127.0.0.1::inst0::INSTR", False)


@pytest.fixture(params=[in_virtual_time, on_sockets])
def stand(request: pytest.FixtureRequest) -> Iterator[Stand]:
    with request.param(request) as made:
        yield made


@pytest.fixture
def connect(stand: Stand) -> Iterator[Callable[[], Voltmeter]]:
    """Makes voltmeters, each with a link of its own."""
    resources: list[pyvisa.Resource] = []

    def make() -> Voltmeter:
        resources.append(
            stand.manager.open_resource(stand.address, open_timeout=5000, timeout=5000)
        )
        return Voltmeter(resources[-1])

    yield make
    for resource in resources:
        resource.close()


@pytest.fixture
def voltmeter(connect: Callable[[], Voltmeter]) -> Voltmeter:
    made = connect()
    made.reset()
    return made
