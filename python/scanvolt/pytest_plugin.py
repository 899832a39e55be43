"""Fixtures of pytest: `meter`, an instrument in virtual time, `scanvolt_server`, one on sockets, and `visa_meter`, one by
PyVISA, either way.

Each test that uses one of them has an instrument of its own, which has just been turned on. A marker names its
scenario, by a path relative to the folder of the test's file: `@pytest.mark.scanvolt(scenario="stand.scenario")`.
`patience` and `call_time` there are those of Meter. For `visa_meter`, `backend` is "virtual" or "sockets", or a tuple of
both, so that the test runs both ways; and `names={"GPIB0::8::INSTR": "scanvolt"}` gives the instrument resource names. Other
hosts, such as scanvolt2, are other instruments, in virtual time only.

The report of a failed test has a section that says what the instrument saw. For an instrument on sockets it is told from the
record that its server keeps; or from a capture, if `--scanvolt-capture` names one that is written while the tests run. If a test
used a Relay, a section says which faults that did.
"""

from __future__ import annotations

import functools
import time
from collections.abc import Callable, Generator, Iterator
from typing import Any, TypeVar

import pytest

from . import __version__
from .about import version_and_kind
from .faults.relay import RELAYS
from .program import ProgramError, Server, found
from .replay import Moment
from .virtual import METERS, Meter
from .visa_fixture import BACKENDS, VisaMeter

__tracebackhide__ = True  # pytest shows the line that calls the package, and not these frames
Made = TypeVar("Made")
MARKER = (
    "scanvolt(scenario=FILE, patience=MILLISECONDS, call_time=MILLISECONDS, names={NAME: HOST}, backend=BACKEND): "
    "the instrument of `meter` and `visa_meter`; `scanvolt_server` takes the scenario"
)
OPTIONS = ("scenario", "patience", "call_time", "names", "backend")
OF_METER = OPTIONS[:3]
SECTION = "what the instrument saw"
SECTIONS = 3  # instruments of a test that are told
RELAYED = "faults on order of the relay"
BEFORE = pytest.StashKey[dict[int, Moment]]()
SERVED = pytest.StashKey[tuple[Server, float]]()  # the server of a test, and when it was ready
RELAYED_BEFORE = pytest.StashKey[dict[int, int]]()


def pytest_configure(config: pytest.Config) -> None:
    """Registers the marker with pytest, and the coverage of the instrument if it is wanted."""
    config.addinivalue_line("markers", MARKER)
    wanted, least, everything = (
        config.getoption("--scanvolt-coverage" + more) for more in ("", "-least", "-all")
    )
    if wanted or everything or least is not None:
        from .coverage.plugin import Coverage

        config.pluginmanager.register(Coverage(config, least or 0, everything))


def pytest_addoption(parser: pytest.Parser) -> None:
    """Adds the options of this plugin."""
    group = parser.getgroup("scanvolt")
    group.addoption(
        "--scanvolt-trace",
        metavar="DIR",
        help=(
            "keeps script, text and page of what the instrument saw, for each failed test that used one"
        ),
    )
    group.addoption(
        "--scanvolt-capture",
        metavar="FILE",
        help=(
            "tells what the instrument of `scanvolt_server` saw from the capture that `tshark -i lo -f tcp -w FILE` writes, and not "
            "from its record"
        ),
    )
    group.addoption(
        "--scanvolt-coverage",
        action="store_true",
        help="tells what the tests in virtual time met of the instrument",
    )
    group.addoption(
        "--scanvolt-coverage-least",
        metavar="PERCENT",
        type=float,
        help="the same, and fails if that is less",
    )
    group.addoption(
        "--scanvolt-coverage-all",
        action="store_true",
        help="the same, and how often each entry was met",
    )


def _begun(item: pytest.Item) -> None:
    """Notes where each meter is before a test, and how many faults each relay has told."""
    item.stash[BEFORE] = {number: one._replay.moment() for number, one in METERS.items()}
    item.stash[RELAYED_BEFORE] = {number: len(one.told) for number, one in RELAYS.items()}


def _reported(item: pytest.Item) -> Generator[None, Any, None]:
    """Adds a section to the report of a failed test for each instrument that the test used."""
    outcome = yield
    report = outcome.get_result()
    before: dict[int, Moment] = item.stash.get(BEFORE, {})
    if not report.failed:
        return
    used = [
        one for number, one in sorted(METERS.items()) if before.get(number) != one._replay.moment()
    ]
    for place, meter in enumerate(used[:SECTIONS], 1):
        name = item.nodeid + ("" if place == 1 else f"_{place}")
        report.sections.append((SECTION, told(functools.partial(_of_meter, item, meter, name))))
    if SERVED in item.stash:
        report.sections.append(
            (SECTION, told(functools.partial(_of_server, item, *item.stash[SERVED])))
        )
        del item.stash[SERVED]
    relayed: dict[int, int] = item.stash.get(RELAYED_BEFORE, {})
    lines = [
        line
        for number, one in sorted(RELAYS.items())
        for line in one.told[relayed.get(number, 0) :]
    ]
    if lines:
        report.sections.append((RELAYED, "\n".join(lines)))
    _begun(item)


pytest_runtest_setup = pytest.hookimpl(tryfirst=True)(_begun)
pytest_runtest_makereport = pytest.hookimpl(hookwrapper=True)(_reported)


def told(tell: Callable[[], str]) -> str:
    """What an instrument saw; or why that can't be told, since a report is no place to fail."""
    try:
        return tell()
    except Exception as fault:
        return f"it can't be told: {str(fault) or type(fault).__name__}"


def _of_meter(item: pytest.Item, meter: Meter, name: str) -> str:
    """What an instrument in virtual time saw."""
    from .explaining.section import section

    return section(meter.explain(), name, item.config.getoption("--scanvolt-trace"))


def _of_server(item: pytest.Item, server: Server, start: float) -> str:
    """What an instrument on sockets saw: from a capture if there is one, else from its record."""
    from .explaining import section

    capture = item.config.getoption("--scanvolt-capture")
    if not capture:
        return section.section(
            server.explain(), item.nodeid + "_server", item.config.getoption("--scanvolt-trace")
        )
    found, warnings = section.captured(server, start, capture)
    return "\n".join(
        [
            section.section(
                found, item.nodeid + "_server", item.config.getoption("--scanvolt-trace")
            ),
            *warnings,
        ]
    )


def pytest_report_header() -> str:
    """The line about this package and its program, in the head of what pytest prints."""
    try:
        path, where = found()
    except ProgramError as fault:
        return f"scanvolt: {__version__}, no program: {fault}"
    version, kind = version_and_kind(path)
    return f"scanvolt: {__version__}, program {path} (found by {where}, version {version}, kind {kind})"


def options_of(request: pytest.FixtureRequest) -> dict[str, Any]:
    """The options that the marker of a test gives."""
    marker = request.node.get_closest_marker("scanvolt")
    options = {} if marker is None else dict(marker.kwargs)
    if marker is None or not marker.args:
        unknown = sorted(set(options) - set(OPTIONS))
    else:
        unknown = ["without a name"]
    if unknown:
        pytest.fail(
            f"the marker scanvolt has no option {unknown[0]}, but {', '.join(OPTIONS)}", False
        )
    if options.get("scenario") is not None:
        options["scenario"] = request.path.parent / options["scenario"]
    return options


def made(make: Callable[[], Made]) -> Made:
    """Makes an instrument. If that fails, the test fails with one line that says why."""
    try:
        return make()
    except (ProgramError, OSError, TypeError, ValueError) as fault:
        told = str(fault)
    # outside of `except`, where pytest would show `fault` too
    return pytest.fail(told, pytrace=False)


@pytest.fixture
def meter(request: pytest.FixtureRequest) -> Iterator[Meter]:
    """A scanvolt.virtual.Meter."""
    options = {name: value for name, value in options_of(request).items() if name in OF_METER}
    with made(lambda: Meter(**options)) as one:
        yield one


def pytest_generate_tests(metafunc: pytest.Metafunc) -> None:
    """Runs a test with `visa_meter` once for each backend, if its marker names several."""
    marker = metafunc.definition.get_closest_marker("scanvolt")
    backend = None if marker is None else marker.kwargs.get("backend")
    if "visa_meter" in metafunc.fixturenames and isinstance(backend, (list, tuple)):
        metafunc.parametrize("visa_meter", backend, indirect=True)


@pytest.fixture
def visa_meter(
    request: pytest.FixtureRequest,
    monkeypatch: pytest.MonkeyPatch,
    tmp_path_factory: pytest.TempPathFactory,
) -> Iterator[VisaMeter]:
    """An instrument by PyVISA: a VisaMeter."""
    options = options_of(request)
    backend = options.pop("backend", None) or BACKENDS[0]
    backend = getattr(request, "param", backend)
    if backend not in BACKENDS:
        pytest.fail(
            f"the marker scanvolt wants as backend {' or '.join(BACKENDS)}, and not {backend!r}",
            False,
        )
    pytest.importorskip("pyvisa")
    if backend == "sockets":
        pytest.importorskip("pyvisa_py", reason="PyVISA-py isn't there")
    with made(
        lambda: VisaMeter(backend, options, monkeypatch, tmp_path_factory.mktemp("scanvolt"))
    ) as one:
        if one.server is not None:
            request.node.stash[SERVED] = (one.server, time.time())
        yield one


@pytest.fixture
def scanvolt_server(request: pytest.FixtureRequest) -> Iterator[Server]:
    """A scanvolt.program.Server, on free ports of 127.0.0.1: `core`, `abort` and `port_mapper`. `set_input` and `external` change
    its inputs.
    """
    scenario = options_of(request).get("scenario")
    with made(lambda: Server(scenario, record=True, control=True)) as server:
        request.node.stash[SERVED] = (server, time.time())
        yield server
