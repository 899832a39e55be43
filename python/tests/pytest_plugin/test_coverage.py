"""pytest --scanvolt-coverage: counts the sessions of all tests, of several workers too, and fails below a threshold."""

from __future__ import annotations

import pathlib
import re
from importlib.util import find_spec

import pytest

TOP = pathlib.Path(__file__).resolve().parents[2]
PLUGIN = ("-p", "scanvolt.pytest_plugin")
TESTS = """
    from scanvolt.virtual import Meter

    kept = Meter()

    def test_reset(meter):
        meter.connect().create_link().write("*RST")

    def test_clear_status(meter):
        meter.connect().create_link().write("*CLS")

    def test_without_a_fixture():
        with Meter() as one:
            one.connect().create_link().query("*TST?")

    def test_a_meter_that_stays():
        kept.connect().create_link().query("*STB?")
"""


@pytest.fixture(autouse=True)
def path(pytester: pytest.Pytester, monkeypatch: pytest.MonkeyPatch) -> None:
    monkeypatch.setenv("PYTHONPATH", str(TOP))
    pytester.makepyfile(TESTS)


def commands(result: pytest.RunResult) -> int:
    """How many commands and queries the summary says were met."""
    found = re.search(r"commands and queries (\d+) of 64, ", result.stdout.str())
    assert found is not None, result.stdout.str()
    return int(found[1])


def test_the_numbers(pytester: pytest.Pytester) -> None:
    """They change when a test is left out."""
    assert commands(pytester.runpytest_subprocess(*PLUGIN, "--scanvolt-coverage")) == 4
    assert (
        commands(pytester.runpytest_subprocess(*PLUGIN, "--scanvolt-coverage", "-k", "not reset"))
        == 3
    )


@pytest.mark.skipif(find_spec("xdist") is None, reason="Debian's python3-pytest-xdist isn't there")
def test_workers(pytester: pytest.Pytester) -> None:
    assert commands(pytester.runpytest_subprocess(*PLUGIN, "--scanvolt-coverage", "-n", "2")) == 4


def test_the_threshold(pytester: pytest.Pytester) -> None:
    assert pytester.runpytest_subprocess(*PLUGIN, "--scanvolt-coverage-least=1").ret == 0
    result = pytester.runpytest_subprocess(
        *PLUGIN, "--scanvolt-coverage-least=99", "--scanvolt-coverage-all"
    )
    assert result.ret == 1
    result.stdout.fnmatch_lines(["       1  [*]RST", "coverage of the instrument: * is below 99 %"])


def test_it_is_not_told_unless_wanted(pytester: pytest.Pytester) -> None:
    assert "coverage" not in pytester.runpytest_subprocess(*PLUGIN).stdout.str()
