"""pytest --scanvolt-coverage: counts what the sessions of all tests in virtual time have met."""

from __future__ import annotations

from collections import Counter
from typing import Any

import pytest

from ..explaining.running import lines_of
from ..explaining.story import Story
from ..program import ProgramError
from ..replay import Replay
from ..virtual import STARTED, Meter
from .counting import Item, count
from .report import Report

OUTPUT = "scanvolt_coverage"


class Coverage:
    """The plugin. `least` is how many percent have to be met; `everything` prints each entry."""

    def __init__(self, config: pytest.Config, least: float, everything: bool) -> None:
        self._config, self._least, self._everything = config, least, everything
        self._open: list[Replay] = []
        self._found: Counter[Item] = Counter()
        self._faults: list[str] = []
        STARTED.append(self._started)

    def _started(self, meter: Meter) -> None:
        """A meter was turned on."""
        self._open.append(meter._replay)

    def _count(self, ended: bool) -> None:
        """Counts the sessions that have ended, or all of them."""
        left = []
        for replay in self._open:
            if replay.program.close.alive and not ended:
                left.append(replay)
                continue
            try:
                self._found += count(Story(lines_of(replay.script(), replay.path)))
            except (ProgramError, ValueError) as fault:
                self._faults.append(str(fault))
        self._open = left

    def pytest_runtest_logfinish(self) -> None:
        """After each test."""
        self._count(False)

    def _finish(self, session: pytest.Session) -> None:
        """After the last test: a worker of pytest-xdist hands on what it has; else too little coverage fails."""
        if self._started in STARTED:
            STARTED.remove(self._started)
        self._count(True)
        output: dict[str, Any] | None = getattr(self._config, "workeroutput", None)
        if output is not None:
            output[OUTPUT] = [
                [name, words, number] for (name, words), number in self._found.items()
            ], self._faults
        elif session.exitstatus == 0 and Report(self._found).below(self._least):
            session.exitstatus = pytest.ExitCode.TESTS_FAILED

    def _gather(self, node: Any) -> None:
        """A worker has ended."""
        rows, faults = getattr(node, "workeroutput", {}).get(OUTPUT, ((), ()))
        self._found += Counter({(name, words): number for name, words, number in rows})
        self._faults += faults

    pytest_sessionfinish = pytest.hookimpl(tryfirst=True)(_finish)
    pytest_testnodedown = pytest.hookimpl(optionalhook=True)(_gather)

    def pytest_terminal_summary(self, terminalreporter: Any) -> None:
        """The table and the summary."""
        report = Report(self._found)
        terminalreporter.section("coverage of the instrument")
        for line in report.lines(self._everything):
            terminalreporter.write_line(line)
        for fault in sorted(set(self._faults)):
            terminalreporter.write_line("a session isn't counted: " + fault)
        terminalreporter.write_line(report.summary())
        below = report.below(self._least)
        if below:
            terminalreporter.write_line(below, red=True)
