"""The fixtures of the plugin, each used by tests that pytest runs on its own."""

from __future__ import annotations

import pathlib
import re
import shutil
import subprocess
import time
from importlib.util import find_spec

import pytest
from scanvolt import __version__
from scanvolt.explaining.explanation import Explanation
from scanvolt.program import find_program

TOP = pathlib.Path(__file__).resolve().parents[2]
PIECES = re.findall(r"```python\n(.*?)```", TOP.joinpath("README.md").read_text(), re.DOTALL)
PLUGIN = ("-p", "scanvolt.pytest_plugin")
BOTH = """
    import pytest
    from scanvolt.vxi11 import Client

    @pytest.mark.scanvolt(scenario="voltages")
    @pytest.mark.parametrize("number", range(4))
    def test_virtual(meter, number):
        link = meter.connect().create_link()
        assert link.query("MEAS:VOLT? (@1)") == "+2.500000"
        assert meter.clock == 1

    @pytest.mark.scanvolt(scenario="voltages")
    @pytest.mark.parametrize("number", range(4))
    def test_sockets(scanvolt_server, number):
        with Client(port_mapper=scanvolt_server.port_mapper) as client, client.create_link() as link:
            assert link.query("MEAS:VOLT? (@1)") == "+2.500000"

    def test_without_a_scenario(meter, scanvolt_server):
        with Client(port=scanvolt_server.core) as client, client.create_link() as link:
            assert link.query("MEAS:VOLT? (@1)") == "+0.000000"
"""


@pytest.fixture(autouse=True)
def path(monkeypatch: pytest.MonkeyPatch) -> None:
    monkeypatch.setenv("PYTHONPATH", str(TOP))


def test_both_fixtures(pytester: pytest.Pytester) -> None:
    pytester.makefile("", voltages="0 input 1 2500000\n")
    pytester.makepyfile(BOTH)
    pytester.runpytest_subprocess(*PLUGIN, "--strict-markers").assert_outcomes(passed=9)


def test_the_readme(pytester: pytest.Pytester) -> None:
    """The piece with pytest in README.md, as it stands there, beside the scenario that it names."""
    pieces = [piece for piece in PIECES if "import pytest" in piece]
    pytester.path.joinpath("stand.scenario").write_text("0 input 1 1250000\n")
    pytester.makepyfile("".join(pieces))
    pytester.runpytest_subprocess(*PLUGIN, "--strict-markers").assert_outcomes(passed=4)


@pytest.mark.skipif(find_spec("xdist") is None, reason="Debian's python3-pytest-xdist isn't there")
def test_side_by_side(pytester: pytest.Pytester) -> None:
    pytester.makefile("", voltages="0 input 1 2500000\n")
    pytester.makepyfile(BOTH)
    pytester.runpytest_subprocess(*PLUGIN, "-n", "4").assert_outcomes(passed=9)


def test_the_head(pytester: pytest.Pytester, monkeypatch: pytest.MonkeyPatch) -> None:
    """It names the version of the package and the program."""
    pytester.makepyfile("def test_one(): pass")
    result = pytester.runpytest_subprocess(*PLUGIN)
    result.assert_outcomes(passed=1)
    result.stdout.fnmatch_lines(
        [
            f"scanvolt: {__version__}, program {find_program()} (found by SCANVOLT, version *, kind *)"
        ]
    )
    monkeypatch.setenv("SCANVOLT", "/nonexistent/scanvolt")
    result = pytester.runpytest_subprocess(*PLUGIN)
    result.assert_outcomes(passed=1)
    result.stdout.fnmatch_lines(
        [f"scanvolt: {__version__}, no program: SCANVOLT names no program: /nonexistent/scanvolt"]
    )


def test_what_a_failure_shows(pytester: pytest.Pytester) -> None:
    """The last line shown is the test's, with the error, and no frame of the package."""
    pytester.makepyfile(
        """
        from scanvolt.vxi11 import Client

        def test_timeout(meter):
            link = meter.connect().create_link(io_timeout=2000)
            link.query("TRIG:SOUR EXT;:INIT;*OPC?")

        def test_milliseconds(meter):
            meter.connect().create_link().io_timeout = 0.5

        def test_voltage(meter):
            meter.set_input(1, "volts")

        def test_client(scanvolt_server):
            client = Client(port=scanvolt_server.core)
            client.close()
            client.create_link()

        def test_time(meter):
            import time
            with meter.keeping_time():
                while True:
                    time.monotonic()

        def test_died(meter):
            meter._replay.program.process.kill()
            meter.advance(1)
    """
    )
    result = pytester.runpytest_subprocess(*PLUGIN)
    result.assert_outcomes(failed=6)
    result.stdout.fnmatch_lines(
        [
            ">       link.query(*",
            "E       *DeviceError: device_read on link 1: I/O timeout (15), after 2000 ms, at 2000 *",
            ">       meter.connect().create_link().io_timeout = 0.5",
            "E       TypeError: io_timeout wants milliseconds*",
            ">       meter.set_input*",
            "E       ValueError: no voltage: 'volts'",
            ">       client.create_link()",
            "E       ConnectionError: the connection is closed: 127.0.0.1:*",
            ">               time.monotonic()*",
            "E               scanvolt.keeping_time.NeverEnds: *",
            ">       meter.advance(1)",
            "E       scanvolt.program.ProgramError: the program ended by signal 9",
        ]
    )
    places = [line.partition(":")[0] for line in result.outlines if re.match(r"\S+\.py:\d+:", line)]
    assert places == ["test_what_a_failure_shows.py"] * 6
    result.stdout.no_fnmatch_line("*During handling*")


def test_no_program(pytester: pytest.Pytester, monkeypatch: pytest.MonkeyPatch) -> None:
    """One line says what is missing."""
    monkeypatch.setenv("SCANVOLT", "/nonexistent/scanvolt")
    pytester.makepyfile("def test_one(meter): pass\ndef test_two(scanvolt_server): pass")
    result = pytester.runpytest_subprocess(*PLUGIN)
    result.assert_outcomes(errors=2)
    result.stdout.fnmatch_lines(
        ["*ERROR at setup of test_one*", "SCANVOLT names no program: /nonexistent/scanvolt"]
    )
    result.stdout.no_fnmatch_line("*Traceback*")
    result.stdout.no_fnmatch_line("*plugin.py:*")
    result.stdout.no_fnmatch_line("*During handling of the above exception*")
    assert result.outlines.count("SCANVOLT names no program: /nonexistent/scanvolt") == 2


def test_no_program_for_a_test_s_own_meter(
    pytester: pytest.Pytester, monkeypatch: pytest.MonkeyPatch
) -> None:
    """Only the test's line is shown, with what is missing or wrong."""
    monkeypatch.setenv("SCANVOLT", "/nonexistent/scanvolt")
    pytester.makefile("", bad="0 trigger\n")
    pytester.makefile("", empty="").chmod(0o755)
    pytester.makepyfile(
        """
        from scanvolt.program import Server
        from scanvolt.virtual import Meter

        def test_meter(): Meter()
        def test_server(): Server()
        def test_another_program(): Meter(program="/bin/true")
        def test_another_server(): Server(program="/bin/true")
        def test_no_file(): Meter(program="/nonexistent")
        def test_no_program(): Meter(program="./empty")
        def test_scenario(): Meter(scenario="bad")
    """
    )
    result = pytester.runpytest_subprocess(*PLUGIN)
    result.assert_outcomes(failed=7)
    result.stdout.fnmatch_lines(
        [
            ">*Meter()",
            "E*ProgramError: SCANVOLT names no program: /nonexistent/scanvolt",
            ">*Server()",
            "E*ProgramError: SCANVOLT names no program: /nonexistent/scanvolt",
            ">*Meter(program=*",
            "E*ProgramError: /bin/true isn't scanvolt *",
            ">*Server(program=*",
            "E*ProgramError: /bin/true isn't scanvolt *",
            ">*Meter(program=*",
            "E*ProgramError: the program can't be run: /nonexistent: No such file or directory",
            ">*Meter(program=*",
            "E*ProgramError: the program can't be run: ./empty: Exec format error",
            ">*Meter(scenario=*",
            "E*ValueError: bad line 1 of the scenario bad: *",
        ]
    )
    places = [line.partition(":")[0] for line in result.outlines if re.match(r"\S+\.py:\d+:", line)]
    assert places == ["test_no_program_for_a_test_s_own_meter.py"] * 7
    result.stdout.no_fnmatch_line("*During handling*")


def test_options_of_a_meter(pytester: pytest.Pytester) -> None:
    """The marker's patience and call_time are those of Meter."""
    pytester.makepyfile(
        """
        import pytest

        @pytest.mark.scanvolt(patience=1234, call_time=2)
        def test_both(meter):
            link = meter.connect().create_link()
            assert (meter.clock, meter.patience, meter.call_time) == (2, 1234, 2)

        @pytest.mark.scanvolt(call_time=2, scenario=None)
        def test_served(scanvolt_server): pass

        @pytest.mark.scanvolt(call_time=0.5)
        def test_half(meter): pass

        @pytest.mark.scanvolt(patience=-1)
        def test_negative(meter): pass
    """
    )
    result = pytester.runpytest_subprocess(*PLUGIN)
    result.assert_outcomes(passed=2, errors=2)
    result.stdout.fnmatch_lines(
        [
            "call_time wants milliseconds, a whole number * and not 0.5",
            "patience wants milliseconds, a whole number * and not -1",
        ]
    )
    result.stdout.no_fnmatch_line("*.py:[0-9]*")


def test_bad_options(pytester: pytest.Pytester) -> None:
    pytester.makefile("", bad="0 trigger\n")
    pytester.makepyfile(
        """
        import pytest

        @pytest.mark.scanvolt(scenario="bad")
        def test_bad(meter): pass

        @pytest.mark.scanvolt(scenario="none")
        def test_none(meter): pass

        @pytest.mark.scanvolt(voltages="1")
        def test_option(meter): pass

        @pytest.mark.scanvolt("voltages")
        def test_no_name(meter): pass

        @pytest.mark.scanvolt(scenario="bad")
        def test_served(scanvolt_server): pass

        @pytest.mark.scanvolt(scenario="none")
        def test_none_served(scanvolt_server): pass
    """
    )
    result = pytester.runpytest_subprocess(*PLUGIN)
    result.assert_outcomes(errors=6)
    result.stdout.fnmatch_lines(
        [
            "bad line 1 of the scenario /*/bad: after the time comes *",
            "*No such file or directory: '/*/none'",
            "the marker scanvolt has no option voltages, but scenario, patience, call_time, names, backend",
            "the marker scanvolt has no option without a name, but scenario, patience, call_time, names, backend",
            "*ERROR at setup of test_served*",
            "bad line 1 of the scenario /*/bad: after the time comes *",
            "*ERROR at setup of test_none_served*",
            "*No such file or directory: '/*/none'",
        ]
    )
    assert sum("after the time comes" in line for line in result.outlines) == 2


def test_a_test_that_is_interrupted(pytester: pytest.Pytester) -> None:
    """No process remains."""
    pytester.makepyfile(
        """
        def test_one(meter):
            print("process", meter._replay.program.process.pid)
            raise KeyboardInterrupt
    """
    )
    result = pytester.runpytest_subprocess(*PLUGIN, "-s")
    number = [line.split()[-1] for line in result.outlines if "process" in line][0]
    assert not pathlib.Path("/proc", number).exists()


OLD = '#!/bin/sh\n[ "$1" = replay ] && exec %s replay\necho scanvolt: bad words >&2\nexit 2\n'
FAILING = """
    import pytest
    from scanvolt.vxi11 import DeviceError

    def test_passes(meter):
        meter.connect().create_link().write("*CLS")

    @pytest.mark.parametrize("number", range(4))
    def test_fails(meter, number):
        link = meter.connect().create_link(io_timeout=100)
        link.write("*CLS;*ESE 1;*SRE 16")
        for number in range(30):
            link.write("*SRE %d" % number)
            meter.advance(1)
        link.write("CONF:VOLT (@1:3);:TRIG:SOUR EXT;:INIT;*OPC?")
        link.read()

    def test_without_a_meter():
        assert False
"""


def test_what_the_instrument_saw(pytester: pytest.Pytester) -> None:
    """Each failed test that used `meter` has a section: the last lines, and the end. No other test has one."""
    pytester.makepyfile(FAILING)
    result = pytester.runpytest_subprocess(*PLUGIN, "-rP")
    result.assert_outcomes(passed=1, failed=5)
    assert result.stdout.str().count("- what the instrument saw -") == 4
    result.stdout.fnmatch_lines(
        [
            "*- what the instrument saw -*",
            "* lines before",
            "* c0 link 1  device_read .. waits for a response, until 130 ms at most",
            "*<c0 link 1  device_read -> error 15, I/O timeout   after 100 ms",
            "at the end, 130 ms:",
            "  no call waits",
            "  held      unit `[*]OPC[?]` since 30 ms: every device_write and device_read will wait",
            "            would end it: 1 EXTernal trigger, at 133 ms; or device_clear of any link, at 130 ms",
            "(--scanvolt-trace=DIR keeps all of it, as a script, a text and a page)",
        ]
    )
    result.stdout.fnmatch_lines(
        [
            "E*device_read on link 1: I/O timeout (15)*",
            "E*c0 link 1: device_read had waited since 30 ms for a response",
            "E*because unit `[*]OPC[?]` waits until the scan is idle: the scan waits for *",
        ]
    )


def test_any_meter(pytester: pytest.Pytester) -> None:
    """Also a meter that the test makes by itself, or that another fixture keeps; but not one that the test doesn't use."""
    pytester.makepyfile(
        """
        import pytest
        from scanvolt.virtual import Meter

        @pytest.fixture(scope="module")
        def kept():
            with Meter() as meter:
                yield meter

        def test_first(kept):
            kept.advance(1)
            assert False

        def test_second():
            assert False

        def test_third(kept):
            with Meter() as meter:
                meter.advance(2)
                kept.advance(3)
                assert False
    """
    )
    result = pytester.runpytest_subprocess(*PLUGIN)
    result.assert_outcomes(failed=3)
    told = [line for line in result.stdout.lines if line.startswith("at the end")]
    assert told == ["at the end, 1 ms:", "at the end, 4 ms:", "at the end, 2 ms:"]


@pytest.mark.skipif(find_spec("xdist") is None, reason="Debian's python3-pytest-xdist isn't there")
def test_what_is_kept(pytester: pytest.Pytester) -> None:
    """Script, text and page of each, also of four at once. The script repeats the session."""
    pytester.makepyfile(FAILING)
    result = pytester.runpytest_subprocess(*PLUGIN, "-n", "4", "--scanvolt-trace=trace")
    result.assert_outcomes(passed=1, failed=5)
    assert result.stdout.str().count("- what the instrument saw -") == 4
    names = sorted(path.name for path in pytester.path.joinpath("trace").iterdir())
    assert names == [
        f"test_what_is_kept.py_test_fails_{number}_{ending}"
        for number in range(4)
        for ending in (".html", ".replay", ".txt")
    ]
    result.stdout.fnmatch_lines(
        ["kept: trace/test_what_is_kept.py_test_fails_0_.replay, .txt, .html"]
    )
    text = pytester.path.joinpath("trace", "test_what_is_kept.py_test_fails_0_.txt").read_text()
    script = (
        pytester.path.joinpath("trace", "test_what_is_kept.py_test_fails_0_.replay")
        .read_text()
        .splitlines()
    )
    assert Explanation(script, find_program()).text() + "\n" == text


OVER_SOCKETS = """
    from scanvolt.vxi11 import Client

    def test_fails(scanvolt_server):
        with Client(port=scanvolt_server.core) as client, client.create_link() as link:
            link.write("*SRE 4;FOO")
            assert link.query("SYST:ERR?") == "0"

    def test_passes(scanvolt_server):
        pass
"""


def test_over_sockets(pytester: pytest.Pytester) -> None:
    """The section is told from the record of the server. A capture that can't be read fails no report."""
    pytester.makepyfile(OVER_SOCKETS)
    for more, told in (
        (
            "--scanvolt-trace=trace",
            [
                '* FOO  * error -113 "Undefined header"*',
                "at the end, * ms:",
                "  no call waits",
                "kept: trace/test_over_sockets.py_test_fails_server.replay, .txt, .html",
            ],
        ),
        ("--scanvolt-capture=none", ["it can't be told: *No such file or directory: 'none'"]),
    ):
        result = pytester.runpytest_subprocess(*PLUGIN, more)
        result.assert_outcomes(passed=1, failed=1)
        assert result.stdout.str().count("- what the instrument saw -") == 1
        result.stdout.fnmatch_lines(["*- what the instrument saw -*", *told])
    kept = (pytester.path / "trace" / "test_over_sockets.py_test_fails_server.replay").read_text()
    assert "open 0 core" in kept


def test_a_server_whose_inputs_change(pytester: pytest.Pytester) -> None:
    """Voltages and triggers of the fixture. What they did is in the section."""
    pytester.makepyfile(
        """
    import time
    from scanvolt.vxi11 import Client

    def test_reads(scanvolt_server):
        scanvolt_server.set_input(3, 2.5)
        with Client(port=scanvolt_server.core) as client, client.create_link() as link:
            assert link.query("MEAS:VOLT? (@3)") == "+2.500000"
            link.write("TRIG:SOUR EXT;:INIT")
            scanvolt_server.external()
            time.sleep(.02)
            assert link.query("FETC?") == "-2.500000"
    """
    )
    result = pytester.runpytest_subprocess(*PLUGIN)
    result.assert_outcomes(failed=1)
    result.stdout.fnmatch_lines(
        ["*- what the instrument saw -*", "*EXTernal trigger*", "at the end, * ms:"]
    )


@pytest.mark.skipif(shutil.which("tshark") is None, reason="tshark isn't there")
def test_from_a_capture(pytester: pytest.Pytester) -> None:
    """Of sockets, by tshark, while it is written."""
    pytester.makepyfile(OVER_SOCKETS)
    capture = str(pytester.path / "session.pcapng")
    with subprocess.Popen(
        ["tshark", "-i", "lo", "-f", "tcp", "-w", capture], stderr=subprocess.PIPE, text=True
    ) as tshark:
        assert tshark.stderr is not None
        try:
            if not any("Capturing" in line for line in tshark.stderr):
                pytest.skip("tshark may not capture here")
            while not pathlib.Path(capture).exists():
                time.sleep(0.1)
            result = pytester.runpytest_subprocess(
                *PLUGIN, "--scanvolt-capture=" + capture, "--scanvolt-trace=trace"
            )
        finally:
            tshark.terminate()
            tshark.communicate()
    result.stdout.fnmatch_lines(
        [
            "*- what the instrument saw -*",
            '* FOO  * error -113 "Undefined header"*',
            "at the end, * ms:",
            "kept: trace/test_from_a_capture.py_test_fails_server.replay, .txt, .html",
        ]
    )


def test_it_never_fails_a_report(
    pytester: pytest.Pytester, monkeypatch: pytest.MonkeyPatch
) -> None:
    """With a program that can't explain, the section says that."""
    old = pytester.makefile(".sh", old=OLD % find_program())
    old.chmod(0o755)
    monkeypatch.setenv("SCANVOLT", str(old))
    pytester.makepyfile(FAILING)
    result = pytester.runpytest_subprocess(*PLUGIN, "--scanvolt-trace=trace")
    result.assert_outcomes(passed=1, failed=5)
    result.stdout.fnmatch_lines(
        [
            "*- what the instrument saw -*",
            "it can't be told: * has no `explain`: it is an earlier release, or no scanvolt",
        ]
    )
    assert not pytester.path.joinpath("trace").exists()


def test_faults_on_order_are_told(pytester: pytest.Pytester) -> None:
    """In the section of what the instrument saw, and in one of the relay, and in no other test's report."""
    pytester.makepyfile(
        """
        from scanvolt.faults import Relay
        from scanvolt.vxi11 import Client

        def test_virtual(meter):
            link = meter.connect().create_link()
            meter.faults.next("device_readstb", error=17)
            link.readstb()

        def test_sockets(scanvolt_server):
            with Relay(scanvolt_server.core) as relay, Client(port=relay.port) as client:
                link = client.create_link()
                relay.cut(after=3)
                link.readstb()

        def test_neither():
            assert False
    """
    )
    result = pytester.runpytest_subprocess(*PLUGIN)
    result.assert_outcomes(failed=3)
    result.stdout.fnmatch_lines(
        [
            "*what the instrument saw*",
            "*c0 link 1  fault on order: device_readstb was answered with error 17*",
            "  on order  0 ms, c0 link 1: device_readstb was answered with error 17*",
            "*faults on order of the relay*",
            "*connection 0, towards the client: the relay ends the connection*",
        ]
    )
    assert result.stdout.str().count("faults on order of the relay") == 1
