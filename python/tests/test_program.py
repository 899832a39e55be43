"""Servers on sockets: they end with the process that started them, and a program that doesn't serve is told as such."""

from __future__ import annotations

import gc
import os
import pathlib
import signal
import subprocess
import sys
import tempfile
import threading
import time
import unittest
import warnings
from collections.abc import Callable
from unittest import mock

from scanvolt import program
from scanvolt.program import ProgramError, Server, find_program
from scanvolt.virtual import Meter

from .processes import TOP, goes, hear_hangups, is_there, kill, script, stop

# A program that replays as scanvolt does, and does something else in place of serving.
OTHERWISE = '[ "$1" = replay ] && exec "%s" replay\n%s\n'
WAITS = '"%s" "$@" &\necho $! > "$0.pid"\nwait\n'
STARTS = """
import os, signal, sys, threading, time
from scanvolt.program import Server
signal.signal(signal.SIGINT, signal.default_int_handler)
servers = []
starter = threading.Thread(target=lambda: servers.append(Server()))
starter.start()
starter.join()
print(servers[0].process.pid, flush=True)
%s
time.sleep(60)
"""
FORKS = "os.fork() or (os.close(1), time.sleep(8), os._exit(0))"


def ends(work: Callable[[], object], seconds: float = 10.0) -> bool:
    """Whether a function returns within this time."""
    worker = threading.Thread(target=work, daemon=True)
    worker.start()
    worker.join(seconds)
    return not worker.is_alive()


def fault_of(path: str) -> str:
    """Why a program can't serve."""
    try:
        Server(program=path).close()
    except ProgramError as fault:
        return str(fault)
    return "it serves"


class NothingLeft(unittest.TestCase):
    """No program remains."""

    def setUp(self) -> None:
        hear_hangups(self)

    def leaves(self, how: signal.Signals | None, stopped: bool = False, text: str = "") -> None:
        """Ends a process that has started a server in a thread that has ended, by a signal or by its own end."""
        child = subprocess.Popen(
            [sys.executable, "-c", STARTS % (text if how else "sys.exit()")],
            cwd=TOP,
            stdout=subprocess.PIPE,
            stderr=subprocess.DEVNULL,
            text=True,
        )
        assert child.stdout is not None
        number = int(child.stdout.readline())
        try:
            if how is not None:
                self.assertFalse(goes(number, 0.2))
                if stopped:
                    stop(number)
                child.send_signal(how)
            self.assertTrue(goes(number, 7))
        finally:
            child.kill()
            child.communicate()
            kill(number)

    def test_python_ends(self) -> None:
        for how in (None, signal.SIGINT, signal.SIGTERM, signal.SIGHUP, signal.SIGKILL):
            with self.subTest(how):
                self.leaves(how)

    def test_the_program_is_stopped(self) -> None:
        self.leaves(signal.SIGKILL, stopped=True)

    def test_a_fork_of_python_goes_on(self) -> None:
        self.leaves(signal.SIGKILL, text=FORKS)

    def test_a_program_that_is_stopped_is_closed(self) -> None:
        server = Server()
        stop(server.process.pid)
        try:
            self.assertTrue(ends(server.close))
        finally:
            server.process.kill()
        self.assertEqual(server.process.returncode, -signal.SIGKILL)

    def test_what_a_script_started(self) -> None:
        """A script that starts the program, and waits for it, leaves none."""
        with script(OTHERWISE % (find_program(), WAITS % find_program())) as path:
            server = Server(program=path)
            noted, end = pathlib.Path(path + ".pid"), time.monotonic() + 10
            while (
                not (noted.exists() and noted.read_text().endswith("\n")) and time.monotonic() < end
            ):
                time.sleep(0.01)  # the program may be ready before the script notes its number
            number = int(noted.read_text())
            self.assertTrue(is_there(number))
            try:
                self.assertTrue(ends(server.close))
                self.assertTrue(goes(number, 5))
            finally:
                kill(number)

    def test_garbage(self) -> None:
        """A server that is dropped leaves no process, no zombie, and no open pipe."""
        before = os.listdir("/proc/self/fd")
        with warnings.catch_warnings():
            warnings.simplefilter("error")
            server = Server()
            number = server.process.pid
            del server
            gc.collect()
        self.assertFalse(os.path.exists(f"/proc/{number}"))
        self.assertEqual(len(os.listdir("/proc/self/fd")), len(before))

    def test_closed_twice(self) -> None:
        before = os.listdir("/proc/self/fd")
        server = Server()
        server.close()
        server.close()
        self.assertFalse(os.path.exists(f"/proc/{server.process.pid}"))
        self.assertEqual(len(os.listdir("/proc/self/fd")), len(before))


class NotReady(unittest.TestCase):
    """Programs that don't say that they are ready."""

    def told(self, text: str) -> str:
        """What is told of a program that does this instead of serving. It must not remain."""
        before = os.listdir("/proc/self/fd")
        with script(OTHERWISE % (find_program(), "echo $$ > $0.pid\n" + text)) as path:
            faults: list[str] = []
            with mock.patch.object(program, "PATIENCE", 1.0, create=True):
                self.assertTrue(ends(lambda: faults.append(fault_of(path))), "it waits for ever")
            self.assertTrue(goes(int(pathlib.Path(path + ".pid").read_text()), 0.5))
        self.assertEqual(len(os.listdir("/proc/self/fd")), len(before))
        return faults[0]

    def test_a_program_that_prints_nothing(self) -> None:
        self.assertRegex(
            self.told("exec sleep 60"), "doesn't serve: it didn't print `ready` within 1 s$"
        )
        self.assertRegex(
            self.told("echo a bad day >&2\nexec sleep 60"),
            "doesn't serve: it didn't print `ready` within 1 s, but: a bad day$",
        )
        self.assertRegex(self.told("printf 'read'\nexec sleep 60"), "within 1 s, but: read$")

    def test_a_program_that_prints_something_else(self) -> None:
        self.assertRegex(
            self.told("echo welcome\nexec sleep 60"), "doesn't serve: it printed: welcome$"
        )

    def test_a_program_that_ends(self) -> None:
        self.assertRegex(self.told("echo fault >&2; exit 3"), "doesn't serve: fault$")
        self.assertRegex(self.told("exit 3"), "doesn't serve: it ended with status 3$")
        self.assertRegex(
            self.told("echo scanvolt: bad words >&2; exit 2"),
            "doesn't serve: scanvolt: bad words; `man scanvolt` has the words that it takes$",
        )
        self.assertRegex(self.told("kill -9 $$"), "doesn't serve: it ended by signal 9$")


class Scenarios(unittest.TestCase):
    """A scenario that can't be served is explained as a meter explains it."""

    def setUp(self) -> None:
        temporary = tempfile.TemporaryDirectory()
        self.addCleanup(temporary.cleanup)
        self.path = pathlib.Path(temporary.name, "scenario")

    def test_a_bad_line(self) -> None:
        self.path.write_text("0 external\n5 input 1 1.5\n")
        faults = []
        for kind in Meter, Server:
            with self.assertRaises(ValueError) as caught:
                kind(scenario=self.path)
            self.assertIsNone(caught.exception.__context__)
            faults.append(str(caught.exception))
        self.assertEqual(faults[0], faults[1])
        self.assertRegex(
            faults[1], f"^bad line 2 of the scenario {self.path}: a voltage is .*`1.5`$"
        )

    def test_one_that_cannot_be_read(self) -> None:
        for kind in Meter, Server:
            with self.assertRaisesRegex(FileNotFoundError, str(self.path)):
                kind(scenario=self.path)

    def test_a_program_that_alone_refuses_it(self) -> None:
        """What the program says is told, if the package finds nothing wrong."""
        self.path.write_text("0 external\n")
        with script(OTHERWISE % (find_program(), "echo scanvolt: bad line 1 >&2; exit 2")) as path:
            self.assertRaisesRegex(
                ProgramError, "doesn't serve: scanvolt: bad line 1$", Server, self.path, path
            )


if __name__ == "__main__":
    unittest.main()
