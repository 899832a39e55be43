"""Processes, for the tests: programs that are shell scripts, whether a process is there, and signals."""

from __future__ import annotations

import contextlib
import os
import pathlib
import signal
import tempfile
import threading
import time
import unittest
from collections.abc import Iterator

TOP = str(pathlib.Path(__file__).resolve().parent.parent)


@contextlib.contextmanager
def script(text: str) -> Iterator[str]:
    """A program that is this shell script."""
    with tempfile.TemporaryDirectory() as folder:
        path = pathlib.Path(folder, "program")
        path.write_text("#!/bin/sh\n" + text)
        path.chmod(0o755)
        yield str(path)


def is_there(number: int) -> bool:
    """Whether a process exists and isn't a zombie."""
    try:
        return pathlib.Path(f"/proc/{number}/stat").read_text().rpartition(")")[2].split()[0] != "Z"
    except FileNotFoundError:
        return False


def hear_hangups(test: unittest.TestCase) -> None:
    """Lets SIGHUP end the programs that a test starts: under nohup they would inherit that it is ignored."""
    test.addCleanup(signal.signal, signal.SIGHUP, signal.signal(signal.SIGHUP, signal.SIG_DFL))


def goes(number: int, seconds: float = 10.0) -> bool:
    """Whether a process ends within this time."""
    end = time.monotonic() + seconds
    while is_there(number) and time.monotonic() < end:
        time.sleep(0.01)
    return not is_there(number)


def stop(number: int) -> None:
    """Stops a process, and waits until it stands."""
    os.kill(number, signal.SIGSTOP)
    while pathlib.Path(f"/proc/{number}/stat").read_text().rpartition(")")[2].split()[0] != "T":
        time.sleep(0.01)


def kill(number: int) -> None:
    """Kills a process that shouldn't be there any more."""
    if is_there(number):
        os.kill(number, signal.SIGKILL)


@contextlib.contextmanager
def ctrl_c() -> Iterator[None]:
    """Ctrl-C comes while the block runs."""
    before = signal.signal(signal.SIGINT, signal.default_int_handler)
    timer = threading.Timer(0.2, signal.pthread_kill, (threading.get_ident(), signal.SIGINT))
    timer.start()
    try:
        yield
    finally:
        timer.join()
        signal.signal(signal.SIGINT, before)
