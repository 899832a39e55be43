"""Becomes the program, so that who started this process can end the program by its number.

A child process passes on what the program prints. It notes when the program is ready, and ends the program when the process
is gone that started it, even by SIGKILL.
"""

from __future__ import annotations

import os
import select
import signal
import sys
import time
from collections.abc import Callable, Sequence

BAD_WORDS = b"scanvolt: bad words\n"
READY = "ready at %.6f, in seconds since 1970"
MANUAL = "`man scanvolt`, in a checkout `man docs/scanvolt.1`, has the words that the program takes"
Say = Callable[[str], object]


def parent() -> int | None:
    """A file that can be read when the process has ended that started this one; None if the system has no such file for it."""
    number = os.getppid()
    try:
        file = os.pidfd_open(number)
    except (AttributeError, OSError):  # an old kernel, or a parent in another namespace
        return None
    if os.getppid() != number:  # it ended before, and another process has its number
        os.kill(os.getpid(), signal.SIGTERM)
    return file


def become(
    command: Sequence[str],
    say: Say,
    ending: int | None = None,
    ready: Callable[[], object] = lambda: None,
) -> None:
    """Becomes the program; this doesn't return. `say` prints a line about it, and `ready` is called in the child when it
    listens, or has ended. The program ends when the file `ending` can be read, if one is given.
    """
    pipes = os.pipe(), os.pipe()
    sys.stdout.flush()
    own = os.getpid()
    if os.fork() == 0:
        for _, target in pipes:
            os.close(target)
        try:
            _pass_on((pipes[0][0], pipes[1][0]), say, (own, ending), ready)
        finally:
            os._exit(0)
    for number, (source, target) in enumerate(pipes, 1):
        os.dup2(target, number)
        os.close(source)
        os.close(target)
    signal.signal(signal.SIGINT, signal.SIG_DFL)
    os.execv(command[0], list(command))


def _pass_on(
    sources: tuple[int, int], say: Say, ends: tuple[int, int | None], ready: Callable[[], object]
) -> None:
    """Passes on what the program prints, and writes to standard error. Before the first line, says the time; if the program
    refuses its words, says what helps. `ends` has the program, and the file that can be read when it has to end.
    """
    signal.signal(signal.SIGINT, signal.SIG_IGN)
    printed, faults = sources
    program, ending = ends
    targets, told = {printed: 1, faults: 2}, {printed: b"", faults: b""}
    while targets:
        for source in select.select([*targets, *([] if ending is None else [ending])], [], [])[0]:
            if source == ending:
                os.kill(program, signal.SIGTERM)
                ending = None
                continue
            piece = os.read(source, 4096)
            if not piece:
                del targets[source]
                continue
            if source == printed and not told[printed]:
                ready()
                say(READY % time.time())
            told[source] = (told[source] + piece)[-len(BAD_WORDS) :]
            os.write(targets[source], piece)
    if not told[printed]:
        ready()
    if told[faults] == BAD_WORDS:
        say(MANUAL)
