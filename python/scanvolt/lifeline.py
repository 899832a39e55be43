"""Programs that end with this process, however it ends: by an exception, by SIGTERM, even by SIGKILL.

A program holds the read end of a pipe. This process alone holds the write end. As fcntl(2) is told, the kernel sends
SIGKILL to the program, and to what it started, when the write end closes; and that closes when this process is gone.
So a program ends too that is stopped, or busy, or never reads. PR_SET_PDEATHSIG would end the program with the thread
that started it, and needs code between fork and exec, which isn't safe beside other threads. A process that watches
would cost one more process for each program, and could be killed itself. Only a process that is killed in the moment
between the start of a program and these calls leaves the program behind.
"""

from __future__ import annotations

import fcntl
import os
import signal
import subprocess
import weakref
from collections.abc import Sequence
from typing import TypeVar

__tracebackhide__ = True  # pytest shows the line that calls the package, and not these frames
Itself = TypeVar("Itself", bound="Tied")
GRACE = 1.0  # seconds that a program has to end after SIGTERM
_ends: set[int] = set()  # the write ends that are open


def _let_go() -> None:
    """A fork of this process mustn't hold the write ends, since it may live longer."""
    for end in _ends:
        os.close(end)
    _ends.clear()


os.register_at_fork(after_in_child=_let_go)


def _tie(source: int, group: int) -> None:
    """Lets the kernel kill a group of processes when the write end of this pipe closes."""
    fcntl.fcntl(source, fcntl.F_SETOWN, -group)
    fcntl.fcntl(source, fcntl.F_SETSIG, signal.SIGKILL)
    fcntl.fcntl(source, fcntl.F_SETFL, fcntl.fcntl(source, fcntl.F_GETFL) | os.O_ASYNC)


def _end(process: subprocess.Popen[bytes], end: int, owner: int, grace: float) -> None:
    """Ends a program by SIGTERM, or after that time by SIGKILL, and what it started. A fork of its owner leaves it
    alone, and only closes its pipes.
    """
    if os.getpid() == owner:
        try:
            if grace > 0:
                process.terminate()
                process.wait(grace)
        except subprocess.TimeoutExpired:
            pass
        process.kill()
        _ends.discard(end)
        os.close(end)
        process.wait()
    else:
        process.returncode = 0  # Popen would warn that it still runs
    for pipe in (process.stdin, process.stdout, process.stderr):
        if pipe is not None:
            pipe.close()


class Tied:
    """A running program in a session of its own. It ends with its `with` block, by `end()`, when this object is
    collected, and when this process ends. `grace` is how many seconds it has to end by itself; if 0, it is killed at
    once. Raises OSError if it can't be run.
    """

    def __init__(
        self, command: Sequence[str], stdin: int | None = subprocess.DEVNULL, grace: float = GRACE
    ) -> None:
        source, target = os.pipe()
        _ends.add(target)
        try:
            self.process: subprocess.Popen[bytes] = subprocess.Popen(
                command,
                stdin=stdin,
                stdout=subprocess.PIPE,
                stderr=subprocess.PIPE,
                bufsize=0,
                pass_fds=(source,),
                start_new_session=True,
            )
        except BaseException:
            _ends.discard(target)
            os.close(target)
            raise
        else:
            self.end = weakref.finalize(self, _end, self.process, target, os.getpid(), grace)
            _tie(source, self.process.pid)
        finally:
            os.close(source)

    def __enter__(self: Itself) -> Itself:
        return self

    def __exit__(self, kind: type[BaseException] | None, *_: object) -> None:
        self.end()
