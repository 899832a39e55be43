"""dumpcap, while it captures what passes over the loopback device; and the namespaces in which tools have a network for themselves."""
import contextlib
import os
import pathlib
import signal
import subprocess
import time
from collections.abc import Iterator

PATIENCE = 10.0  # seconds until dumpcap captures
REST = 1.5  # seconds until it has written all packets
NETWORKS = (["unshare", "--net"], ["unshare", "--user", "--map-root-user", "--net"])


class Failed(Exception):
    """Why a client can't be tried."""


def network() -> list[str] | None:
    """The command in front of one that has a network namespace for itself; None if none can be made."""
    for command in NETWORKS:
        if subprocess.run([*command, "true"], capture_output=True).returncode == 0:
            return list(command)
    return None


@contextlib.contextmanager
def captured(path: pathlib.Path) -> Iterator[None]:
    """Captures into a file, from when the block begins until all packets of the block are written."""
    told = path.with_suffix(".told")
    with told.open("wb") as said:
        process = subprocess.Popen(
            ["dumpcap", "-q", "-i", "lo", "-f", "tcp", "-w", str(path)], stderr=said
        )
    try:
        until = time.monotonic() + PATIENCE
        while b"File:" not in told.read_bytes():
            if process.poll() is not None or time.monotonic() > until:
                raise Failed("dumpcap doesn't capture: " + told.read_text(errors="replace"))
            time.sleep(0.025)
        yield
        time.sleep(REST)
    finally:
        process.send_signal(signal.SIGINT)
        process.wait()


def with_system_tools() -> None:
    """Lets commands be found that Debian has for root."""
    os.environ["PATH"] += ":/usr/sbin:/sbin"
