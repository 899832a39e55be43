"""How long something may take in a test."""

from __future__ import annotations

import os


def within(seconds: float) -> float:
    """These seconds; or many more where what is tried has to wait for its turn: on a machine whose processors are all busy, and in
    CI, whose machine others use too.
    """
    waits = "CI" in os.environ or os.getloadavg()[0] >= (os.cpu_count() or 1)
    return 30 * seconds + 10 if waits else seconds
