"""How long to wait before the next try."""

import random
from typing import Optional

FIRST, MOST = 0.1, 5.0  # seconds


class Backoff:
    """Waits that double, each by chance somewhat shorter, so that many who lost one server do not come again together. It gives up
    `patience` seconds after the first try that failed; None for never."""

    def __init__(self, patience: Optional[float]) -> None:
        self._patience = patience
        self._pause = FIRST
        self._since: Optional[float] = None

    def reset(self) -> None:
        """A try went well."""
        self._pause, self._since = FIRST, None

    def pause(self, now: float) -> Optional[float]:
        """How long to wait from this moment on; None for giving up."""
        self._since = now if self._since is None else self._since
        if self._patience is None:
            left = MOST
        else:
            left = self._since + self._patience - now
        if left <= 0:
            return None
        pause = random.uniform(self._pause / 2, self._pause)
        self._pause = min(2 * self._pause, MOST)
        return min(pause, left)
