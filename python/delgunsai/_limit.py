"""How long a call may take."""
from __future__ import annotations

import time
from typing import Optional

from ._errors import Late


class Limit:
    """How many seconds each wait may take, and when the call has to end, by the monotonic clock. None is for ever."""

    def __init__(self, timeout: Optional[float], deadline: Optional[float]) -> None:
        self._timeout, self.deadline = timeout, deadline
        self.until: Optional[float] = None

    def begin(self) -> None:
        """Begins a call."""
        self.until = None if self.deadline is None else time.monotonic() + self.deadline

    def check(self) -> None:
        """Fails with `Late` after the call's end."""
        if self.until is not None and time.monotonic() >= self.until:
            raise Late(f'the call was not done within {self.deadline:g} seconds')

    def wait(self) -> Optional[float]:
        """Returns how many seconds the next wait may take. Fails with `Late` after the call's end."""
        self.check()
        if self.until is None:
            return self._timeout
        rest = max(0.001, self.until - time.monotonic())
        return rest if self._timeout is None else min(self._timeout, rest)
