"""What signal handlers raise."""
from __future__ import annotations

import functools
import signal
import traceback
from types import CodeType
from typing import Optional


def _code_of(handler: object) -> Optional[CodeType]:
    """The code that a signal handler runs, where it is Python's."""
    while isinstance(handler, functools.partial):
        handler = handler.func
    return getattr(handler, '__code__', None) or getattr(getattr(handler, '__call__', None), '__code__', None)


def of_handler(error: Exception) -> bool:
    """Says whether a signal handler raised this, as TimeoutError at a deadline. Then nothing is known of a connection or an answer."""
    handlers = {_code_of(signal.getsignal(number)) for number in signal.valid_signals()}
    return any(frame.f_code in handlers for frame, _ in traceback.walk_tb(error.__traceback__))
