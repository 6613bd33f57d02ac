"""Parts of one call, each in a thread."""
from __future__ import annotations

import contextlib
import os
import threading
import time
from typing import Callable, List, Optional, Set

from ._handlers import of_handler
from ._sources import Stopped


Share = Callable[[threading.Event], Set[str]]
Abort = Callable[[threading.Event], None]


def side_by_side(shares: List[Share], aborts: List[Abort]) -> Set[str]:
    """Runs `shares` at once, the first in this thread, and returns the union of what they return. Where one raises, the others have to
    stop, and `aborts` end what they wait for. No thread is left at work."""
    stop = threading.Event()
    process = os.getpid()
    tags: Set[str] = set()
    errors: List[BaseException] = []
    begun: List[None] = []
    ended: List[None] = []

    def end() -> bool:
        """Returns whether a thread is still at work. One that begins later stops at once, and a process that was forked has none."""
        stop.set()
        for abort in aborts:
            abort(stop)
        return len(ended) < len(begun) and os.getpid() == process

    def run(share: Share) -> None:
        begun.append(None)
        try:
            if not stop.is_set():
                tags.update(share(stop))
        except Stopped:
            pass
        except BaseException as error:
            errors.append(error)
            end()
        finally:
            ended.append(None)

    threads = [threading.Thread(target=run, args=(share,), name='read_windows') for share in shares[1:]]
    try:
        try:
            started = _started(threads)
            with contextlib.suppress(Stopped):
                for share in shares[:1] + shares[1 + started:]:
                    tags.update(share(stop))
            for thread in threads[:started]:
                thread.join()
            if os.getpid() != process:
                raise RuntimeError('a signal handler made a process, in which the interrupted call has no threads')
            if errors:
                raise errors[0]
            return tags
        except BaseException:
            _end_all(end)
            raise
    except BaseException:
        _end_all(end)                                      # where another exception came before that
        raise
    finally:
        errors.clear()                                     # whose frames hold this one, and the files


def _started(threads: List[threading.Thread]) -> int:
    """Starts these threads in order, and returns how many could be started: none at the interpreter's end."""
    for count, thread in enumerate(threads):
        try:
            thread.start()
        except RuntimeError as error:
            if thread.ident is not None or of_handler(error):
                raise
            return count
    return len(threads)


def _end_all(end: Callable[[], bool]) -> None:
    """Ends threads, whatever signal handlers raise meanwhile, and raises the last of that. A join that they interrupt may return though its
    thread hasn't ended (bpo-45274)."""
    raised: Optional[BaseException] = None
    goes_on = True
    while goes_on:
        try:
            goes_on = end()
            time.sleep(0.005 if goes_on else 0)
        except BaseException as error:
            raised = error
    try:
        if raised is not None:
            raise raised
    finally:
        del raised                                         # whose frames hold this one
