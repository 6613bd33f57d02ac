"""A file of the disk as a source of answers."""
from __future__ import annotations

import os
import re
import threading
from typing import BinaryIO, Callable, Iterator, Optional, Tuple, Type, Union

from . import _core
from ._core import Core, Piece, Said, Step
from ._handlers import of_handler
from ._limit import Limit
from ._sources import Carry, Judge

FRONT = 65536
"""How many bytes of a file that was replaced are of use."""
RANGE = re.compile(rb'\r\nRange: bytes=([0-9]+)-([0-9]+)\r\n')
Take = Callable[[Piece], None]
"""Takes a piece of an answer."""


class Disk:
    """A file of the disk, which answers by ranges as a server would. Its tag is made from its inode number, its length and its mtime. An answer
    is handed on only where the file didn't change while it was read."""

    carries = False
    final: Tuple[Type[OSError], ...] = (FileNotFoundError, IsADirectoryError, NotADirectoryError, PermissionError)

    def __init__(self, path: Union[str, os.PathLike[str]]) -> None:
        name = os.fsdecode(path)
        self.limit = Limit(None, None)
        with open(path, 'rb'):
            pass
        self.where = name if os.path.isabs(name) else os.path.join(os.getcwd(), name)

    def exchange(self, request: bytes, take: Take) -> int:
        """Hands each piece of the answer to `take`, in order, and returns its status. Fails with an `OSError` where the file can't be read, or
        changed while it was read, and then hands on nothing."""
        with open(self.where, 'rb', buffering=0) as file:
            state = os.fstat(file.fileno())
            size = state.st_size
            tag = b'"%x-%x-%x"' % (state.st_ino, size, state.st_mtime_ns)
            pieces = list(_answer(request, tag, size, file))
            after = os.fstat(file.fileno())
            if (after.st_size, after.st_mtime_ns) != (size, state.st_mtime_ns):
                raise OSError('the file changed while it was read')
        for piece in pieces:
            take(piece)
        return int(pieces[0][9:12])

    def run(self, core: Core, judge: Judge, carry: Carry) -> None:
        for _ in range(_core.EXCHANGES):
            request = core.request()
            if request is None:
                return
            failed: Optional[Exception] = None
            status = 0
            core.begin()
            try:
                status = self.exchange(request, core.feed)
            except self.final:
                raise
            except OSError as error:
                if of_handler(error):
                    raise
                failed = error.with_traceback(None)
            judge(Step(kind=_core.EXCHANGED, said=Said(*core.end()), status=status, alone=1), failed)

    def check(self, core: Core) -> Tuple[int, int, int]:
        request, answer = core.check(), bytearray()
        status = self.exchange(request, answer.extend) if request else 0
        return (*core.current(bytes(answer)), status)

    def another(self) -> 'Disk':
        return Disk(self.where)

    def begin(self, call: Optional[threading.Event] = None) -> None:
        pass

    def abort(self, call: threading.Event) -> None:
        pass

    def forked(self, busy: bool) -> None:
        pass

    def close(self, core: Core) -> None:
        pass


def _answer(request: bytes, tag: bytes, size: int, file: BinaryIO) -> Iterator[bytes]:
    """The answer to a request of the core: a part, or the front of the file where it has another tag."""
    if request.startswith(b'HEAD '):
        same = b'\r\nIf-None-Match: ' + tag + b'\r\n' in request
        status = b'304 Not Modified' if same else b'200 OK'
        yield b'HTTP/1.1 %s\r\nETag: %s\r\nContent-Length: %d\r\n\r\n' % (status, tag, size)
        return
    first, last = map(int, RANGE.findall(request)[0])
    condition = re.findall(rb'\r\nIf-Range: (.*?)\r\n', request)
    other = bool(condition) and condition[0] != tag          # which goes before the range (RFC 9110, section 13.2.2)
    if first >= size and not (other and size):
        yield b'HTTP/1.1 416 Range Not Satisfiable\r\nContent-Range: bytes */%d\r\nContent-Length: 0\r\n\r\n' % size
        return
    if other:
        yield b'HTTP/1.1 200 OK\r\nETag: %s\r\nContent-Length: %d\r\n\r\n' % (tag, size)
        yield file.read(FRONT)
        return
    last = min(last, size - 1)
    yield b'HTTP/1.1 206 Partial Content\r\nETag: %s\r\nContent-Range: bytes %d-%d/%d\r\nContent-Length: %d\r\n\r\n' % (
        tag, first, last, size, last - first + 1)
    file.seek(first)
    yield file.read(last - first + 1)
