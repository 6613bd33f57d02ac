"""A file that is read by windows."""
from __future__ import annotations

import dataclasses
import os
import sys
import threading
import weakref
from typing import Any, Callable, Iterable, List, NoReturn, Optional, Sequence, Set, SupportsIndex, Tuple, TypeVar

import numpy
from numpy.typing import NDArray

from . import _core
from ._core import Core, Headers, Many, Report, Step
from ._errors import Error, Lost, NotUsed, fault_of
from ._handlers import of_handler
from ._info import Info, read_info
from ._numbers import number_of, numbers_of, rows_of
from ._raster import Raster
from ._sources import Source
from ._threads import side_by_side

Result = TypeVar('Result')
TRIES = 3
BAND = 1024
"""Rows that are read together of many windows: tiles of a band stay in the blocks."""
SOME = 64
EACH = 4
"""How many windows share memory at most, and how many there are to a connection, where it isn't the last one."""
MOST_SAMPLES = 4_194_304
CUT, REVISION, LENGTH = 1, 10, 11
UNSATISFIABLE = 416


class File(Raster):
    """A file that is read by windows, each of one revision: one version of the file, with its ETag. A file that was replaced is read as the
    new one from then on, never mixed. A level is the full image (level 0) or one of its overviews. `tag` is the ETag of the revision that
    was read last. `read_tagged()` returns that of an array, and `same()` asks the server.

    >>> with open_file('docs/example.tif') as f:                                    # doctest: +SKIP
    ...     f.read(x=24, y=30, width=16, height=4).shape
    (4, 16)
    """

    def __init__(self, source: Source, authority: bytes, target: bytes, blocks: int, headers: Headers = ()) -> None:
        self._source = source
        self._client = authority, target, blocks, headers
        self._others: List[File] = []
        self._begin()
        self._open = True
        _files.add(self)

    def _begin(self) -> None:
        """As where nothing was read yet."""
        self._core = Core(*self._client)
        self._lock = threading.RLock()
        self._busy = False
        self._failures = self._restarts = 0
        """How many exchanges of the query in a row brought nothing, and how many times the file was replaced."""
        self._tag: Optional[str] = None
        self._info: Optional[Info] = None

    def __enter__(self) -> 'File':
        return self

    def __exit__(self, *_: object) -> None:
        self.close()

    def __repr__(self) -> str:
        return f'<delgunsai.File {self._source.where!r}' + (', closed>' if self.closed else '>')

    def __del__(self) -> None:
        if getattr(self, '_open', False):
            self.close()

    def __reduce__(self) -> NoReturn:
        raise TypeError('a File is neither copied nor pickled: open its URL or path again')

    def close(self) -> None:
        """Ends the connection, and frees what was kept of the file. Waits for another thread that reads the file."""
        with self._lock:
            self._check_idle()
            if self._open:
                self._open = False
                for other in self._others:
                    other.close()
                self._source.close(self._core)
                self._core.free()

    @property
    def closed(self) -> bool:
        """Whether the file was closed."""
        return not self._open

    @property
    def where(self) -> str:
        """The URL, or the path, of the file."""
        return self._source.where

    def read(self, *, x: Optional[SupportsIndex] = None, y: Optional[SupportsIndex] = None, width: Optional[SupportsIndex] = None,
             height: Optional[SupportsIndex] = None, level: SupportsIndex = 0, bounds: Optional[Sequence[float]] = None,
             out_shape: Optional[Sequence[SupportsIndex]] = None) -> NDArray[Any]:
        """Returns the samples of a window: of `width` columns from `x` and `height` rows from `y`, in pixels of the level.

        The array has the shape (height, width), or (height, width, 3) of three samples, and the type uint8 or uint16. It has at most
        4,194,304 samples, as 2048 by 2048 of one sample. rasterio's arrays are (count, rows, columns): `numpy.moveaxis(a, -1, 0)`.

        `bounds` (left, bottom, right, top) may stand instead of the four numbers: all pixels that these map coordinates touch. Without
        either the whole level is read. In both cases there may be more than 4,194,304 samples. With `out_shape` (rows, columns) the window
        is in pixels of level 0. It is read from the smallest level in which it has at least these rows and columns, or level 0. Each sample
        is the nearest one.

        Raises `FileFault` where something is wrong with the file or the window, and `OutOfMemory` where no memory is left. Raises `NotUsed`
        where an answer can't be used, `Lost` where none came, and `Late` after the `deadline`. Raises `ssl.SSLCertVerificationError` where
        the server's certificate isn't trusted, and the exception of the standard `open` where a file of the disk can't be opened. Raises
        `ValueError` for a number outside 0 to 4,294,967,295, an `out_shape` below 1, and a closed file. With `out_shape`, a window that
        isn't inside level 0 raises the fault `Outside` instead. Raises `ValueError`, too, for bounds that have no area or pass a side of
        the image. The same for a level that isn't there, if a whole level or bounds are asked for. Raises `TypeError` for what is no
        number, for a window that lacks one, for a window with `bounds`, and for a level other than 0 with `out_shape`. Raises
        `RuntimeError` where a signal handler calls it within a call of the same file, and in a process that the handler makes there.

        >>> f.read(x=24, y=30, width=4, height=2).tolist()
        [[216, 221, 226, 231], [217, 222, 227, 232]]
        >>> f.read(bounds=(106.24, 47.68, 106.28, 47.7)).tolist()
        [[216, 221, 226, 231], [217, 222, 227, 232]]
        >>> f.read(out_shape=(16, 32)).shape, f.read(level=2).shape
        ((16, 32), (16, 16))
        """
        is_window = x is not None or y is not None or width is not None or height is not None
        if is_window and bounds is None and out_shape is None:
            window: Any = {'x': x, 'y': y, 'width': width, 'height': height, 'level': level}
            return self._alone(self._window, self._core.open_window, numbers_of(**window))[0]
        return self._read_as(x, y, width, height, level, bounds, out_shape)

    def read_columns(self, *, x: SupportsIndex, y: SupportsIndex, width: SupportsIndex, height: SupportsIndex,
                     columns: SupportsIndex) -> NDArray[Any]:
        """Returns the samples of a window that is given in pixels of level 0, from a smaller level.

        It is the smallest level in which the window is at least `columns` columns wide, before it is rounded outwards. If there is none,
        it is level 0. Raises what `read` raises.

        >>> f.read_columns(x=0, y=0, width=8192, height=5632, columns=512).shape      # doctest: +SKIP
        (352, 512)
        """
        return self._alone(self._window, self._core.open_columns, numbers_of(x=x, y=y, width=width, height=height, columns=columns))[0]

    def read_tagged(self, *, x: SupportsIndex, y: SupportsIndex, width: SupportsIndex, height: SupportsIndex,
                    level: Optional[SupportsIndex] = None, columns: Optional[SupportsIndex] = None) -> Tuple[NDArray[Any], str]:
        """Returns what `read` returns, or with `columns` what `read_columns` returns, and the ETag of its revision.

        Other threads may read another revision meanwhile. Without `level` and `columns` the level is 0. Raises what `read` raises, and
        `TypeError` for a level together with columns.

        >>> f.read_tagged(x=3000, y=2000, width=256, height=256)[1]                   # doctest: +SKIP
        '"1-1"'
        """
        if columns is None:
            level = 0 if level is None else level
            return self._alone(self._window, self._core.open_window, numbers_of(x=x, y=y, width=width, height=height, level=level))
        if level is not None:
            raise TypeError('level or columns, and not both')
        return self._alone(self._window, self._core.open_columns, numbers_of(x=x, y=y, width=width, height=height, columns=columns))

    def read_windows(self, windows: Iterable[Sequence[SupportsIndex]], *, level: SupportsIndex = 0,
                     connections: SupportsIndex = 8) -> List[NDArray[Any]]:
        """Returns the samples of each of `windows` (x, y, width, height), in their order. All are of one revision, whose ETag `tag` is then.

        They are read in parallel over at most `connections` connections, 1 to 64. Each has a thread, and a cache of `blocks` blocks, which
        is kept until `close`. Up to 64 arrays may share one piece of memory, of at most 4 MiB (8 MiB for 16 bits). So `copy()` an array that
        you keep without the others.

        Raises what `read` raises of one window, and returns no array then. Raises `ValueError` for a window of other than four numbers.

        >>> [a.shape for a in f.read_windows([(0, 0, 256, 256), (3000, 2000, 64, 32)])]   # doctest: +SKIP
        [(256, 256), (32, 64)]
        """
        number, = numbers_of(level=level)
        return self._alone(self._windows, rows_of(windows), number, number_of('connections', connections, 1, 64))

    @property
    def info(self) -> Info:
        """What georeferences the image: keys, scale, tiepoint and ModelTransformation as numbers.

        If it has to be requested, it may be of a newer revision than an array that you have. `info.tag` is its ETag: compare it with that of
        `read_tagged`. Raises what `read` raises.

        >>> f.info.scale                                                               # doctest: +SKIP
        (0.01, 0.01, 0.0)
        """
        return self._alone(self._read_info)

    @property
    def levels(self) -> List[Tuple[int, int]]:
        """Columns and rows of each level, the largest first, as `info` has them."""
        return list(self.info.levels)

    @property
    def tag(self) -> str:
        """The ETag of the revision that was read last, by whichever thread, with its quotes. If nothing was read yet, the info is read."""
        return self._tag if self._tag is not None else self.info.tag

    def same(self) -> bool:
        """Asks whether the file still is the revision that was read last. This ends the connection that is kept. Raises what `read` raises,
        and `Error` where nothing was read yet."""
        return self._alone(self._ask)

    def _alone(self, do: Callable[..., Result], *words: Any) -> Result:
        """What this gives, of an open file that no other thread uses meanwhile; an exception has the place of the file."""
        with self._lock:
            self._check_idle()
            if not self._open:
                raise ValueError('the file is closed')
            self._busy = True
            self._source.begin()
            self._source.limit.begin()
            try:
                return self._in_one_process(do, words)
            except Error as error:
                error.where = self._source.where
                raise
            finally:
                self._busy = False

    def _in_one_process(self, do: Callable[..., Result], words: Tuple[Any, ...]) -> Result:
        """What this gives, unless a signal handler makes a process meanwhile: there the client is another one (`_forked`), and the handler may
        have read other windows by it."""
        process = os.getpid()
        try:
            result = do(*words)
        except Exception as error:
            if os.getpid() == process or of_handler(error):
                raise
        else:
            if os.getpid() == process:
                return result
        self._source.close(self._core)
        self._begin()
        raise RuntimeError('a signal handler made a process, in which the interrupted call has no connection and no threads')

    def _check_idle(self) -> None:
        """The lock lets a signal handler in, whose thread has it in the call that was interrupted."""
        if self._busy:
            raise RuntimeError('a signal handler uses the File that the interrupted call is using')

    def _window(self, ask: Callable[..., None], window: List[int]) -> Tuple[NDArray[Any], str]:
        ask(*window)
        report, tag = self._report()
        return self._core.pixels(report), tag

    def _windows(self, rows: NDArray[Any], level: int, connections: int) -> List[NDArray[Any]]:
        order = numpy.lexsort((rows[:, 0], rows[:, 1] // BAND))
        arrays: List[Any] = [None] * len(order)
        shares = numpy.array_split(order, max(1, min(connections, -(-len(order) // EACH))))
        while len(self._others) < len(shares) - 1:
            self._others.append(File(self._source.another(), *self._client))
        readers = [self, *self._others[:len(shares) - 1]]

        until = self._source.limit.until

        def reading(reader: File, share: NDArray[Any]) -> Callable[[threading.Event], Set[str]]:
            if reader is self:
                return lambda stop: reader._share(rows, share, level, arrays, stop, until)
            return lambda stop: reader._alone(reader._share, rows, share, level, arrays, stop, until)

        for _ in range(TRIES):
            tags = side_by_side(list(map(reading, readers, shares)), [reader._source.abort for reader in readers])
            if len(tags) <= 1:
                self._tag = tags.pop() if tags else self._tag
                return arrays
            for reader in readers:
                if reader is self:
                    reader._core.forget()
                else:
                    reader._alone(reader._core.forget)
        raise Lost(f'the file was replaced {TRIES} times while it was read')

    def _share(self, rows: NDArray[Any], share: NDArray[Any], level: int, arrays: List[Any], stop: threading.Event,
               until: Optional[float]) -> Set[str]:
        """Reads the windows in these rows into the list, unless it is to stop, or the call has its end, and gives their tags."""
        tags: Set[str] = set()
        like: Optional[Tuple[Report, str]] = None
        at = 0
        self._source.begin(stop)
        self._source.limit.until = until
        while at < len(share) and not stop.is_set():
            is_asked = False
            if like is not None and self._source.carries:
                some = share[at:at + SOME]
                done, is_asked = self._some(rows, some, level, arrays, *like)
                at += done
                if done == len(some):
                    continue
            row = share[at]
            if not is_asked:
                x, y, width, height = rows[row].tolist()
                self._core.open_window(x, y, width, height, level)
                self._exchange()
            report, tag = self._told()
            arrays[row] = self._core.pixels(report)
            like = Report.from_buffer_copy(report), tag
            tags.add(tag)
            at += 1
        return tags

    def _some(self, rows: NDArray[Any], share: NDArray[Any], level: int, arrays: List[Any], like: Report, tag: str) -> Tuple[int, bool]:
        """Reads the first of the windows in these rows without the interpreter, as far as the report of each is like this one. Returns their
        number, and whether the report of the next one stands."""
        wants = numpy.zeros(len(share), _core.WANT)
        for column, name in enumerate(('x', 'y', 'width', 'height')):
            wants[name] = rows[share, column]
        ends = numpy.cumsum(numpy.minimum(wants['width'].astype('u8') * wants['height'], MOST_SAMPLES + 1) * like.samples)
        count = max(1, int(numpy.searchsorted(ends, MOST_SAMPLES, 'right')))
        if ends[count - 1] > MOST_SAMPLES:
            return 0, False                                # a fault, for which no room is made
        room = _core.room(like, int(ends[count - 1]))
        wants['place'] = room.ctypes.data + numpy.concatenate(([0], ends[:-1])).astype('u8') * room.itemsize
        many = Many(wants=wants.ctypes.data, count=count, level=level, swapped=like.bits == 16 and sys.byteorder == 'little', like=like,
                    tag=tag.encode('latin-1'), tag_length=len(tag))
        self._exchange(many)
        first = 0
        for row, end, (width, height) in zip(share[:many.done].tolist(), ends.tolist(), rows[share, 2:].tolist()):
            arrays[row] = room[first:end].reshape(_core.shape(like, width, height))
            first = end
        return many.done, many.done < count

    def _read_info(self) -> Info:
        if self._info is None or self._info.tag != self._tag:
            self._core.open_info()
            self._report()
            self._info = read_info(self._core.info())
        return dataclasses.replace(self._info, keys=dict(self._info.keys))     # a caller may change its own

    def _ask(self) -> bool:
        """Returns whether the file still is the revision that was read last."""
        if self._tag is None:
            raise Error('nothing of the file was read yet')
        if f'\r\nIf-None-Match: {self._tag}\r\n'.encode('latin-1') not in (self._core.check() or b''):
            return False                                   # the core met another revision since, in a read that was lost
        failed: Optional[OSError] = None
        for _ in range(TRIES):
            try:
                kind, reason, status = self._source.check(self._core)
            except self._source.final:
                raise
            except OSError as error:
                if of_handler(error):
                    raise
                failed = error.with_traceback(None)            # whose frames hold it, and this File
                continue
            if kind != _core.UNKNOWN:
                return kind == _core.SAME
            if reason != CUT:
                raise NotUsed(reason, status or None)
        raise Lost(f'no whole answer in {TRIES} exchanges' + (f': {failed}' if failed else '')) from failed

    def _report(self) -> Tuple[Report, str]:
        """Exchanges until a report stands, and gives it with its tag, or raises its fault."""
        self._exchange()
        return self._told()

    def _exchange(self, many: Optional[Many] = None) -> None:
        """Exchanges until a report stands, or the reports of many windows are read."""
        self._failures = self._restarts = 0
        core = self._core
        if many is None:
            return self._source.run(core, self._judge, core.carry)
        windows = many
        self._source.run(core, self._judge, lambda wire: core.read(wire, windows))

    def _told(self) -> Tuple[Report, str]:
        """The report that stands, with its tag, or its fault, which is raised."""
        report, tag = self._core.report()
        if report.kind == _core.NO_REPORT:
            raise Lost(f'no report in {_core.EXCHANGES} exchanges')
        self._tag = tag.decode('latin-1')
        if report.kind == _core.FAULT:
            raise fault_of(report.fault, report.field)
        return report, self._tag

    def _judge(self, step: Step, lost: Optional[Exception]) -> bool:
        """Counts exchanges that bring nothing, and returns whether this one brought something. Raises a refusal of a request that was sent
        alone, and `Lost` after too many. A refusal of requests that were sent at once may be of their number."""
        kind, number = step.said.kind, step.said.number
        if kind == _core.RESTARTED or kind == _core.TOOK and number > 0:
            self._failures = 0
            if kind == _core.RESTARTED:
                self._restart()
            return True
        self._failures += 1
        refusal = None if kind == _core.TOOK else NotUsed(number, step.status or None)
        is_other = refusal is not None and self._is_of_another(refusal)
        if refusal is not None and number != CUT and number < REVISION and step.alone and not is_other:
            raise refusal
        if self._failures == TRIES and is_other and lost is None:
            self._core.forget()                            # the server passes If-Range over, or gives one tag to two files
            self._info, self._failures = None, 0
            self._restart()
        elif self._failures == TRIES:
            failed = lost or refusal or EOFError('the last one ends before its first block')
            raise Lost(f'no whole answer in {TRIES} exchanges: {failed}') from failed
        return False

    def _restart(self) -> None:
        """Counts that the file was replaced while it was read. Raises `Lost` after too many, unless a report stands."""
        self._restarts += 1
        if self._restarts == TRIES and self._core.report()[0].kind == _core.NO_REPORT:
            raise Lost(f'the file was replaced {TRIES} times while it was read')

    def _is_of_another(self, refusal: NotUsed) -> bool:
        """Whether the file is another one than what was read: where If-Range is passed over, it may end before the range."""
        return refusal.reason in (REVISION, LENGTH) or refusal.status == UNSATISFIABLE and self._core.check() is not None


_files: weakref.WeakSet[File] = weakref.WeakSet()


def _forked() -> None:
    """In a process that was forked no thread holds a lock. A client that one was calling is left as it is, and another one begins."""
    for file in _files:
        file._source.forked(file._busy)
        if file._busy or not file._lock.acquire(blocking=False):
            file._begin()
        else:
            file._lock.release()


os.register_at_fork(after_in_child=_forked)
