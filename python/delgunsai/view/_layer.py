"""A file that the viewer shows: its revision, and tiles of it."""
from __future__ import annotations

import collections
import contextlib
import os
import threading
import time
from concurrent import futures
from typing import Any, Callable, Iterator, List, NamedTuple, Optional, Tuple

import numpy
from numpy.typing import NDArray

from .._file import File
from .._ground import Crs, Transform, bounds_of, crs_of, transform_of
from .._info import Info
from .._open import URL, open as open_url, open_file
from .._png import png, stretched
from .._raster import Replaced, percentiles_of

SIDE = 256
"""The columns and the rows of a tile."""
MOST_KEPT = 64 << 20
"""How many bytes of samples are kept of a file: 1,024 tiles of a grey image of 8 bits."""
PATIENCE = 0.5
"""How many seconds a request waits for the first read, before it says that the read goes on."""
MAIN_PERCENTILES = 2, 98

Opener = Callable[[], File]
Limits = Tuple[float, float]
Array = NDArray[Any]
Place = Tuple[str, int, int, int]
"""A tag, a level, and the column and the row of a tile."""


class Changed(Exception):
    """The file is another revision than the one that was asked for. `tag` is its tag."""

    def __init__(self, tag: str) -> None:
        super().__init__('the file was replaced')
        self.tag = tag


class Reading(Exception):
    """The first read of the file isn't over after `seconds`."""

    def __init__(self, seconds: float) -> None:
        super().__init__(f'the file has been read for {seconds:.0f} seconds')
        self.seconds = seconds


class Nowhere(Exception):
    """There is no tile or pixel at this place."""


class Revision(NamedTuple):
    """What a page has to know of one revision."""
    info: Info
    samples: int
    """How many a pixel has: 1 or 3."""
    most: int
    """The greatest sample: 255 or 65,535."""
    percentiles: Limits
    """The samples at 2 and 98 per cent of the smallest level."""
    extent: Limits
    """The least and the greatest sample: of 8 bits 0 and 255, and of 16 bits those of the smallest level."""

    @property
    def tag(self) -> str:
        """The tag of the revision, with its quotes."""
        return self.info.tag

    @property
    def limits(self) -> Limits:
        """The samples that are black and white at first: all of 8 bits, and of 16 bits those at 2 and 98 per cent."""
        return self.percentiles if self.most > 255 else (0.0, 255.0)

    @property
    def transform(self) -> Transform:
        """The way from pixels of level 0 to map coordinates."""
        return transform_of(self.info)

    @property
    def bounds(self) -> Tuple[float, float, float, float]:
        """The left, bottom, right and top side in map coordinates."""
        return bounds_of(self.info)

    @property
    def crs(self) -> Optional[Crs]:
        """The coordinate reference system."""
        return crs_of(self.info)


def _revision_of(file: File) -> Revision:
    """Reads what a page has to know, all of one revision."""
    def read(info: Info) -> Revision:
        pixel, tag = file.read_tagged(x=0, y=0, width=1, height=1)
        if tag != info.tag:
            raise Replaced
        is_wide = pixel.itemsize == 2
        extent = percentiles_of(file, info, 0, 100) if is_wide else (0.0, 255.0)
        return Revision(info, pixel.size, 65535 if is_wide else 255, percentiles_of(file, info, *MAIN_PERCENTILES), extent)
    return file._settled(read)


class Readers:
    """Files of one place, each with connections and blocks of its own, for one thread at a time. An idle one is kept with the tag of what
    it read last, so that a tile of a revision comes from the blocks that are kept of it."""

    def __init__(self, opener: Opener, most: int) -> None:
        self._opener = opener
        self._most = most
        self._places = threading.BoundedSemaphore(most)
        self._lock = threading.Lock()
        self._idle: List[Tuple[str, File]] = []

    @contextlib.contextmanager
    def reader(self, tag: str) -> Iterator[File]:
        """Lends a file that read this tag last, or else a new one. One whose use fails isn't used again."""
        with self._places:
            file = self._take(tag) or self._opener()
            try:
                yield file
            except BaseException:
                file.close()
                raise
            self.keep(file)

    def _take(self, tag: str) -> Optional[File]:
        with self._lock:
            for number in reversed(range(len(self._idle))):
                if self._idle[number][0] == tag:
                    return self._idle.pop(number)[1]
        return None

    def keep(self, file: File) -> None:
        """Keeps a file that is idle, and closes the one that has been idle longest where there are too many."""
        with self._lock:
            self._idle.append((file.tag, file))
            old = self._idle.pop(0)[1] if len(self._idle) > self._most else None
        if old is not None:
            old.close()

    def close(self) -> None:
        """Closes all that are idle."""
        with self._lock:
            idle, self._idle = self._idle, []
        for _, file in idle:
            file.close()


class Samples:
    """Samples of tiles by their tag and place, those that were used last, as far as there is room. A stretch that changes needs them again,
    and they may have come by any reader."""

    def __init__(self, most: int) -> None:
        self._most = most
        self._lock = threading.Lock()
        self._bytes = 0
        self._kept: 'collections.OrderedDict[Place, Array]' = collections.OrderedDict()

    def find(self, place: Place) -> Optional[Array]:
        """Returns the samples of a tile, if they are kept."""
        with self._lock:
            if place in self._kept:
                self._kept.move_to_end(place)
            return self._kept.get(place)

    def keep(self, place: Place, samples: Array) -> None:
        """Keeps the samples of a tile, and drops those that weren't used for longest."""
        with self._lock:
            if place not in self._kept:
                self._kept[place] = samples
                self._bytes += samples.nbytes
            while self._bytes > self._most:
                self._bytes -= self._kept.popitem(last=False)[1].nbytes


class Layer:
    """A file of the viewer by its name. Its revision is looked at again once `seconds` have passed, and read in a thread of its own."""

    def __init__(self, name: str, place: str, readers: int = 8, seconds: float = 2.0, timeout: float = 30.0) -> None:
        self.name = name
        self.place = place
        self._timeout = timeout
        self._seconds = seconds
        self._readers = Readers(self._open, readers)
        self._samples = Samples(MOST_KEPT)
        self._lock = threading.Lock()
        self._known: Optional[Revision] = None
        self._look: Optional['futures.Future[Revision]'] = None
        self._since = 0.0

    def _open(self) -> File:
        if is_url(self.place):
            return open_url(self.place, timeout=self._timeout)
        return open_file(self.place)

    def revision(self) -> Revision:
        """Returns the revision of the file as it was at most `seconds` ago. Raises `Reading` where the first read takes longer than a
        moment, and what the package raises where the file can't be read."""
        with self._lock:
            known, look, now = self._known, self._look, time.monotonic()
            if look is None and (known is None or now - self._since >= self._seconds):
                look = self._look = self._begun(known)
                self._since = now
            begun = self._since
        if look is None:
            assert known is not None
            return known
        futures.wait([look], PATIENCE)
        if not look.done():
            if known is not None:
                return known
            raise Reading(time.monotonic() - begun)
        return self._ended(look)

    def _begun(self, known: Optional[Revision]) -> 'futures.Future[Revision]':
        """Begins to look at the file, in a thread that the end of the program doesn't wait for."""
        look: 'futures.Future[Revision]' = futures.Future()

        def run() -> None:
            try:
                look.set_result(self._newest(known))
            except BaseException as error:
                look.set_exception(error)
        threading.Thread(target=run, name=f'look at {self.name}', daemon=True).start()
        return look

    def _ended(self, look: 'futures.Future[Revision]') -> Revision:
        with self._lock:
            if self._look is look:
                self._look = None
                self._known = None if look.exception() else look.result()
        return look.result()

    def _newest(self, known: Optional[Revision]) -> Revision:
        """Asks whether the file is the same, and reads it anew where it isn't."""
        if known is not None:
            with self._readers.reader(known.tag) as file:
                if file.tag == known.tag and file.same():
                    return known
            self._readers.close()
        with contextlib.ExitStack() as stack:
            file = self._open()
            stack.callback(file.close)
            revision = _revision_of(file)
            stack.pop_all()
        self._readers.keep(file)
        return revision

    def _now(self, tag: Optional[str]) -> Revision:
        """Returns the revision that is known. Raises `Changed` where its tag is another one than this."""
        revision = self._known or self.revision()
        if tag is not None and tag != revision.tag:
            raise Changed(revision.tag)
        return revision

    def samples(self, revision: Revision, level: int, x: int, y: int, width: int, height: int) -> Array:
        """Reads a window of a revision. Raises `Changed` where the file is another one meanwhile."""
        with self._readers.reader(revision.tag) as file:
            samples, tag = file.read_tagged(x=x, y=y, width=width, height=height, level=level)
        if tag != revision.tag:
            with self._lock:
                self._known = None if self._known is revision else self._known
            raise Changed(tag)
        return samples

    def tile_samples(self, revision: Revision, level: int, x: int, y: int, width: int, height: int) -> Array:
        """Returns the samples of a tile of these sides: those that are kept, or what is read."""
        place = revision.tag, level, x, y
        samples = self._samples.find(place)
        if samples is None:
            samples = self.samples(revision, level, SIDE * x, SIDE * y, width, height)
            self._samples.keep(place, samples)
        return samples

    def tile(self, tag: Optional[str], level: int, x: int, y: int, limits: Optional[Limits]) -> Tuple[bytes, str]:
        """Returns a tile of 256 by 256 as PNG, with the tag of its revision: column `x` and row `y` of the tiles of a level. What is
        outside of the level is transparent. Raises `Changed` where `tag` is another one, and `Nowhere` where there is no such tile."""
        revision = self._now(tag)
        columns, rows = _sides(revision, level)
        width, height = min(SIDE, columns - SIDE * x), min(SIDE, rows - SIDE * y)
        if width <= 0 or height <= 0:
            raise Nowhere
        samples = stretched(self.tile_samples(revision, level, x, y, width, height), limits or revision.limits)
        if (width, height) != (SIDE, SIDE):
            samples = _padded(samples)
        return png(samples), revision.tag

    def value(self, tag: Optional[str], level: int, x: int, y: int) -> Tuple[List[int], str]:
        """Returns the samples of a pixel of a level, with the tag of their revision. Raises as `tile` does."""
        revision = self._now(tag)
        columns, rows = _sides(revision, level)
        if x >= columns or y >= rows:
            raise Nowhere
        return self.samples(revision, level, x, y, 1, 1).ravel().tolist(), revision.tag

    def close(self) -> None:
        """Closes the files that are idle. A read that goes on isn't waited for."""
        self._readers.close()


def is_url(place: str) -> bool:
    """Says whether a word is a URL, and not the path of a file that is there."""
    return URL.match(place) is not None and not os.path.exists(place)


def _sides(revision: Revision, level: int) -> Tuple[int, int]:
    if level >= len(revision.info.levels):
        raise Nowhere
    return revision.info.levels[level]


def _padded(samples: Array) -> Array:
    """Returns a whole tile with these samples in its upper left corner, and one more sample in each pixel: 255, or 0 where it is empty."""
    height, width = samples.shape[:2]
    count = 1 if samples.ndim == 2 else samples.shape[2]
    tile = numpy.zeros((SIDE, SIDE, count + 1), 'u1')
    tile[:height, :width, :count] = samples.reshape(height, width, count)
    tile[:height, :width, count] = 255
    return tile
