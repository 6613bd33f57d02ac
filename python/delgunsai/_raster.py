"""What those who know rasterio or numpy expect of a file."""
from __future__ import annotations

import operator
from typing import Any, Callable, Iterator, List, NamedTuple, NoReturn, Optional, Sequence, SupportsIndex, Tuple, TypeVar, Union

import numpy
from numpy.typing import NDArray

from ._errors import FileFault, Lost, Outside
from ._ground import Bounds, Crs, Transform, bounds_of, crs_of, transform_of, window_of
from ._info import Info
from ._png import png, stretched

Result = TypeVar('Result')
Key = Union[SupportsIndex, slice]
TRIES = 3
MOST_PIXELS = 4_194_304 // 3
"""How many pixels of three samples one window may have."""
SAMPLE = 1024
"""The sides, in pixels, of the part of the smallest level whose percentiles are taken."""
PICTURE = 512
"""The longer side, in pixels, of the picture in a notebook."""


class Window(NamedTuple):
    """Columns from `x` and rows from `y` of a level."""
    x: int
    y: int
    width: int
    height: int


class Replaced(Exception):
    """What was read is of another revision than the info."""


class Raster:
    """The part of `File` that has the names of rasterio and numpy. What a call gives is of one revision. Where the file is replaced between
    its info and its samples, both are read anew. After three times the call fails with `Lost`.

    Positions are of level 0, unless a level is named. Rows come before columns where rasterio and numpy have them so."""

    @property
    def where(self) -> str:
        """The URL, or the path, of the file."""
        raise NotImplementedError

    @property
    def info(self) -> Info:
        """What georeferences the image."""
        raise NotImplementedError

    def read_tagged(self, *, x: SupportsIndex, y: SupportsIndex, width: SupportsIndex, height: SupportsIndex,
                    level: Optional[SupportsIndex] = None) -> Tuple[NDArray[Any], str]:
        """Returns samples, and the tag of their revision."""
        raise NotImplementedError

    @property
    def shape(self) -> Tuple[int, int]:
        """The rows and the columns of level 0, as rasterio's `shape`. An array of an RGB file has a third axis, of `count` samples.

        >>> f.shape
        (64, 64)
        """
        width, height = self.info.levels[0]
        return height, width

    @property
    def dtype(self) -> 'numpy.dtype[Any]':
        """The type of a sample: uint8 or uint16. rasterio has one for each band, in `dtypes`.

        >>> f.dtype
        dtype('uint8')
        """
        return self._pixel().dtype

    @property
    def count(self) -> int:
        """The number of samples of a pixel: 1 (grey) or 3 (RGB).

        >>> f.count
        1
        """
        return self._pixel().size

    @property
    def transform(self) -> Transform:
        """Six numbers, as the first six of rasterio's `transform`: `affine.Affine(*f.transform)` is equal to it. They lead from columns
        and rows of level 0 to map coordinates, and are of the corners of pixels. A file without such fields has the identity. For the
        field ModelTransformation see `info.model_transformation`.

        >>> [round(number, 9) for number in f.transform]
        [0.01, 0.0, 106.0, 0.0, -0.01, 48.0]
        """
        return transform_of(self.info)

    @property
    def bounds(self) -> Bounds:
        """The left, bottom, right and top side of the image in map coordinates, in the units of the system, as rasterio's `bounds`.

        >>> [round(side, 9) for side in f.bounds]
        [106.0, 47.36, 106.64, 48.0]
        """
        return bounds_of(self.info)

    @property
    def crs(self) -> Optional[Crs]:
        """The number of the coordinate reference system in the EPSG register, and its text; None where the keys name none. `str()` of it
        is what `rasterio.crs.CRS.from_user_input` takes.

        >>> f.crs.epsg, f.crs.text, str(f.crs)
        (4326, 'WGS 84', 'EPSG:4326')
        """
        return crs_of(self.info)

    def index(self, x: float, y: float) -> Tuple[int, int]:
        """Returns the row and the column, in level 0, of the pixel in which map coordinates lie, as rasterio's `index`. It may be outside
        the image. Fails with `ValueError` where the transform has no inverse.

        >>> f.index(106.045, 47.985)
        (1, 4)
        """
        column, row = self.transform.place(x, y)
        return int(numpy.floor(row)), int(numpy.floor(column))

    def xy(self, row: float, col: float) -> Tuple[float, float]:
        """Returns the map coordinates x and y of the middle of a pixel of level 0, as rasterio's `xy`.

        >>> [round(number, 9) for number in f.xy(1, 4)]
        [106.045, 47.985]
        """
        return self.transform.at(col + 0.5, row + 0.5)

    def percentiles(self, low: float = 2, high: float = 98) -> Tuple[float, float]:
        """Returns the percentiles `low` and `high` (0 to 100) of the samples of the smallest level, all bands together. Of a side with more
        than 1,024 pixels only the middle 1,024 count.

        >>> f.percentiles(0, 100)
        (42.0, 240.0)
        """
        return self._settled(lambda info: percentiles_of(self, info, low, high))

    def png(self, *, x: Optional[SupportsIndex] = None, y: Optional[SupportsIndex] = None, width: Optional[SupportsIndex] = None,
            height: Optional[SupportsIndex] = None, level: SupportsIndex = 0, bounds: Optional[Sequence[float]] = None,
            out_shape: Optional[Sequence[SupportsIndex]] = None, limits: Optional[Tuple[float, float]] = None) -> bytes:
        """Returns what `read` gives as a PNG file of 8 bits, grey or RGB. `limits` are the samples that become 0 and 255. Without them
        samples of 8 bits stay as they are, and those of 16 bits are stretched from 2 to 98 per cent (`percentiles`).

        >>> f.png(x=0, y=0, width=4, height=2)[1:4]
        b'PNG'
        """
        asked = Asked(_window(x, y, width, height), level, bounds, out_shape)

        def picture(info: Info) -> bytes:
            samples = _read(self, info, asked)
            if limits is not None:
                return png(stretched(samples, limits))
            return png(samples if samples.itemsize == 1 else stretched(samples, percentiles_of(self, info, 2, 98)))
        return self._settled(picture)

    def _repr_png_(self) -> Optional[bytes]:
        """Returns the picture that a notebook shows: the whole image, with at most 512 pixels on its longer side."""
        if getattr(self, 'closed', False):
            return None
        height, width = self.shape
        scale = min(1.0, PICTURE / max(height, width))
        return self.png(out_shape=(max(1, round(height * scale)), max(1, round(width * scale))))

    def __getitem__(self, key: Any) -> NDArray[Any]:
        """Returns the samples of level 0 at these rows and columns, as a numpy array of the whole image would: integers, slices with any
        step, and `...`. Only the pixels between the first and the last one are read. Fails with `IndexError` outside the image, and with
        `TypeError` for other keys.

        >>> f[30:32, 24:28].tolist(), int(f[30, 24]), f[-1].shape, f[::-16, ...].shape
        ([[216, 221, 226, 231], [217, 222, 227, 232]], 216, (64,), (4, 64))
        """
        keys = list(key) if isinstance(key, tuple) else [key]
        if len(keys) > 2 or any(part is Ellipsis for part in keys):
            keys = _without_ellipsis(keys, 2 if self.count == 1 else 3)

        def cut(info: Info) -> NDArray[Any]:
            width, height = info.levels[0]
            top, bottom, rows = _axis(keys[0] if keys else slice(None), height, 0)
            left, right, columns = _axis(keys[1] if len(keys) > 1 else slice(None), width, 1)
            if top < bottom and left < right:
                whole = _samples(self, info, 0, Window(left, top, right - left, bottom - top))
            else:
                pixel = _samples(self, info, 0, Window(0, 0, 1, 1))
                whole = numpy.empty((bottom - top, right - left, *pixel.shape[2:]), pixel.dtype)
            samples: NDArray[Any] = whole[(rows, columns, *keys[2:])]
            return samples
        return self._settled(cut)

    def __iter__(self) -> NoReturn:
        raise TypeError('a File is no sequence: f[...] is the array of its samples')

    def _read_as(self, x: Optional[SupportsIndex], y: Optional[SupportsIndex], width: Optional[SupportsIndex],
                 height: Optional[SupportsIndex], level: SupportsIndex, bounds: Optional[Sequence[float]],
                 out_shape: Optional[Sequence[SupportsIndex]]) -> NDArray[Any]:
        """Returns what `read` gives by bounds, by the shape of the array, or of a whole level."""
        asked = Asked(_window(x, y, width, height), level, bounds, out_shape)
        return self._settled(lambda info: _read(self, info, asked))

    def _pixel(self) -> NDArray[Any]:
        return self.read_tagged(x=0, y=0, width=1, height=1)[0]

    def _settled(self, read: Callable[[Info], Result]) -> Result:
        """Returns what `read` gives, with an info of the same revision."""
        for _ in range(TRIES):
            info = self.info
            try:
                return read(info)
            except Replaced:
                continue
            except FileFault:
                if self.info.tag == info.tag:
                    raise
        lost = Lost(f'the file was replaced {TRIES} times while it was read')
        lost.where = self.where
        raise lost


class Asked(NamedTuple):
    """What `read` is asked for."""
    window: Optional[Window]
    level: SupportsIndex
    bounds: Optional[Sequence[float]]
    shape: Optional[Sequence[SupportsIndex]]


def _window(*numbers: Optional[SupportsIndex]) -> Optional[Window]:
    """Returns the window of these numbers, or None where there are none."""
    if all(number is None for number in numbers):
        return None
    for name, number in zip(Window._fields, numbers):
        if number is None:
            raise TypeError(f'{name} is missing: a window has x, y, width and height')
    return Window(*(operator.index(number) for number in numbers if number is not None))


def _read(file: Raster, info: Info, asked: Asked) -> NDArray[Any]:
    """Reads what is asked for of the revision of the info."""
    if asked.window is not None and asked.bounds is not None:
        raise TypeError('a window or bounds, and not both')
    level = operator.index(asked.level)
    if asked.shape is not None and level != 0:
        raise TypeError('level or out_shape, and not both')
    if not 0 <= level < len(info.levels):
        raise ValueError(f'level is {level}, and not 0 to {len(info.levels) - 1}')
    sides = info.levels[level]
    window = asked.window or Window(0, 0, *sides)
    if asked.bounds is not None:
        left, bottom, right, top = map(float, asked.bounds)
        transform = transform_of(info).of_level(sides, info.levels[0])
        window = Window(*window_of((left, bottom, right, top), transform, sides))
    if asked.shape is None:
        return _samples(file, info, level, window)
    if not (0 <= window.x < window.x + window.width <= sides[0] and 0 <= window.y < window.y + window.height <= sides[1]):
        outside = Outside()
        outside.where = file.where
        raise outside
    rows, columns = (operator.index(number) for number in asked.shape)
    if rows < 1 or columns < 1:
        raise ValueError(f'out_shape is {(rows, columns)}, and not rows and columns from 1 on')
    return _nearest(file, info, window, rows, columns)


def _nearest(file: Raster, info: Info, window: Window, rows: int, columns: int) -> NDArray[Any]:
    """Reads a window of level 0 in another shape, from the smallest level in which it has at least these rows and columns, or level 0.
    Each sample is the one of that level in which the middle of its pixel lies."""
    width, height = info.levels[0]

    def places(level: int) -> Tuple[NDArray[Any], NDArray[Any]]:
        wide, high = info.levels[level]
        return (_middles(window.y, window.height, rows, height, high), _middles(window.x, window.width, columns, width, wide))

    enough = [level for level, (wide, high) in enumerate(info.levels)
              if window.width * wide >= columns * width and window.height * high >= rows * height]
    level = max(enough, default=0)
    down, across = places(level)
    top, left = int(down[0]), int(across[0])
    samples = _samples(file, info, level, Window(left, top, int(across[-1]) + 1 - left, int(down[-1]) + 1 - top))
    nearest: NDArray[Any] = samples[(down - top)[:, None], across - left]
    return nearest


def _middles(first: int, length: int, count: int, whole: int, of_level: int) -> NDArray[Any]:
    """Returns the pixels of a level in which the middles lie of `count` equal parts of `length` pixels from `first`. The side has `whole`
    pixels in level 0, and `of_level` in this one."""
    parts = numpy.arange(count, dtype='i8')
    return numpy.minimum(((2 * parts + 1) * length + 2 * first * count) * of_level // (2 * count * whole), of_level - 1)


def _samples(file: Raster, info: Info, level: int, window: Window) -> NDArray[Any]:
    """Reads a window of any size, piece by piece. Raises `Replaced` where a piece is of another revision than the info."""
    whole: Optional[NDArray[Any]] = None
    for top, height in _pieces(window):
        part, tag = file.read_tagged(x=window.x, y=window.y + top, width=window.width, height=height, level=level)
        if tag != info.tag:
            raise Replaced
        if height == window.height:
            return part
        if whole is None:
            whole = numpy.empty((window.height, *part.shape[1:]), part.dtype)
        whole[top:top + height] = part
    assert whole is not None
    return whole


def _pieces(window: Window) -> Iterator[Tuple[int, int]]:
    """Yields the first row and the number of rows of each piece of a window. A window of no pixel is a piece: the core says its fault."""
    rows = max(1, MOST_PIXELS // max(1, window.width))
    for top in range(0, max(1, window.height), rows):
        yield top, min(rows, window.height - top)


def percentiles_of(file: Raster, info: Info, low: float, high: float) -> Tuple[float, float]:
    """Returns the percentiles of the revision of the info. Raises `Replaced` where the file is another one."""
    level = len(info.levels) - 1
    wide, long = info.levels[level]
    width, height = min(wide, SAMPLE), min(long, SAMPLE)
    samples = _samples(file, info, level, Window((wide - width) // 2, (long - height) // 2, width, height))
    least, most = numpy.percentile(samples, (low, high))
    return float(least), float(most)


def _without_ellipsis(keys: List[Any], axes: int) -> List[Any]:
    """Returns the keys with as many whole axes instead of `...` as there are left."""
    places = [number for number, part in enumerate(keys) if part is Ellipsis]
    if len(places) > 1:
        raise IndexError("an index can only have a single ellipsis ('...')")
    if len(keys) - len(places) > axes:
        raise IndexError(f'too many indices: the image has {axes} axes')
    if not places:
        return keys
    first, = places
    return [*keys[:first], *[slice(None)] * (axes + 1 - len(keys)), *keys[first + 1:]]


def _axis(key: Key, side: int, axis: int) -> Tuple[int, int, Key]:
    """Returns the first pixel of a key, the one after the last, and the key in the part between them."""
    if isinstance(key, slice):
        places = range(*key.indices(side))
        if len(places) == 0:
            return 0, 0, slice(None)
        least, most = min(places[0], places[-1]), max(places[0], places[-1])
        return least, most + 1, slice(None, None, places.step)
    if isinstance(key, (bool, numpy.bool_)) or not hasattr(key, '__index__'):
        raise TypeError(f'rows and columns are integers, slices or ..., and not {key!r}')
    number = operator.index(key)
    if not -side <= number < side:
        raise IndexError(f'index {number} is out of bounds for axis {axis} with size {side}')
    place = number % side
    return place, place + 1, 0
