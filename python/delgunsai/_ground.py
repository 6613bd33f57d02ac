"""Where an image lies on the ground, in the words of rasterio."""
from __future__ import annotations

import math
import re
from typing import NamedTuple, Optional, Tuple

from ._info import Info

RASTER, CITATION = 1025, 1026
GEODETIC, GEODETIC_CITATION, PROJECTED, PROJECTED_CITATION = 2048, 2049, 3072, 3073
IS_POINT = 2
"""The value of the key GTRasterType where tiepoints are of the middles of pixels."""
UNDEFINED, USER_DEFINED = 0, 32767
"""The values of a key of a system that name none."""
LABELS = b'PCS Name = ', b'GCS Name = '
"""What may stand before the name in a citation."""
NEAR = 1e-6
"""How far from a side of a pixel, in pixels, bounds still count as on it: map coordinates are rounded."""


class Transform(NamedTuple):
    """The first six numbers of rasterio's `Affine`. The upper left corner of the pixel in column `i` and row `j` has
    x = a i + b j + c and y = d i + e j + f.

    >>> Transform(0.5, 0, 100, 0, -0.5, 40).at(2, 4)
    (101.0, 38.0)
    """
    a: float
    b: float
    c: float
    d: float
    e: float
    f: float

    def at(self, column: float, row: float) -> Tuple[float, float]:
        """Returns the map coordinates x and y of a place in pixels."""
        return self.a * column + self.b * row + self.c, self.d * column + self.e * row + self.f

    def place(self, x: float, y: float) -> Tuple[float, float]:
        """Returns the column and the row, in pixels, of map coordinates. Fails with `ValueError` where all pixels lie on one line.

        >>> Transform(0.5, 0, 100, 0, -0.5, 40).place(101, 38)
        (2.0, 4.0)
        """
        scale = self.a * self.e - self.b * self.d
        if scale == 0:
            raise ValueError('the transform of this file has no inverse')
        east, north = x - self.c, y - self.f
        return (self.e * east - self.b * north) / scale, (self.a * north - self.d * east) / scale

    def of_level(self, sides: Tuple[int, int], whole: Tuple[int, int]) -> 'Transform':
        """Returns the transform of a level of these sides, where this one is of level 0, whose sides are `whole`."""
        wide, high = whole[0] / sides[0], whole[1] / sides[1]
        return Transform(self.a * wide, self.b * high, self.c, self.d * wide, self.e * high, self.f)


IDENTITY = Transform(1.0, 0.0, 0.0, 0.0, 1.0, 0.0)


class Bounds(NamedTuple):
    """The sides of an image in map coordinates, in the order of rasterio's `BoundingBox`."""
    left: float
    bottom: float
    right: float
    top: float


class Crs(NamedTuple):
    """A coordinate reference system as the keys of a file name it. `str()` of it is what rasterio and pyproj take.

    >>> str(Crs(32648, 'WGS 84 / UTM zone 48N'))
    'EPSG:32648'
    """
    epsg: Optional[int]
    """The number in the EPSG register; None where the file names none, or describes a system of its own."""
    text: str
    """The citation, as 'WGS 84 / UTM zone 48N'; empty where there is none."""

    def __str__(self) -> str:
        return self.text if self.epsg is None else f'EPSG:{self.epsg}'


def transform_of(info: Info) -> Transform:
    """Returns the transform of level 0 by corners of pixels. It is that of scale and tiepoint, or of ModelTransformation, or else the
    identity."""
    scale, tie, matrix = info.scale, info.tiepoint, info.model_transformation
    if scale is not None and tie is not None and scale[0] and scale[1]:
        transform = Transform(scale[0], 0.0, tie[3] - tie[0] * scale[0], 0.0, -scale[1], tie[4] + tie[1] * scale[1])
    elif matrix is not None:
        transform = Transform(matrix[0], matrix[1], matrix[3], matrix[4], matrix[5], matrix[7])
    else:
        return IDENTITY
    if info.keys.get(RASTER) == IS_POINT:
        x, y = transform.at(-0.5, -0.5)
        return transform._replace(c=x, f=y)
    return transform


def bounds_of(info: Info) -> Bounds:
    """Returns the bounds of the image. Where it is turned, they are those of its four corners."""
    transform, (width, height) = transform_of(info), info.levels[0]
    if transform.b == transform.d == 0:
        right, bottom = transform.at(width, height)
        return Bounds(transform.c, bottom, right, transform.f)
    corners = [transform.at(column, row) for column in (0, width) for row in (0, height)]
    across, down = zip(*corners)
    return Bounds(min(across), min(down), max(across), max(down))


def crs_of(info: Info) -> Optional[Crs]:
    """Returns the coordinate reference system that `cogread describe` prints, or None where the keys say nothing of one. Without the key
    of a projected system it is the geodetic one. With it, the geodetic citation names the base of the system, and doesn't count."""
    number = info.keys.get(PROJECTED, info.keys.get(GEODETIC))
    epsg = number if isinstance(number, int) and number not in (UNDEFINED, USER_DEFINED) else None
    own = (PROJECTED_CITATION, CITATION) if PROJECTED in info.keys else (PROJECTED_CITATION, GEODETIC_CITATION, CITATION)
    citations = (info.keys.get(key) for key in own)
    text = next((_name_in(citation) for citation in citations if isinstance(citation, bytes)), '')
    return Crs(epsg, text) if epsg is not None or text else None


def _name_in(citation: bytes) -> str:
    """Returns the name in a citation. It ends before the first `|` or NUL, and a label before it is left out."""
    name = re.split(rb'[|\0]', citation, maxsplit=1)[0]
    label = next((label for label in LABELS if name.startswith(label)), b'')
    return name[len(label):].decode('utf-8', 'replace')


def window_of(bounds: Tuple[float, float, float, float], transform: Transform, sides: Tuple[int, int]) -> Tuple[int, int, int, int]:
    """Returns the window (x, y, width, height) of all pixels that the bounds (left, bottom, right, top) touch, of a level with this
    transform and these sides. Fails with `ValueError` where the bounds are empty, or pass a side of the image."""
    left, bottom, right, top = bounds
    corners = [transform.place(x, y) for x in (left, right) for y in (bottom, top)]
    across, down = zip(*corners)
    (x, end), (y, low) = _touched(across), _touched(down)
    if not (x < end and y < low):
        raise ValueError(f'the bounds {tuple(bounds)} have no pixel inside')
    if x < 0 or y < 0 or end > sides[0] or low > sides[1]:
        raise ValueError(f'the bounds {tuple(bounds)} pass a side of the image: they are columns {x} to {end} of {sides[0]}, and rows {y} '
                         f'to {low} of {sides[1]}')
    return x, y, end - x, low - y


def _touched(places: Tuple[float, ...]) -> Tuple[int, int]:
    """Returns the first pixel between these places, and the one after the last, or 0 and 0 where there is nothing between them."""
    if not all(map(math.isfinite, places)):
        raise ValueError('bounds are four finite numbers')
    least, most = min(places), max(places)
    if most - least < NEAR:
        return 0, 0
    return math.floor(least + NEAR), math.ceil(most - NEAR)
