"""Windows of Cloud Optimized GeoTIFF files over HTTP byte ranges, as numpy arrays.

>>> import delgunsai
>>> with delgunsai.open('https://example.org/a.tif') as f:                         # doctest: +SKIP
...     f.levels, f.tag
...     a = f.read(x=3000, y=2000, width=256, height=256)
([(8192, 5632), (4096, 2816)], '"1-1"')

The package reads tiled files with unsigned samples of 8 or 16 bits, grey or RGB. Their tiles are uncompressed (as
`gdal_translate -of COG -co COMPRESS=NONE` writes them) or packed by PackBits. A server has to answer byte ranges, and to send strong ETags.
docs/PROFILE.md has all rules. A window has at most 4,194,304 samples. Proxies (`http_proxy`) aren't used.

The proved core (delgunsai.h) decides which bytes are requested, how answers are read, and what is returned. The package brings the
network.
"""
from ._errors import (BadUrl, DirCount, DirPlace, Error, FieldType, FileFault, Header, KeyHead, KeyOrder, KeyPlace, Late, LevelShape,
                      Lost, Missing, NotUsed, OutOfMemory, Outside, Packet, PastEnd, TagOrder, TileArray, TileSize, TooLarge, TooManyDirs,
                      Unsupported)
from ._file import File
from ._ground import Bounds, Crs, Transform
from ._info import Info
from ._open import open, open_file

__version__ = '0.1.0'
"""The version of the package, and of the header of the C library."""

__all__ = ['BadUrl', 'Bounds', 'Crs', 'DirCount', 'DirPlace', 'Error', 'FieldType', 'File', 'FileFault', 'Header', 'Info', 'KeyHead',
           'KeyOrder', 'KeyPlace', 'Late', 'LevelShape', 'Lost', 'Missing', 'NotUsed', 'OutOfMemory', 'Outside', 'Packet', 'PastEnd', 'TagOrder',
           'TileArray', 'TileSize', 'TooLarge', 'TooManyDirs', 'Transform', 'Unsupported', 'open', 'open_file']
