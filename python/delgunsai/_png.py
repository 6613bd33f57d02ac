"""PNG files of samples, and samples of 8 bits for the screen."""
from __future__ import annotations

import functools
import struct
import zlib
from typing import Any, Tuple

import numpy
from numpy.typing import NDArray

SIGNATURE = b'\x89PNG\r\n\x1a\n'
KINDS = {1: 0, 2: 4, 3: 2, 4: 6}
"""The colour type by the number of samples: grey and RGB, without and with a sample of opacity."""
FASTEST = 1
"""The level of zlib. A higher one takes several times as long, and saves a tenth of the bytes of a photograph."""


def png(samples: NDArray[Any]) -> bytes:
    r"""Returns a PNG file of samples of 8 or 16 bits, of shape (rows, columns) or (rows, columns, 3). A second or fourth sample of a
    pixel is its opacity.

    >>> png(numpy.zeros((2, 3), 'u1'))[:8]
    b'\x89PNG\r\n\x1a\n'
    """
    rows, columns = samples.shape[:2]
    wide = samples.dtype.itemsize == 2
    plain = numpy.ascontiguousarray(samples.astype('>u2') if wide else samples).reshape(rows, -1).view('u1')
    lines = numpy.zeros((rows, 1 + plain.shape[1]), 'u1')      # each begins with the number of its filter: none
    lines[:, 1:] = plain
    head = struct.pack('>2I5B', columns, rows, 16 if wide else 8, KINDS[1 if samples.ndim == 2 else samples.shape[2]], 0, 0, 0)
    return SIGNATURE + _chunk(b'IHDR', head) + _chunk(b'IDAT', zlib.compress(lines.tobytes(), FASTEST)) + _chunk(b'IEND', b'')


def _chunk(kind: bytes, data: bytes) -> bytes:
    return struct.pack('>I', len(data)) + kind + data + struct.pack('>I', zlib.crc32(kind + data))


def stretched(samples: NDArray[Any], limits: Tuple[float, float]) -> NDArray[Any]:
    """Returns samples of 8 bits: 0 up to the lower limit, 255 from the upper one on, and in proportion between them, rounded.

    >>> stretched(numpy.array([[0, 100, 150, 200, 65535]], 'u2'), (100, 200)).tolist()
    [[0, 0, 128, 255, 255]]
    """
    if samples.dtype.itemsize == 1 and limits == (0, 255):
        return samples
    stretch: NDArray[Any] = _table(256 ** samples.dtype.itemsize, *limits)[samples]
    return stretch


@functools.lru_cache(16)
def _table(count: int, low: float, high: float) -> NDArray[Any]:
    """Returns what each sample below `count` becomes."""
    numbers = numpy.arange(count, dtype='f8')
    share = (numbers - low) / (high - low) if high > low else (numbers > low).astype('f8')
    table: NDArray[Any] = numpy.floor(numpy.clip(share, 0, 1) * 255 + 0.5).astype('u1')
    return table
