"""Numbers that callers give."""
from __future__ import annotations

import numbers
import operator
from typing import Any, Iterable, List, Optional, Sequence, SupportsIndex

import numpy
from numpy.typing import NDArray

GREATEST = 2 ** 32 - 1
LONGEST = 2 ** 31 // 1000                               # seconds that poll() takes


def number_of(name: str, number: SupportsIndex, least: int, greatest: int) -> int:
    """This number as it crosses to the core, an int, an integer of numpy or what else is one."""
    try:
        index = operator.index(number)
    except TypeError:
        raise TypeError(f'{name} is {number!r}, and no integer') from None
    if not least <= index <= greatest:
        raise ValueError(f'{name} is {index}, and not {least} to {greatest}')
    return index


def numbers_of(**numbers: SupportsIndex) -> List[int]:
    return [number_of(name, number, 0, GREATEST) for name, number in numbers.items()]


def seconds_of(name: str, seconds: Optional[float]) -> Optional[float]:
    """A number of seconds as sockets take it; None is for ever."""
    if seconds is None:
        return None
    if not isinstance(seconds, numbers.Real):
        raise TypeError(f'{name} is {seconds!r}, and no number')
    if not 0 < seconds <= LONGEST:
        raise ValueError(f'{name} is {seconds!r}, and not above 0 and at most {LONGEST}')
    return float(seconds)


def rows_of(windows: Iterable[Sequence[SupportsIndex]]) -> NDArray[Any]:
    """The windows as rows of x, y, width and height."""
    given: Any = windows if isinstance(windows, numpy.ndarray) else list(windows)
    if len(given) == 0:
        return numpy.zeros((0, 4), 'i8')
    try:
        rows = numpy.asarray(given)
    except ValueError:                                     # not four of each
        rows = numpy.zeros(0)
    if rows.dtype.kind in 'iu' and rows.ndim == 2 and rows.shape[1] == 4 and rows.min() >= 0 and rows.max() <= GREATEST:
        return rows.astype('i8')
    return numpy.array([numbers_of(x=x, y=y, width=width, height=height) for x, y, width, height in given], 'i8')
