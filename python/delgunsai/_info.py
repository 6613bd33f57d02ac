"""What a file says of its levels and its place on the ground."""
from __future__ import annotations

import dataclasses
import struct
from typing import Dict, List, Optional, Tuple, Union

Value = Union[int, Tuple[float, ...], bytes]


@dataclasses.dataclass(frozen=True)
class Info:
    """What georeferences an image (OGC 19-008), as it stands in the file."""

    tag: str
    """The ETag of the file that this is of."""
    levels: Tuple[Tuple[int, int], ...]
    """Columns and rows of each level, the largest first."""
    minor: int
    """The minor revision of the keys."""
    keys: Dict[int, Value] = dataclasses.field(hash=False)
    """The keys by their numbers: a number, numbers, or a text as it stands, with its `|`."""
    scale: Optional[Tuple[float, ...]]
    """The numbers of ModelPixelScale, where it is there."""
    tiepoint: Optional[Tuple[float, ...]]
    """The numbers of ModelTiepoint."""
    model_transformation: Optional[Tuple[float, ...]]
    """The 16 numbers of ModelTransformation, row by row, which few files have."""

    @property
    def transform(self) -> Optional[Tuple[float, ...]]:
        """The old name of `model_transformation`. What rasterio calls transform is `File.transform`."""
        return self.model_transformation


def _doubles(words: List[str]) -> Tuple[float, ...]:
    return tuple(struct.unpack('>d', bytes.fromhex(word))[0] for word in words)


def _text(escaped: str) -> bytes:
    return escaped.encode('ascii').decode('unicode_escape').encode('latin-1')


def _value(kind: str, rest: str) -> Value:
    if kind == 'short':
        return int(rest)
    if kind == 'doubles':
        return _doubles(rest.split())
    return _text(rest)


def read_info(text: str) -> Info:
    r"""Reads the lines that `cogread info` prints, and returns them as an Info.

    >>> read_info('tag "1-1"\nlevel 0 64 32\nminor 0\nkey 1024 short 2\nscale 3ff0000000000000\n').keys
    {1024: 2}
    """
    levels: List[Tuple[int, int]] = []
    keys: Dict[int, Value] = {}
    fields: Dict[str, Tuple[float, ...]] = {}
    tag, minor = '', 0
    for line in text.rstrip('\n').split('\n'):
        word, _, rest = line.partition(' ')
        if word == 'tag':
            tag = rest
        elif word == 'level':
            _, width, length = rest.split()
            levels.append((int(width), int(length)))
        elif word == 'minor':
            minor = int(rest)
        elif word == 'key':
            number, kind, *value = rest.split(' ', 2)
            keys[int(number)] = _value(kind, value[0] if value else '')
        else:
            fields[word] = _doubles(rest.split())
    return Info(tag, tuple(levels), minor, keys, fields.get('scale'), fields.get('tiepoint'), fields.get('transform'))
