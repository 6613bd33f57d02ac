"""Why a file isn't read."""
from __future__ import annotations

from typing import Any, Optional, Tuple


class Error(Exception):
    """Why a file isn't read. `where` is the URL or the path of the file that was asked for. It stands before the sentence, with the
    characters escaped that aren't printable."""
    where: Optional[str] = None

    def __str__(self) -> str:
        words = super().__str__()
        return words if self.where is None else f'{_printable(self.where)}: {words}'


def _printable(text: str) -> str:
    """Returns the text with the characters escaped that aren't printable, as repr escapes them."""
    return ''.join(character if character.isprintable() else repr(character)[1:-1] for character in text)


class BadUrl(Error, ValueError):
    """The URL breaks a rule, which `rule` names."""

    def __init__(self, url: str, rule: str) -> None:
        super().__init__(f'{url!r}: {rule}')
        self.url = url
        self.rule = rule

    def __reduce__(self) -> Tuple[Any, ...]:
        return type(self), (self.url, self.rule), vars(self)


class OutOfMemory(Error, MemoryError):
    """The core had no memory."""


class Lost(Error, OSError):
    """Three exchanges one after another brought no answer, or answers that brought nothing. Or the file was replaced three times while it
    was read, or 65,536 exchanges brought no report."""


class Late(Lost):
    """The call took longer than the `deadline` of `open`. Nothing is asked again, and the next call may be made."""


class NotUsed(Error):
    """The server's answer can't be used.

    `reason` is the reason's number in docs/PROFILE.md: 1 cut, 2 head, 3 status, 4 no ETag, 5 weak ETag, 6 long ETag, 7 no range. It is 8
    for no length, 9 coding, 10 another revision, 11 another length, 12 not asked. `status` is the answer's status code, or None if its head
    wasn't read."""

    WORDS = {1: 'its head is cut', 2: "it has no head that is read", 3: 'its status', 4: 'it has no ETag', 5: 'its ETag is weak',
             6: 'its ETag is too long', 7: 'it has no range', 8: 'it has no length', 9: 'it is coded',
             10: 'it is a part of another revision', 11: 'its file has another length', 12: 'it is not what was asked'}

    def __init__(self, reason: int, status: Optional[int] = None) -> None:
        words = self.WORDS.get(reason, f'reason {reason}')
        super().__init__(f'{words} is {status}' if reason == 3 else words)
        self.reason = reason
        self.status = status

    def __reduce__(self) -> Tuple[Any, ...]:
        return type(self), (self.reason, self.status), vars(self)


NAMES = {254: 'NewSubfileType', 256: 'ImageWidth', 257: 'ImageLength', 258: 'BitsPerSample', 259: 'Compression',
         262: 'PhotometricInterpretation', 277: 'SamplesPerPixel', 284: 'PlanarConfiguration', 322: 'TileWidth', 323: 'TileLength',
         324: 'TileOffsets', 325: 'TileByteCounts', 339: 'SampleFormat', 33550: 'ModelPixelScale', 33922: 'ModelTiepoint',
         34264: 'ModelTransformation', 34735: 'GeoKeyDirectory', 34736: 'GeoDoubleParams', 34737: 'GeoAsciiParams'}


class FileFault(Error):
    """What is wrong with the file, or with what is asked of it.

    `number` is its number in docs/PROFILE.md. `tag` is the tag of the TIFF field that it is about, or None where it is about none."""
    number = 0

    def __init__(self, tag: Optional[int] = None) -> None:
        words = (self.__doc__ or '').strip()
        super().__init__(words if tag is None else f"{words.rstrip('.')}: {NAMES.get(tag, 'tag')} ({tag})")
        self.tag = tag

    def __reduce__(self) -> Tuple[Any, ...]:
        return type(self), (self.tag,), vars(self)


class Header(FileFault):
    """No classic TIFF: the byte order or the number 42 is wrong."""
    number = 1


class PastEnd(FileFault):
    """Bytes that are needed end after the file."""
    number = 2


class DirPlace(FileFault):
    """A directory's offset is odd or below 8."""
    number = 3


class DirCount(FileFault):
    """A directory has no entries, or more than 256."""
    number = 4


class TagOrder(FileFault):
    """The tags of a directory don't ascend."""
    number = 5


class TooManyDirs(FileFault):
    """More than 16 directories."""
    number = 6


class Missing(FileFault):
    """A level lacks this field."""
    number = 7


class FieldType(FileFault):
    """This field has another type or count."""
    number = 8


class Unsupported(FileFault):
    """A value of this field isn't read."""
    number = 9


class LevelShape(FileFault):
    """A side is 0, the first image is a reduced one, or a level isn't smaller than the one before."""
    number = 10


class TileArray(FileFault):
    """The array of tiles has not as many values as there are tiles, or more than 65536."""
    number = 11


class TileSize(FileFault):
    """A tile's side, plain size or byte count is wrong."""
    number = 12


class Packet(FileFault):
    """The packed bytes of a tile are no packets that fill it exactly, row by row."""
    number = 13


class Outside(FileFault):
    """The window is empty or passes its level, there is no such level, or 0 columns are asked for."""
    number = 14


class TooLarge(FileFault):
    """More than 4194304 samples, or a geo field of more than 65536 bytes."""
    number = 15


class KeyHead(FileFault):
    """The geo keys' version, revision or length is wrong."""
    number = 16


class KeyOrder(FileFault):
    """The geo keys don't ascend."""
    number = 17


class KeyPlace(FileFault):
    """A geo key's values aren't where it says."""
    number = 18


FAULTS = {fault.number: fault for fault in FileFault.__subclasses__()}


def fault_of(number: int, field: int) -> FileFault:
    """Returns the fault with this number. `field` is the tag of the TIFF field that it is about, or 0 for none."""
    return FAULTS[number](field or None)
