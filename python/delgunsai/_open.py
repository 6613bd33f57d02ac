"""How a file is opened."""
from __future__ import annotations

import os
import re
import ssl
from typing import List, Mapping, Optional, SupportsIndex, Tuple, Union

from ._disk import Disk
from ._file import File
from ._numbers import number_of, seconds_of
from ._sources import Address, Host

URL = re.compile(r'[^/]*://|https?:', re.IGNORECASE)
"""What a URL begins with, and a path doesn't."""


def open(place: Union[str, 'os.PathLike[str]'], *, blocks: SupportsIndex = 256, timeout: Optional[float] = 30.0,
         deadline: Optional[float] = None, context: Optional[ssl.SSLContext] = None,
         headers: Optional[Mapping[str, str]] = None) -> File:
    """Opens a file at a URL of http or https, or of the disk. Nothing is read yet.

    A text is a URL if it begins with http: or https:, or has :// before any other slash. Any other text, and each `os.PathLike`, is a path.

    `blocks` is the size of the cache, in blocks of 16,384 bytes: 66 to 4,096. Unpacked bytes of packed tiles are kept beside it, up to the
    same size. The other parameters are of URLs alone. `timeout` is in seconds, or None for ever. Each attempt to connect may take that long
    (one for each address of the host), each TLS handshake, and each read and write. An exchange (a request and its answer) that brought
    nothing is tried three times, so it may take several timeouts until `Lost` is raised. `deadline` is how many seconds a whole call may
    take, or None for ever. A call that reads the info and then windows has that time for each reading. `context` says which certificates
    are trusted; without it they are those of the system. `headers` are fields that are added to each request, such as `Authorization`.
    Their values are shown nowhere. Proxies aren't used.

    Raises `BadUrl` where the URL is outside the rules, and the `OSError` of the standard `open` where the path can't be opened. Raises
    `ValueError` where a number is outside its limits, or a field can't be added. Raises `TypeError` for another type.

    >>> with open('http://127.0.0.1:8080/a.tif') as f:                              # doctest: +SKIP
    ...     f.levels
    [(64, 64), (32, 32), (16, 16)]
    >>> with open('docs/example.tif') as f:                                         # doctest: +SKIP
    ...     f.levels
    [(64, 64), (32, 32), (16, 16)]
    """
    count = number_of('blocks', blocks, 66, 4096)
    wait, most = seconds_of('timeout', timeout), seconds_of('deadline', deadline)
    fields = _fields_of(headers)
    if not isinstance(place, str) or not URL.match(place):
        return open_file(place, blocks=count)
    address = Address(place)
    return File(Host(address, wait, context, most), address.netloc, address.target, count, fields)


def _fields_of(headers: Optional[Mapping[str, str]]) -> List[Tuple[bytes, bytes]]:
    """The names and values of the fields. Fails with `TypeError`, which shows none of them, where it is no mapping of texts."""
    if headers is None:
        return []
    if not isinstance(headers, Mapping):
        raise TypeError(f'headers is of type {type(headers).__name__}, and no mapping')
    return [(_bytes(name), _bytes(value)) for name, value in headers.items()]


def _bytes(text: str) -> bytes:
    """The text of a field. Fails with `TypeError`, which doesn't show it, where it is none."""
    if not isinstance(text, str):
        raise TypeError('headers: names and values are texts')
    return text.encode('utf-8', 'surrogatepass')


def open_file(path: Union[str, 'os.PathLike[str]'], *, blocks: SupportsIndex = 256) -> File:
    """Opens a file of the disk. It is read by ranges too, and may be replaced. Raises the exception of the standard `open` where it isn't
    there, is a folder or may not be read. Later calls do so, too.

    >>> with open_file('docs/example.tif') as f:                                    # doctest: +SKIP
    ...     f.levels
    [(64, 64), (32, 32), (16, 16)]
    """
    return File(Disk(path), b'disk', b'/file', number_of('blocks', blocks, 66, 4096))
