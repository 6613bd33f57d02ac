"""The C library: one object for each client."""
from __future__ import annotations

import ctypes
import pathlib
import sys
from typing import Any, Optional, Sequence, Tuple, Union

import numpy
from numpy.typing import NDArray

from ._errors import OutOfMemory

NO_REPORT, WINDOW, INFO, FAULT = 0, 1, 2, 3
TOOK, RESTARTED, IGNORED = 1, 2, 3
SAME, OTHER, UNKNOWN = 1, 2, 3
CONNECT, WRITE, READ, LOOK, EXCHANGED, CHECKED, OVER, MORE = range(1, 9)
ENDED, FAILED, LATE = 1, 2, 3

ABI = 3
"""That of wire.c."""
REQUEST_ROOM, TAG_ROOM, WAITING_ROOM = 4096, 64, 16384
ROOM = 1 << 17
AHEAD = 64
EXCHANGES = 65536
MEMORY = -4
FIELDS = {
    -11: 'its name must be a token (RFC 9110, section 5.6.2)',
    -12: 'the package writes it itself, or it would change the connection or the answer',
    -13: 'its value must be visible ASCII, with spaces and tabs inside',
    -14: 'there may be at most 16 fields',
    -15: 'all fields together may have at most 1,024 bytes, with four for each',
}
"""Why a field isn't added."""
HUGE = 1 << 22
"""From how many bytes on numpy asks for huge pages."""

Piece = Union[memoryview, bytes]
Headers = Sequence[Tuple[bytes, bytes]]
"""Names and values of fields."""
NARROW: 'numpy.dtype[Any]' = numpy.dtype('u1')
WIDE: 'numpy.dtype[Any]' = numpy.dtype('u2')
Front = ctypes.c_char * 1


class Handle(ctypes.Structure):
    """struct cog_client."""
    _fields_ = [('at', ctypes.c_void_p), ('full', ctypes.c_bool)]


class Said(ctypes.Structure):
    """struct cog_said."""
    _fields_ = [('kind', ctypes.c_uint32), ('number', ctypes.c_uint32)]


class Report(ctypes.Structure):
    """struct cog_report."""
    _fields_ = [(name, ctypes.c_uint32) for name in ('kind', 'width', 'height', 'samples', 'bits', 'fault', 'field')]


class Step(ctypes.Structure):
    """struct delgunsai_step."""
    _fields_ = [('taken', ctypes.c_uint64), ('kind', ctypes.c_uint32), ('said', Said), ('status', ctypes.c_uint32), ('alone', ctypes.c_uint32)]


class Wire(ctypes.Structure):
    """struct wire of wire.c, with room for the bytes that come."""
    _fields_ = [('socket', ctypes.c_int32), ('goes_on', ctypes.c_uint32), ('lost', ctypes.c_uint32), ('error', ctypes.c_int32),
                ('step', Step), ('room', ctypes.c_void_p), *((name, ctypes.c_size_t) for name in ('size', 'begin', 'end'))]

    def __init__(self) -> None:
        self.bytes = memoryview(bytearray(ROOM))
        super().__init__(socket=-1, room=ctypes.addressof(Front.from_buffer(self.bytes)), size=ROOM)


class Many(ctypes.Structure):
    """struct many of wire.c."""
    _fields_ = [('wants', ctypes.c_void_p), *((name, ctypes.c_uint32) for name in ('count', 'level', 'swapped', 'done', 'is_asked')),
                ('like', Report), ('tag', ctypes.c_char_p), ('tag_length', ctypes.c_size_t)]


WANT = numpy.dtype([*((name, 'u4') for name in ('x', 'y', 'width', 'height')), ('place', numpy.uintp)])
"""struct want of wire.c."""


def _calls() -> Tuple[Any, ...]:
    """Returns each call of the library: its name, what it takes and gives, and whether it may go over blocks, samples or keys."""
    client, text, room, number = ctypes.POINTER(Handle), ctypes.c_char_p, ctypes.c_void_p, ctypes.c_uint32
    size, result, length = ctypes.c_size_t, ctypes.c_int32, ctypes.c_int64
    said, step, wire = ctypes.POINTER(Said), ctypes.POINTER(Step), ctypes.POINTER(Wire)
    return (
        ('delgunsai_client_by_url', result, [text, size, text, size, number, client], True),
        ('delgunsai_client_add_field', result, [client, text, size, text, size], False),
        ('cog_client_free', None, [client], True),
        ('cog_client_forget', result, [client], True),
        ('cog_client_keep_open', result, [client], False),
        ('cog_client_look_ahead', result, [client, number], False),
        ('cog_client_open_window', result, [client] + [number] * 5, False),
        ('cog_client_open_columns', result, [client] + [number] * 5, False),
        ('cog_client_open_info', result, [client], False),
        ('cog_client_request', length, [client, room, size], True),
        ('cog_client_begin', result, [client], False),
        ('cog_client_feed', result, [client, room, size], True),
        ('cog_client_end', result, [client, said], True),
        ('cog_client_report', length, [client, ctypes.POINTER(Report), room, size], False),
        ('cog_client_pixels', length, [client, room, size], True),
        ('cog_client_info', length, [client, room, size], True),
        ('cog_client_check', length, [client, room, size], False),
        ('cog_client_current', result, [client, text, size, said], False),
        ('cog_swap_pairs', None, [room, size], True),
        ('delgunsai_client_waiting', length, [client, room, size], False),
        ('delgunsai_client_wrote', result, [client, size], False),
        ('delgunsai_client_connected', result, [client], False),
        ('delgunsai_client_silent', result, [client], False),
        ('delgunsai_client_gone', result, [client, number, step], True),
        ('delgunsai_client_exchanges', result, [client, number], False),
        ('delgunsai_client_ask_same', result, [client], False),
        ('delgunsai_carry', result, [client, wire], True),
        ('delgunsai_read', result, [client, wire, ctypes.POINTER(Many)], True),
    )


def _check(library: ctypes.CDLL, path: pathlib.Path) -> None:
    """Refuses a library of other sources than these: its calls would write past what is handed to them."""
    calls = [getattr(library, name, None) for name in ('delgunsai_abi', 'delgunsai_wire_size', 'delgunsai_many_size')]
    if [call and call() for call in calls] != [ABI, ctypes.sizeof(Wire), ctypes.sizeof(Many)]:
        raise ImportError(f'{path} is of another version than the modules beside it: `pip install` the package again')


def _load() -> ctypes.CDLL:
    """Loads the shared library beside this module."""
    path = pathlib.Path(__file__).parent / 'libdelgunsai.so'
    if not path.exists():
        raise ImportError(f'{path} is missing: `pip install ./python` compiles it')
    library = ctypes.CDLL(str(path))
    _check(library, path)
    held = ctypes.PyDLL(str(path))       # keeps the interpreter's lock in short calls: beside a busy thread it takes up to 5 ms to get it back
    for name, result, arguments, is_long in _calls():
        call = getattr(library if is_long else held, name)
        call.restype = result
        call.argtypes = arguments
        setattr(library, name, call)
    return library


_library = _load()


def _checked(result: int) -> int:
    """The result, or what a negative one says."""
    if result == MEMORY:
        raise OutOfMemory('out of memory')
    if result < 0:
        raise RuntimeError(f'the core refused with {result}')
    return result


def shape(report: Report, width: int, height: int) -> Tuple[int, ...]:
    """The shape of a window of samples of this report."""
    return (height, width) if report.samples == 1 else (height, width, report.samples)


def room(report: Report, count: int) -> NDArray[Any]:
    """Room for `count` samples of this report; a large one has huge pages, where the system gives any."""
    kind = WIDE if report.bits == 16 else NARROW
    huge = HUGE // kind.itemsize
    samples: NDArray[Any] = numpy.empty(max(count, huge) if 2 * count > huge else count, kind)
    return samples[:count]


class Core:
    """A client of one file of a host, whose requests, all but the check, let connections go on. One thread uses it at a time."""

    def __init__(self, authority: bytes, target: bytes, blocks: int, headers: Headers = ()) -> None:
        self._handle = Handle()
        self._at = ctypes.byref(self._handle)
        self._room = ctypes.create_string_buffer(REQUEST_ROOM)
        self._waiting = memoryview(bytearray(WAITING_ROOM))
        self._waiting_at = ctypes.addressof(Front.from_buffer(self._waiting))
        self._report = Report()
        self._report_at = ctypes.byref(self._report)
        _checked(_library.delgunsai_client_by_url(authority, len(authority), target, len(target), blocks, self._at))
        for name, value in headers:
            self._add(name, value)
        _checked(_library.cog_client_keep_open(self._at))
        _checked(_library.cog_client_look_ahead(self._at, AHEAD))

    def _add(self, name: bytes, value: bytes) -> None:
        """Adds a field to each request. Fails with `ValueError`, which doesn't show the value, where it can't be added."""
        result = _library.delgunsai_client_add_field(self._at, name, len(name), value, len(value))
        if result < 0:
            self.free()
        if result in FIELDS:
            raise ValueError(f'headers: {name.decode("utf-8", "replace")!r}: {FIELDS[result]}')
        _checked(result)

    def forget(self) -> None:
        """Drops all that is known of the file, and what is under way."""
        _checked(_library.cog_client_forget(self._at))

    def free(self) -> None:
        """Frees the client. No other call is made after it."""
        _library.cog_client_free(self._at)

    def open_window(self, x: int, y: int, width: int, height: int, level: int) -> None:
        """Asks for a window of a level, and drops what is under way."""
        _checked(_library.cog_client_open_window(self._at, x, y, width, height, level))

    def open_columns(self, x: int, y: int, width: int, height: int, columns: int) -> None:
        """Asks for a window of the smallest level in which it has at least `columns` columns, and drops what is under way."""
        _checked(_library.cog_client_open_columns(self._at, x, y, width, height, columns))

    def open_info(self) -> None:
        """Asks for the sizes of the levels and what georeferences the image, and drops what is under way."""
        _checked(_library.cog_client_open_info(self._at))

    def carry(self, wire: Wire) -> None:
        """Goes on over a wire, as far as it can without the interpreter. The wire's step says what is to be done then."""
        _checked(_library.delgunsai_carry(self._at, ctypes.byref(wire)))

    def read(self, wire: Wire, many: Many) -> None:
        """Does what `carry` does, and reads one window of many after another. The step is OVER after the last one, and where the report that stands
        is of another kind."""
        _checked(_library.delgunsai_read(self._at, ctypes.byref(wire), ctypes.byref(many)))

    def gone(self, how: int, wire: Wire) -> None:
        """Notes how the connection was lost. The wire's step says what is to be done then. Bytes that weren't taken are dropped."""
        wire.begin = wire.end = 0
        _checked(_library.delgunsai_client_gone(self._at, how, ctypes.byref(wire.step)))

    def drop(self, wire: Wire) -> None:
        """Gives up what is under way, and the connection. The server isn't to blame."""
        _checked(_library.delgunsai_client_exchanges(self._at, EXCHANGES))
        self.gone(ENDED, wire)

    def waiting(self) -> memoryview:
        """Returns the first bytes that are to be written, up to the next call."""
        length = _checked(_library.delgunsai_client_waiting(self._at, self._waiting_at, WAITING_ROOM))
        return self._waiting[:length]

    def wrote(self, count: int) -> None:
        """Notes how many of the bytes that waited were written."""
        _checked(_library.delgunsai_client_wrote(self._at, count))

    def connected(self) -> None:
        """Notes that a new connection is there."""
        _checked(_library.delgunsai_client_connected(self._at))

    def silent(self) -> None:
        """Notes that nothing came on the connection before the request is written."""
        _checked(_library.delgunsai_client_silent(self._at))

    def ask_same(self) -> bool:
        """Begins the check whether the file is the same, and returns whether one can be made: something of the file is known."""
        return _checked(_library.delgunsai_client_ask_same(self._at)) > 0

    def request(self) -> Optional[bytes]:
        """The next request; None where a report stands, or nothing is asked."""
        length = _checked(_library.cog_client_request(self._at, self._room, REQUEST_ROOM))
        return self._room.raw[:length] if length else None

    def check(self) -> Optional[bytes]:
        """The request that asks whether the file is the same; None where nothing of it is known."""
        length = _checked(_library.cog_client_check(self._at, self._room, REQUEST_ROOM))
        return self._room.raw[:length] if length else None

    def begin(self) -> None:
        """Begins an answer."""
        _checked(_library.cog_client_begin(self._at))

    def feed(self, piece: Piece) -> None:
        """Takes the next bytes of the answer."""
        place = piece if isinstance(piece, bytes) else Front.from_buffer(piece)
        _checked(_library.cog_client_feed(self._at, place, len(piece)))

    def end(self) -> Tuple[int, int]:
        """Ends the answer, and returns what it did, as `cog_said` has it."""
        said = Said()
        _checked(_library.cog_client_end(self._at, ctypes.byref(said)))
        return said.kind, said.number

    def current(self, answer: bytes) -> Tuple[int, int]:
        """Returns what the answer to a check says, as `cog_said` has it."""
        said = Said()
        _checked(_library.cog_client_current(self._at, answer, len(answer), ctypes.byref(said)))
        return said.kind, said.number

    def report(self) -> Tuple[Report, bytes]:
        """The report, which stays until the next one is asked for, and the tag of its file; one of kind 0 where none stands."""
        self._report.kind = NO_REPORT
        length = _checked(_library.cog_client_report(self._at, self._report_at, self._room, TAG_ROOM))
        return self._report, self._room.raw[:length]

    def pixels(self, report: Report) -> NDArray[Any]:
        """The samples of the window that is reported, a row for each of its rows."""
        wide = report.bits == 16
        array: NDArray[Any] = numpy.empty(shape(report, report.width, report.height), WIDE if wide else NARROW)
        place = Front.from_buffer(array.data)
        if _checked(_library.cog_client_pixels(self._at, place, array.nbytes)) != array.nbytes:
            raise RuntimeError('the core reports another number of samples')
        if wide and sys.byteorder == 'little':
            _library.cog_swap_pairs(place, array.nbytes)
        return array

    def info(self) -> str:
        """The text of an Info that is reported."""
        room = ctypes.create_string_buffer(65536)
        length = _checked(_library.cog_client_info(self._at, room, len(room)))
        if length > len(room):
            room = ctypes.create_string_buffer(length)
            _checked(_library.cog_client_info(self._at, room, length))
        return room.raw[:length].decode('latin-1')
