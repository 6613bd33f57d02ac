"""Where answers come from: a host, or what else is a source."""
from __future__ import annotations

import contextlib
import encodings.idna                                    # which getaddrinfo imports: half done at a fork it would hang the child
import functools
import ipaddress
import os
import re
import socket
import ssl
import threading
from typing import Callable, Optional, Protocol, Tuple, Type
from urllib.parse import urlsplit

from . import _core
from ._core import Core, Step, Wire
from ._errors import BadUrl, Late
from ._handlers import of_handler
from ._limit import Limit

PORTS = {'http': 80, 'https': 443}
TIMEOUTS = (socket.timeout, TimeoutError)                # one class from Python 3.10 on
EMPTY = (BlockingIOError, ssl.SSLWantReadError)
"""What a stream that doesn't wait raises where nothing came."""
NAMED = re.compile(r"([A-Za-z0-9._~!$&'()*+,;=-]|%[0-9A-Fa-f]{2})+(:[0-9]*)?", re.ASCII)
"""A host that is a name, with a port or none (RFC 3986, section 3.2.2)."""
TARGET = re.compile(r"/([A-Za-z0-9._~!$&'()*+,;=:@/?-]|%[0-9A-Fa-f]{2})*", re.ASCII)
"""A path with a query or none, as it stands in a request (RFC 3986, sections 3.3 and 3.4)."""
Judge = Callable[[Step, Optional[Exception]], bool]
"""Takes what an exchange brought, and why its connection was lost, and returns whether it brought something. It raises where no other
exchange is to be made."""
Carry = Callable[[Wire], None]
"""Goes on with what the core has to do, as far as it can without the interpreter."""


class Stopped(Exception):
    """Another part of the same call raised an exception: this part ends."""


class Source(Protocol):
    """What makes the exchanges of a client."""

    where: str
    """The URL or the path."""
    carries: bool
    """Whether exchanges can be made without the interpreter."""
    final: Tuple[Type[OSError], ...]
    """After which errors no other exchange is tried."""
    limit: Limit
    """How long the call may take."""

    def run(self, core: Core, judge: Judge, carry: Carry) -> None:
        """Makes the exchanges that the core wants, and has each judged that isn't an ordinary one."""

    def check(self, core: Core) -> Tuple[int, int, int]:
        """Asks whether the file is the same. Returns what is said of it, as `cog_said` has it, and the status. Raises an `OSError` where no
        answer came."""

    def another(self) -> 'Source':
        """Another one to the same place, for use beside this one."""

    def begin(self, call: Optional[threading.Event] = None) -> None:
        """Notes to which call the next exchanges belong."""

    def abort(self, call: threading.Event) -> None:
        """Ends what another thread asks for in this call: each of its exchanges raises Stopped. A connection that is being made is
        waited for."""

    def forked(self, busy: bool) -> None:
        """Notes that this is a process that was forked, in which no thread has a lock, and whether an exchange may have been made."""

    def close(self, core: Core) -> None:
        """Ends what is open, and gives up what is under way."""


class Address:
    """A URL inside the rules: its host with its port, and its path with its query."""

    def __init__(self, url: str) -> None:
        if re.search(r'[\x00-\x20\x7f]', url):
            raise BadUrl(url, 'it must have no spaces and no control characters')
        try:
            parts = urlsplit(url)
            port = parts.port
        except ValueError as error:
            raise BadUrl(url, f'it is no URL: {error}') from None
        self.url = url
        self.secure = parts.scheme == 'https'
        if parts.scheme not in ('http', 'https'):
            raise BadUrl(url, 'its scheme must be http or https')
        if parts.username is not None or parts.password is not None:
            raise BadUrl(url, 'it must have no user and no password')
        if parts.fragment or '#' in url:
            raise BadUrl(url, 'it must have no fragment')
        if port == 0:
            raise BadUrl(url, 'its port must be 1 to 65535')
        self.host = parts.hostname or ''
        self.port = port or PORTS[parts.scheme]
        if len(parts.netloc) > 255 or not (NAMED.fullmatch(parts.netloc) or _is_literal(parts.netloc)):
            raise BadUrl(url, 'its host must be a name, an IPv4 address or an IPv6 address in brackets, with its port at most 255 characters')
        if not parts.netloc.startswith('[') and not re.fullmatch(r'[^.]{1,63}(\.[^.]{1,63})*\.?', self.host):
            raise BadUrl(url, 'its host must be there, and each label of it must have 1 to 63 characters')
        self.netloc = parts.netloc.encode('ascii')
        target = (parts.path or '/') + ('?' + parts.query if '?' in url else '')
        if len(target) > 2048 or not TARGET.fullmatch(target):
            raise BadUrl(url, 'its path and query must be at most 2,048 bytes, each of them allowed there or percent-encoded')
        self.target = target.encode('ascii')


def _is_literal(netloc: str) -> bool:
    """Whether it is an IPv6 address in brackets, with a port or none."""
    found = re.fullmatch(r'\[([0-9A-Fa-f:.]+)\](:[0-9]*)?', netloc, re.ASCII)
    with contextlib.suppress(ValueError):
        return found is not None and bool(ipaddress.IPv6Address(found[1]))
    return False


def _connected(limit: Limit, host: str, port: int) -> socket.socket:
    """Connects to the host's first address that answers. An error that a signal handler raises comes as it is."""
    failed = OSError('the host has no address')
    for family, kind, protocol, _, place in socket.getaddrinfo(host, port, type=socket.SOCK_STREAM):
        made: Optional[socket.socket] = None
        try:
            made = socket.socket(family, kind, protocol)
            made.settimeout(limit.wait())
            made.connect(place)
            made.setsockopt(socket.IPPROTO_TCP, socket.TCP_NODELAY, 1)
            made.settimeout(limit.wait())
            return made
        except BaseException as error:
            if made is not None:
                made.close()
            if not isinstance(error, OSError) or isinstance(error, Late) or of_handler(error):
                raise
            failed = error.with_traceback(None)            # whose frame holds it
    raise failed


@functools.lru_cache(None)
def _trusting() -> ssl.SSLContext:
    """A context that trusts the certificates which the system has at the first call: to read them takes longer than many a window."""
    context = ssl.create_default_context()
    context.set_alpn_protocols(['http/1.1'])
    return context


class Host:
    """A server of HTTP/1.1, with TLS or without, over one connection at a time. The core says when one is made, what is written, and which
    bytes are an answer. This class moves the bytes, and keeps the limits of time. A process that was forked makes a connection of its own."""

    carries = True
    final: Tuple[Type[OSError], ...] = (ssl.SSLCertVerificationError, Late)

    def __init__(self, address: Address, timeout: Optional[float], context: Optional[ssl.SSLContext],
                 deadline: Optional[float] = None) -> None:
        self.where = address.url
        self._words = address, timeout, context, deadline
        self._host, self._port = address.host.rstrip('.') if address.secure else address.host, address.port
        self._context = (context or _trusting()) if address.secure else None
        self.limit = Limit(timeout, deadline)
        self._stream: Optional[socket.socket] = None
        self._wire = Wire()
        self._failed: Optional[Exception] = None
        """Why the connection of the exchange that is under way was lost."""
        self._process = os.getpid()
        self._call: Optional[threading.Event] = None
        self._aborted = False
        self._closing = threading.Lock()
        """Of who ends the connection: its descriptor may be another's then."""

    def forked(self, busy: bool) -> None:
        self._closing = threading.Lock()
        if busy:                                         # a handler's fork: the call that goes on here has no share of the parent's stream
            self._drop()

    def another(self) -> 'Host':
        return Host(*self._words)

    def begin(self, call: Optional[threading.Event] = None) -> None:
        self._call, self._aborted = call, False

    def abort(self, call: threading.Event) -> None:
        with self._closing, contextlib.suppress(OSError):
            if self._call is not call:
                return
            self._aborted = True
            if self._stream is not None and self._process == os.getpid():          # else it is the parent's
                socket.socket.shutdown(self._stream, socket.SHUT_RDWR)             # not that of TLS, in which its thread may be

    def run(self, core: Core, judge: Judge, carry: Carry) -> None:
        wire, process = self._wire, os.getpid()
        try:
            if self._process != process:
                self.close(core)                         # the connection stays a parent's: to close it here sends nothing, of TLS neither
                self._process = process
            wire.goes_on, wire.lost, wire.step.kind = True, 0, _core.MORE
            while wire.step.kind not in (_core.OVER, _core.CHECKED):
                if wire.step.kind == _core.EXCHANGED:
                    wire.goes_on = judge(wire.step, self._failed)
                    self._failed = None
                if os.getpid() != process:
                    raise Stopped                        # a handler's fork
                self._go_on(core, carry)
        except BaseException:
            self.close(core)
            raise

    def check(self, core: Core) -> Tuple[int, int, int]:
        if not core.ask_same():
            return _core.OTHER, 0, 0
        self.run(core, lambda *_: False, core.carry)
        step, failed = Step.from_buffer_copy(self._wire.step), self._failed
        self.close(core)                                 # the check has a connection of its own
        if failed is not None and step.said.kind == _core.UNKNOWN:
            raise failed
        return step.said.kind, step.said.number, step.status

    def _go_on(self, core: Core, carry: Carry) -> None:
        """Does what the step says, and takes the next one. Raises what a signal handler raises, and what no other exchange can mend."""
        how = self._wire.lost or self._do(core)
        if self._aborted:
            raise Stopped
        self.limit.check()                               # the server isn't to blame for a wait that the call's end cut
        if how:
            core.gone(how, self._wire)
            self._wire.lost = 0
            return
        carry(self._wire)
        if self._wire.lost:
            error = self._wire.error
            self._failed = OSError(error, os.strerror(error)) if error else None

    def _do(self, core: Core) -> int:
        """Does what the step says. Returns how the connection was lost by it, or 0."""
        kind = self._wire.step.kind
        try:
            if kind == _core.CONNECT:
                self._connect(core)
            elif kind == _core.WRITE:
                core.wrote(self._waited().send(core.waiting()))
            elif kind == _core.READ:
                return self._read(self._waited())
            elif kind == _core.LOOK:
                return self._look(core)
        except OSError as error:
            if isinstance(error, self.final) or of_handler(error):
                raise
            self._failed = error.with_traceback(None)     # whose frames hold it
            return _core.LATE if isinstance(error, TIMEOUTS) else _core.FAILED
        return 0

    def _waited(self) -> socket.socket:
        """The connection, for a wait of its own."""
        if self._stream is None:
            raise ConnectionError('the connection is gone')
        if self.limit.until is not None:
            self._stream.settimeout(self.limit.wait())
        return self._stream

    def _read(self, stream: socket.socket) -> int:
        """Reads what comes. Returns how the connection was lost by it, or 0."""
        wire = self._wire
        wire.begin = wire.end = 0
        wire.end = stream.recv_into(wire.bytes)
        return 0 if wire.end else _core.ENDED

    def _look(self, core: Core) -> int:
        """Reads what came on a connection before its request is written. What comes of TLS alone, as a ticket, is nothing. Returns how the
        connection was lost, or 0."""
        stream = self._waited()
        timeout = stream.gettimeout()
        stream.settimeout(0)
        try:
            lost = self._read(stream)
            self._failed = None if lost else ConnectionError('bytes came before the first request')
            return lost
        except EMPTY:
            core.silent()
            return 0
        finally:
            stream.settimeout(timeout)

    def _connect(self, core: Core) -> None:
        """Makes a new connection instead of the one that is there."""
        if self._aborted:
            raise Stopped
        self._drop()
        made = _connected(self.limit, self._host, self._port)
        try:
            if self._context is not None:
                made = self._context.wrap_socket(made, server_hostname=self._host)
        except BaseException:
            made.close()
            raise
        self._stream, self._failed = made, None
        self._wire.socket = -1 if self._context is not None else made.fileno()
        core.connected()

    def close(self, core: Core) -> None:
        core.drop(self._wire)
        self._failed = None
        self._drop()

    def _drop(self) -> None:
        """Closes the connection, if there is one."""
        with self._closing:
            self._wire.socket = -1
            stream, self._stream = self._stream, None
            if stream is not None:
                stream.close()
