"""The viewer's server: its page, tiles and infos, on 127.0.0.1."""
from __future__ import annotations

import html
import http.server
import json
import math
import os
import re
from typing import Any, Dict, List, NamedTuple, Optional, Sequence, Tuple
from urllib.parse import parse_qs, urlsplit

from .._errors import Error
from ._layer import SIDE, Changed, Layer, Limits, Nowhere, Reading, Revision, is_url

HOST = '127.0.0.1'
MOST_TARGET = 2000
"""How many characters the target of a request may have."""
MOST_DIGITS = 7
IDLE = 60
"""How many seconds a connection may be idle."""
SCRIPTS = 'view.js', 'panel.js', 'place.js'
PAGE = {'/': ('index.html', 'text/html; charset=utf-8'), '/view.css': ('view.css', 'text/css; charset=utf-8'),
        **{f'/{name}': (name, 'text/javascript; charset=utf-8') for name in SCRIPTS}}
POLICY = ("default-src 'none'; script-src 'self'; style-src 'self'; img-src data:; connect-src 'self'; base-uri 'none'; form-action 'none'; "
          "frame-ancestors 'none'")
NUMBER = f'([0-9]{{1,{MOST_DIGITS}}})'
TILE = re.compile(f'/tiles/([A-Za-z0-9._-]+)/{NUMBER}/{NUMBER}/{NUMBER}\\.png')
VALUE = re.compile(f'/info/([A-Za-z0-9._-]+)/{NUMBER}/{NUMBER}/{NUMBER}\\.json')
INFO = re.compile(r'/info/([A-Za-z0-9._-]+)\.json')
FOREVER = 'private, max-age=31536000, immutable'


class Answer(NamedTuple):
    """What is sent for a request."""
    status: int
    kind: str
    body: bytes
    tag: Optional[str] = None
    is_kept: bool = False
    """Whether a browser may keep it: it is of the revision that its URL names."""


class Refused(Exception):
    """A request that can't be answered: a status, and a sentence."""

    def __init__(self, status: int, sentence: str) -> None:
        super().__init__(sentence)
        self.status = status


class Viewer(http.server.ThreadingHTTPServer):
    """A server for these layers. Other pages get tiles and infos where `origin` names their origin, or is `*`."""
    daemon_threads = True

    def __init__(self, layers: Sequence[Layer], port: int = 0, origin: Optional[str] = None, seconds: float = 2.0) -> None:
        self.layers = {layer.name: layer for layer in layers}
        self.origin = origin
        self.seconds = seconds
        super().__init__((HOST, port), Handler)
        names = HOST, 'localhost'
        self.hosts = {f'{name}:{self.server_port}' for name in names} | set(names if self.server_port == 80 else ())

    @property
    def url(self) -> str:
        """The URL of the page."""
        return f'http://{HOST}:{self.server_port}/'

    def handle_error(self, request: Any, client_address: Any) -> None:
        """Does nothing: a browser ends connections as it likes."""

    def page(self) -> bytes:
        """Returns the page, with the names of the files and their places, escaped."""
        text = _page_file('index.html').decode('utf-8')
        files = [{'name': layer.name, 'place': layer.place} for layer in self.layers.values()]
        told = {'files': files, 'seconds': self.seconds, 'side': SIDE}
        return text.replace('{{settings}}', html.escape(json.dumps(told), quote=True)).encode('utf-8')


class Handler(http.server.BaseHTTPRequestHandler):
    """Answers GET and HEAD."""
    server: Viewer
    protocol_version = 'HTTP/1.1'
    server_version = 'delgunsai'
    sys_version = ''
    timeout = IDLE
    wbufsize = -1
    disable_nagle_algorithm = True
    error_message_format = '%(code)d %(message)s\n'
    error_content_type = 'text/plain; charset=utf-8'

    def do_GET(self) -> None:
        """Answers a request."""
        self._send(self._answer())

    def do_HEAD(self) -> None:
        """Answers with a head alone."""
        self._send(self._answer())

    def log_message(self, format: str, *words: Any) -> None:
        """Prints nothing."""

    def _answer(self) -> Answer:
        try:
            if self.headers.get('Host', '') not in self.server.hosts:      # a page whose name leads here (DNS rebinding)
                raise Refused(421, f'this server is {self.server.url}')
            if len(self.path) > MOST_TARGET:
                raise Refused(414, f'a target has at most {MOST_TARGET} characters')
            return self._found()
        except Refused as error:
            return _json(error.status, {'error': str(error)})
        except Changed as error:
            return _json(409, {'error': str(error), 'tag': error.tag})
        except Reading as error:
            return _json(202, {'reading': error.seconds})
        except Nowhere:
            return _json(404, {'error': 'there is no such place in the file'})
        except (Error, OSError, RuntimeError, MemoryError) as error:
            return _json(502, {'error': sentence(error)})

    def _found(self) -> Answer:
        target = urlsplit(self.path)
        if target.path in PAGE:
            name, kind = PAGE[target.path]
            return Answer(200, kind, self.server.page() if target.path == '/' else _page_file(name))
        query = _query(target.query)
        tag = query.get('tag')
        match = TILE.fullmatch(target.path)
        if match:
            level, x, y = map(int, match.groups()[1:])
            body, tag_now = self._layer(match[1]).tile(tag, level, x, y, _limits(query))
            return Answer(200, 'image/png', body, tag_now, tag is not None)
        match = VALUE.fullmatch(target.path)
        if match:
            level, x, y = map(int, match.groups()[1:])
            value, tag_now = self._layer(match[1]).value(tag, level, x, y)
            return _json(200, {'tag': tag_now, 'value': value}, tag_now)
        match = INFO.fullmatch(target.path)
        if match:
            layer = self._layer(match[1])
            revision = layer.revision()
            return _json(200, described(layer, revision), revision.tag)
        raise Refused(404, 'there is no such page')

    def _layer(self, name: str) -> Layer:
        if name not in self.server.layers:
            raise Refused(404, f'no file is named {name}')
        return self.server.layers[name]

    def _send(self, answer: Answer) -> None:
        self.send_response(answer.status)
        fields = {'Content-Type': answer.kind, 'Content-Length': str(len(answer.body)), 'X-Content-Type-Options': 'nosniff',
                  'Cache-Control': FOREVER if answer.is_kept else 'no-store', 'Content-Security-Policy': POLICY,
                  'Referrer-Policy': 'no-referrer', 'Cross-Origin-Resource-Policy': 'same-origin'}
        if answer.tag is not None:
            fields['ETag'] = answer.tag
        if self.server.origin is not None and not answer.kind.startswith('text/'):
            fields.update({'Access-Control-Allow-Origin': self.server.origin, 'Access-Control-Expose-Headers': 'ETag',
                           'Cross-Origin-Resource-Policy': 'cross-origin', 'Vary': 'Origin'})
        for name, value in fields.items():
            self.send_header(name, value)
        self.end_headers()
        if self.command != 'HEAD':
            self.wfile.write(answer.body)


def described(layer: Layer, revision: Revision) -> Dict[str, Any]:
    """Returns what `/info/NAME.json` has of a revision."""
    crs = revision.crs
    return {'name': layer.name, 'place': without_query(layer.place), 'tag': revision.tag, 'levels': revision.info.levels, 'tile': SIDE,
            'samples': revision.samples, 'most': revision.most, 'limits': revision.limits, 'percentiles': revision.percentiles,
            'extent': revision.extent, 'transform': revision.transform, 'bounds': revision.bounds,
            'crs': None if crs is None else {'epsg': crs.epsg, 'text': crs.text}}


def sentence(error: BaseException) -> str:
    """Returns an error as a sentence, without the query of a URL."""
    if isinstance(error, OSError) and error.strerror and error.filename is not None:
        return f'{error.filename}: {error.strerror}'
    text = str(error) or type(error).__name__
    where = error.where if isinstance(error, Error) else None
    return text if where is None else text.replace(where, without_query(where))


def without_query(place: str) -> str:
    """Returns a place as other pages may see it. The query of a URL may be a signature, with which others could read the file."""
    return place.partition('?')[0] if is_url(place) else place


def _json(status: int, told: Dict[str, Any], tag: Optional[str] = None) -> Answer:
    return Answer(status, 'application/json', json.dumps(told).encode('ascii'), tag)


def _query(text: str) -> Dict[str, str]:
    try:
        words: Dict[str, List[str]] = parse_qs(text, keep_blank_values=True, strict_parsing=bool(text), max_num_fields=8)
    except ValueError:
        raise Refused(400, 'the query is no list of names and values') from None
    return {name: values[-1] for name, values in words.items()}


def _limits(query: Dict[str, str]) -> Optional[Limits]:
    if 'low' not in query and 'high' not in query:
        return None
    try:
        low, high = float(query['low']), float(query['high'])
    except (KeyError, ValueError):
        raise Refused(400, 'low and high are two numbers') from None
    if not (math.isfinite(low) and math.isfinite(high)):
        raise Refused(400, 'low and high are two numbers')
    return low, high


def _page_file(name: str) -> bytes:
    with open(os.path.join(os.path.dirname(os.path.abspath(__file__)), 'page', name), 'rb') as file:
        return file.read()


def layers_of(places: Sequence[str], readers: int, seconds: float) -> Tuple[Layer, ...]:
    """Returns a layer for each place, by names that a URL can have: the last part of the place without its query, with a number where it
    isn't the first."""
    names: List[str] = []
    for place in places:
        last = re.sub('[^A-Za-z0-9._-]', '_', os.path.basename(without_query(place).rstrip('/')))[-80:].lstrip('.') or 'file'
        number = 1
        while (name := last if number == 1 else f'{number}-{last}') in names:
            number += 1
        names.append(name)
    return tuple(Layer(name, place, readers, seconds) for name, place in zip(names, places))
