"""The viewer: `python -m delgunsai view URL|FILE..` shows files in the browser.

Its server listens on 127.0.0.1 alone. It serves one page, tiles of 256 by 256 pixels as PNG, and infos as JSON. All tiles on the screen are
of one revision of a file: each URL of a tile names the tag, and a file that was replaced is drawn anew."""
from __future__ import annotations

import argparse
import sys
import threading
import webbrowser
from typing import List, Optional

from .._errors import BadUrl
from .._sources import Address
from ._layer import is_url
from ._server import Viewer, layers_of

MOST_FILES = 16


def main(words: Optional[List[str]] = None) -> int:
    """Serves the files that the words name until it is interrupted, and returns the exit status: 2 for words that can't be."""
    parser = argparse.ArgumentParser(prog='python -m delgunsai view', description='Shows files in the browser, on 127.0.0.1 alone.')
    parser.add_argument('places', nargs='+', metavar='URL|FILE', help=f'a URL of http or https, or a path; at most {MOST_FILES}')
    parser.add_argument('--port', type=int, default=0, help='the port to listen on (default: one that is free)')
    parser.add_argument('--no-browser', action='store_true', help='print the URL and open no browser')
    parser.add_argument('--allow-origin', metavar='ORIGIN', help='let pages of this origin (or *) use tiles and infos')
    parser.add_argument('--seconds', type=float, default=2.0, help='how often to ask whether a file was replaced (default: 2)')
    parser.add_argument('--readers', type=int, default=8, help='how many tiles of a file to read at once, 1 to 64 (default: 8)')
    asked = parser.parse_args(words)
    _check(parser, asked)
    layers = layers_of(asked.places, asked.readers, asked.seconds)
    try:
        server = Viewer(layers, asked.port, asked.allow_origin, asked.seconds)
    except OSError as error:
        print(f'view: port {asked.port}: {error.strerror}', file=sys.stderr)
        return 1
    print(f'viewing at {server.url}', flush=True)
    if not asked.no_browser:
        threading.Thread(target=webbrowser.open, args=(server.url,), daemon=True).start()
    try:
        server.serve_forever()
    except KeyboardInterrupt:
        print()
    finally:
        server.server_close()
        for layer in layers:
            layer.close()
    return 0


def _check(parser: argparse.ArgumentParser, asked: argparse.Namespace) -> None:
    """Ends the program where a word is outside the rules."""
    if len(asked.places) > MOST_FILES:
        parser.error(f'at most {MOST_FILES} files')
    if not 0 <= asked.port <= 65535:
        parser.error('a port is 0 to 65535')
    if not 1 <= asked.readers <= 64:
        parser.error('readers are 1 to 64')
    if not 0.05 <= asked.seconds <= 3600:
        parser.error('seconds are 0.05 to 3600')
    origin = asked.allow_origin
    if origin is not None and not (1 <= len(origin) <= 255 and all('!' <= character <= '~' for character in origin)):
        parser.error('an origin is 1 to 255 visible characters')
    for place in filter(is_url, asked.places):
        try:
            Address(place)
        except BadUrl as error:
            parser.error(str(error))
