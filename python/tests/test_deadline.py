"""Calls that have an end."""
import contextlib
import itertools
import os
import pickle
import socket
import ssl
import subprocess
import sys
import time
import unittest
from unittest import mock

import delgunsai
import numpy
from answers import served
from servers import Made, Secure, Silent
from support import EXAMPLE, FOLDER, TLS, needs
from test_network import SAMPLES, TEXT, right, tall

END = 0.5
AFTER = 3.0
"""How long after its end a call may come back, beside other work of the machine."""


class Deadlines(unittest.TestCase):
    def late(self, call):
        begin = time.monotonic()
        with self.assertRaisesRegex(delgunsai.Late, f'the call was not done within {END} seconds') as seen:
            call()
        took = time.monotonic() - begin
        self.assertTrue(END <= took < END + AFTER, took)
        self.assertIsInstance(seen.exception, delgunsai.Lost)

    def ways(self, file):
        """Calls whose requests are new, of which each asks the server."""
        return (lambda: right(file, 700, 700, 10), file.same, lambda: tall(file, 300),
                lambda: file.read_windows([(x, 500, 9, 9) for x in range(0, 90, 9)], connections=2),
                lambda: file.read_columns(x=0, y=800, width=9, height=9, columns=9))

    def held(self, made, slow, **more):
        """Has each call end, whose answer is made slow, on a new connection and on a kept one, and the file read on."""
        for kept in False, True:
            for number in range(5):
                is_slow = []

                def answer(request, _):
                    text = served(request, TEXT)
                    return slow(text) if is_slow else text
                with self.subTest(kept=kept, number=number), made(answer, pause=0.02) as server:
                    words = {name: make(server) for name, make in more.items()}
                    with delgunsai.open(server.url(), deadline=END, **words) as file:
                        limit = file._source.limit
                        limit.deadline = 20                # but for the one call
                        self.assertTrue(right(file, 0, 0, 10))
                        if not kept:
                            file._source.close(file._core)
                        is_slow.append(True)
                        limit.deadline = END
                        self.late(self.ways(file)[number])
                        limit.deadline = 20
                        is_slow.clear()
                        server.at_once = 0
                        self.assertTrue(right(file, 700, 700, 10) and tall(file, 300) and file.same())
                        self.assertGreater(server.at_once, 1, "the server isn't to blame")

    def test_dripped_heads(self):
        """Each byte comes in time, and the head never."""
        self.held(Made, lambda text: [text[at:at + 1] for at in range(len(text[:400]))])

    def test_dripped_bodies(self):
        def slow(text):
            end = text.index(b'\r\n\r\n') + 4
            return [text[:end], *(text[at:at + 1] for at in range(end, end + 400))] if end < len(text) else Silent(text[:9])
        self.held(Made, slow)

    def test_silence(self):
        self.held(Made, lambda text: Silent(text[:0]))

    @needs(TLS, 'nginx or openssl')
    def test_dripped_heads_of_tls(self):
        self.held(Secure, lambda text: [text[at:at + 1] for at in range(len(text[:400]))],
                  context=lambda server: ssl.create_default_context(cafile=server.certificate))

    def test_connections(self):
        """Addresses that don't answer, one after another."""
        with Made(lambda request, _: served(request, TEXT)) as server, contextlib.ExitStack() as opened:
            full = opened.enter_context(socket.create_server(('127.0.0.1', 0), backlog=0))
            for _ in range(3):
                waiting = opened.enter_context(socket.socket())
                waiting.setblocking(False)
                waiting.connect_ex(full.getsockname())
            found = [(socket.AF_INET, socket.SOCK_STREAM, 0, '', place) for place in [full.getsockname()] * 3 + [server.server_address]]
            with mock.patch.object(socket, 'getaddrinfo', return_value=found), delgunsai.open(server.url(), timeout=5, deadline=END) as file:
                self.late(lambda: right(file, 0, 0, 10))

    def test_in_time(self):
        """The end is each call's own. A shorter timeout goes before it, and a file of the disk takes both."""
        with Made(lambda request, _: time.sleep(0.2) or served(request, TEXT)) as server:
            with delgunsai.open(server.url(), deadline=3) as file:
                self.assertTrue(all(right(file, x, x, 100) for x in range(0, 900, 50)))
        with Made(lambda *_: Silent()) as server, delgunsai.open(server.url(), timeout=0.1, deadline=9) as file:
            with self.assertRaisesRegex(delgunsai.Lost, '3 exchanges: timed out') as seen:
                right(file, 0, 0, 10)
            self.assertNotIsInstance(seen.exception, delgunsai.Late)
        with delgunsai.open(EXAMPLE, timeout=1, deadline=1) as file:
            self.assertEqual(file.read(x=24, y=30, width=1, height=1).tolist(), [[216]])

    def test_values(self):
        for deadline, error in (0, ValueError), (-1.0, ValueError), (float('nan'), ValueError), (1e10, ValueError), ('5', TypeError):
            for place in 'http://host/a', EXAMPLE:
                with self.assertRaisesRegex(error, '^deadline is '):
                    delgunsai.open(place, deadline=deadline)
        for deadline in None, 1, numpy.float32(0.5):
            delgunsai.open('http://host/a', deadline=deadline).close()
        again = pickle.loads(pickle.dumps(delgunsai.Late('no')))
        self.assertEqual((type(again), str(again)), (delgunsai.Late, 'no'))


class Forking(unittest.TestCase):
    """A signal handler that makes a process within a plain read."""

    PROGRAM = """
import delgunsai, os, signal, sys
from delgunsai import _disk
place, way, kept = sys.argv[1:]
children, there = [], {'x': 300, 'y': 500, 'width': 9, 'height': 8}
def handle(*_):
    children.append(os.fork())
    if children[-1] == 0:
        if way == 'exits':
            sys.exit(7)
        if way == 'raises':
            raise KeyError('of the handler')
        if way == 'reads':
            file.read(x=5, y=5, width=9, height=8)
signal.signal(signal.SIGALRM, handle)
with delgunsai.open(place) as file:
    if kept == 'kept':
        file.read(x=0, y=0, width=9, height=8)
    if place.startswith('http'):
        signal.setitimer(signal.ITIMER_REAL, 0.3)
    else:
        plain, first = os.fstat, [1]
        def fstat(number):
            if first and first.pop():
                signal.raise_signal(signal.SIGALRM)
            return plain(number)
        _disk.os.fstat = fstat
    try:
        array = file.read(**there)
    except RuntimeError as error:
        is_told = children[-1] == 0 and 'made a process' in str(error)
        print(is_told, file.read(**there).tolist(), flush=True)
        os._exit(7)
    except KeyError as error:
        os._exit(7 if children[-1] == 0 else 1)
    if children[-1] == 0:
        os._exit(2)
    statuses = [os.waitstatus_to_exitcode(os.waitpid(child, 0)[1]) for child in children]
    print(array.tolist(), statuses)
"""

    def test_plain_reads(self):
        """The call is a RuntimeError in the child, what its handler raises comes as it is, and the parent reads on."""
        name = os.path.join(FOLDER, 'forking.tif')
        with open(name, 'wb') as file:
            file.write(TEXT)

        def answer(request, _):
            time.sleep(0.6)
            return served(request, TEXT)
        folder, samples = os.path.dirname(os.path.dirname(delgunsai.__file__)), SAMPLES[500:508, 300:309].tolist()
        for place, way, kept in itertools.product(('http', 'disk'), ('goes on', 'reads', 'raises', 'exits'), ('new', 'kept')):
            with self.subTest(place=place, way=way, kept=kept), Made(answer) as server:
                words = [server.url() if place == 'http' else name, way, kept]
                done = subprocess.run([sys.executable, '-c', self.PROGRAM, *words], capture_output=True, text=True, timeout=60,
                                      env={**os.environ, 'PYTHONPATH': folder})
                told = f'True {samples}\n' if way in ('goes on', 'reads') else ''
                self.assertEqual((done.stdout, done.stderr), (f'{told}{samples} [7]\n', ''))
