"""Calls that a signal interrupts."""
import contextlib
import functools
import itertools
import os
import signal
import socket
import ssl
import threading
import time
import unittest
from unittest import mock

import delgunsai
from answers import served
from servers import Made
from support import EXAMPLE
from test_network import TEXT, as_forked, right, tall


class Interrupted(unittest.TestCase):
    def test_signal_handlers(self):
        """A signal handler that uses the file of the call that it interrupts is refused; the call goes on."""
        def answer(request, _):
            time.sleep(0.3)
            return served(request, TEXT)
        for use in lambda file: right(file, 0, 0, 10), lambda file: file.close(), lambda file: file.same():
            def read():
                refused = []

                def handle(*_):
                    with self.assertRaises(RuntimeError):
                        use(file)
                    refused.append(True)
                signal.signal(signal.SIGUSR1, handle)
                threading.Timer(0.1, os.kill, (os.getpid(), signal.SIGUSR1)).start()
                return right(file, 0, 0, 10) and refused == [True]
            with Made(answer) as server, delgunsai.open(server.url()) as file:
                self.assertEqual(os.waitpid(as_forked(read), 0)[1], 0)

    def test_interrupted(self):
        """Where the program gives an answer up, the server left no request unanswered: others are sent at once still."""
        with Made(lambda request, number: b'' if silent else served(request, TEXT)) as server, delgunsai.open(server.url(), timeout=9) as file:
            silent = []
            self.raises(KeyboardInterrupt)
            for _ in range(5):
                self.assertTrue(right(file, 0, 0, 10))
                silent.append(True)
                signal.setitimer(signal.ITIMER_REAL, 0.05)
                self.assertRaises(KeyboardInterrupt, tall, file, 300)
                silent.clear()
            server.at_once = 0
            self.assertTrue(tall(file, 300))
            self.assertGreater(server.at_once, 1)

    def ticks(self, seconds):
        """Has a signal handler that does nothing run so often, until the test ends."""
        self.addCleanup(signal.signal, signal.SIGALRM, signal.signal(signal.SIGALRM, lambda *_: None))
        self.addCleanup(signal.setitimer, signal.ITIMER_REAL, 0)
        signal.setitimer(signal.ITIMER_REAL, seconds, seconds)

    def test_timeout_between_signals(self):
        """Signals don't make a wait longer, on a connection that is kept either."""
        silent = []
        with Made(lambda request, _: b'' if silent else served(request, TEXT)) as server, \
                delgunsai.open(server.url(), timeout=0.4) as file:
            self.assertTrue(right(file, 0, 0, 10))
            silent.append(True)
            self.ticks(0.03)
            start = time.monotonic()
            self.assertRaisesRegex(delgunsai.Lost, '3 exchanges: timed out', lambda: right(file, 700, 700, 10))
            took = time.monotonic() - start
            self.assertTrue(1.2 <= took < 3, took)

    def test_signals_in_bodies(self):
        """A handler that returns interrupts an answer, which goes on."""
        def answer(request, _):
            text = served(request, TEXT)
            return [text[at:at + 4096] for at in range(0, len(text), 4096)]
        with Made(answer) as server, delgunsai.open(server.url()) as file:
            self.assertTrue(right(file, 0, 0, 10))
            self.ticks(0.002)
            self.assertTrue(all(right(file, x, x) for x in (200, 400, 600)))
            self.assertEqual(server.connections, 1)

    def raises(self, kind, form=lambda handle: handle):
        """Sets a signal handler of a form that raises this error, until the test ends."""
        def handle(*_):
            raise kind('too late')
        self.addCleanup(signal.signal, signal.SIGALRM, signal.signal(signal.SIGALRM, form(handle)))
        self.addCleanup(signal.setitimer, signal.ITIMER_REAL, 0)

    def test_deadlines(self):
        """An error that a signal handler raises is no lost answer: it comes as it is, nothing is asked again, and the file is read
        on."""
        kinds, places = (TimeoutError, ConnectionResetError, ssl.SSLError), ('new', 'kept', 'ahead')
        for kind, cut, place in itertools.product(kinds, (0, 5, 100), places):
            left = [1000]

            def answer(request, _):
                left[0] -= 1
                return served(request, TEXT)[:None if left[0] >= 0 else cut if left[0] == -1 else 0]
            with self.subTest(place, kind=kind, cut=cut), Made(answer) as server, delgunsai.open(server.url(), timeout=5) as file:
                self.assertTrue(place == 'new' or right(file, 0, 0, 10))
                left[0] = int(place == 'ahead')
                self.raises(kind)
                with self.assertRaisesRegex(kind, 'too late'):
                    signal.setitimer(signal.ITIMER_REAL, 0.1)
                    tall(file, 500)
                self.assertLessEqual(server.connections, 1)
                left[0], server.at_once = 1000, 0
                self.assertTrue(tall(file, 500) and file.same() and tall(file, 200))
                self.assertGreater(server.at_once, 1)

    def test_deadline_of_same(self):
        waits = [0.5]

        def answer(request, _):
            time.sleep(waits.pop() if waits and request.startswith(b'HEAD ') else 0)
            return served(request, TEXT)
        with Made(answer) as server, delgunsai.open(server.url(), timeout=5) as file:
            self.assertTrue(right(file, 0, 0, 10))
            self.raises(TimeoutError)
            with self.assertRaisesRegex(TimeoutError, 'too late'):
                signal.setitimer(signal.ITIMER_REAL, 0.1)
                file.same()
            self.assertTrue(file.same() and tall(file, 500))

    def test_deadline_at_an_address(self):
        """The next address of a host is tried after an error of the network alone."""
        with Made(lambda request, _: served(request, TEXT)) as server, contextlib.ExitStack() as opened:
            full = opened.enter_context(socket.create_server(('127.0.0.1', 0), backlog=0))
            for _ in range(3):                               # more than are let wait
                waiting = opened.enter_context(socket.socket())
                waiting.setblocking(False)
                waiting.connect_ex(full.getsockname())
            found = [(socket.AF_INET, socket.SOCK_STREAM, 0, '', place) for place in (full.getsockname(), server.server_address)]
            with mock.patch.object(socket, 'getaddrinfo', return_value=found), delgunsai.open(server.url(), timeout=5) as file:
                self.raises(TimeoutError)
                with self.assertRaisesRegex(TimeoutError, 'too late'):
                    signal.setitimer(signal.ITIMER_REAL, 0.1)
                    right(file, 0, 0, 10)
                self.assertEqual(server.connections, 0)
                opened.close()
                self.assertTrue(right(file, 0, 0, 10))

    def test_deadline_of_a_handshake(self):
        with Made(lambda *_: b'') as server, delgunsai.open(server.url().replace('http', 'https'), timeout=0.2) as file:
            self.raises(TimeoutError)
            with self.assertRaisesRegex(TimeoutError, 'too late'):
                signal.setitimer(signal.ITIMER_REAL, 0.1)
                file.levels
            self.assertRaisesRegex(delgunsai.Lost, 'timed out', lambda: file.levels)

    def test_deadline_on_the_disk(self):
        """Of a handler of whatever form."""
        class Deadline:
            def __init__(self, handle):
                self.handle = handle

            def __call__(self, *words):
                self.handle(*words)

            def tell(self, *words):
                self(*words)
        for form in (lambda handle: handle, functools.partial, Deadline, lambda handle: Deadline(handle).tell,
                     lambda handle: functools.partial(Deadline.tell, Deadline(handle))):
            self.raises(TimeoutError, form)
            with self.subTest(form=form), delgunsai.open_file(EXAMPLE) as file:
                with mock.patch.object(os, 'fstat', lambda _: signal.raise_signal(signal.SIGALRM)):
                    self.assertRaisesRegex(TimeoutError, 'too late', lambda: file.levels)
                self.assertEqual(file.levels[0], (64, 64))
