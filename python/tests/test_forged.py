"""Answers that aren't used and announce less than comes. The rest of each is a whole answer to the next request, with other samples."""
import itertools
import re
import ssl
import threading
import time
import unittest
from unittest import mock

import delgunsai
import numpy
from answers import served
from delgunsai import _sources
from files import plain
from servers import Made, Making, Secure
from support import TLS, InPython, needs

TRUE, FALSE, TAG = 7, 238, b'"t"'
TEXT, FORGED = (plain(numpy.full((1000, 1000), sample, 'uint8')) for sample in (TRUE, FALSE))
FIRST, REFUSED, NEXT = (10, 10, 10, 10), (700, 700, 10, 10), (300, 300, 10, 10)
TALL = (600, 0, 100, 1000)
WINDOWS = [(x, y, 10, 10) for x, y in itertools.product(range(10, 1000, 128), range(10, 1000, 128))]
PAUSE = 0.05
NO_HEAD = 2
BLOCK = 16384


def short(request):
    """The part that is asked for, which announces its first ten bytes alone."""
    text, end = served(request, TEXT, TAG), b'\r\n\r\n'
    head, body = text.split(end, 1)
    return re.sub(rb'Content-Length: [0-9]+', b'Content-Length: 10', head) + end + body[:10]


def with_field(field):
    return lambda text: text.replace(b'Content-Length:', field + b'\r\nContent-Length:')


def with_status(status):
    return lambda text: text.replace(b'206 Partial Content', status)


def without_tag(text):
    return text.replace(b'ETag: "t"', b'A: "t"')


REFUSALS = {
    'a part without a tag': (4, without_tag),
    'all without a tag': (4, lambda text: without_tag(with_status(b'200 OK')(text))),
    'a part of another length than its range': (8, bytes),
    'a space before the colon of a length': (2, with_field(b'Content-Length : 32768')),
    'a space before the colon of the only length': (2, lambda text: text.replace(b'Content-Length:', b'Content-Length :')),
    'a space before the colon of a transfer coding': (2, with_field(b'Transfer-Encoding : chunked')),
    'a transfer coding': (9, with_field(b'Transfer-Encoding: chunked')),
    'a content coding': (9, with_field(b'Content-Encoding: gzip')),
    'no such file': (3, with_status(b'404 Not Found')),
}
"""The documented reason of each refusal, and what makes it of a short part."""

PIECES = {
    'at once': lambda front, rest: front + rest,
    'later': lambda front, rest: [front, rest],
    'in two': lambda front, rest: [front, rest[:100], rest[100:]],
}


class Place(unittest.TestCase):
    """By wire.c, as far as it goes."""
    server = Made

    def open(self, server):
        return delgunsai.open(server.url(), timeout=5)

    @staticmethod
    def read(file, window):
        return file.read(**dict(zip(('x', 'y', 'width', 'height'), window)))

    def right(self, file, window):
        samples = self.read(file, window)
        return samples.shape == window[:1:-1] and bool((samples == TRUE).all())

    def asked(self, *windows):
        """The requests of these windows, a list for each."""
        requests = []
        with self.server(lambda request, _: requests.append(request) or served(request, TEXT, TAG)) as server, self.open(server) as file:
            ends = []
            for window in windows:
                self.assertTrue(self.right(file, window))
                ends.append(len(requests))
        return [requests[begin:end] for begin, end in zip([0, *ends], ends)]


class Refused(Place):
    """Answers that aren't used, each followed by a forged one."""

    def forging(self, before, change, forged, cut):
        """A server whose answer after so many is changed and short, and followed by one to this request."""
        def answer(request, number):
            if number != before + 1:
                return served(request, TEXT, TAG)
            return cut(change(short(request)), served(forged, FORGED, TAG))
        return self.server(answer, pause=PAUSE)

    def test_refused(self):
        """The call that is answered so raises the refusal, and the next one reads the true samples over another connection. What is no head
        is no answer: its request is sent once more."""
        first, following = self.asked(FIRST, NEXT)
        for (name, (reason, change)), (way, cut) in itertools.product(REFUSALS.items(), PIECES.items()):
            with self.subTest(name, way=way), self.forging(len(first), change, following[0], cut) as server, self.open(server) as file:
                self.assertTrue(self.right(file, FIRST))
                if reason == NO_HEAD:
                    self.assertTrue(self.right(file, REFUSED))
                else:
                    with self.assertRaises(delgunsai.NotUsed) as seen:
                        self.right(file, REFUSED)
                    self.assertEqual(seen.exception.reason, reason)
                self.assertTrue(self.right(file, NEXT))
                self.assertEqual((file.tag, server.connections), ('"t"', 2))

    def test_refused_at_first(self):
        """On a new connection what is no head is a refusal, too."""
        for (name, (reason, change)), (way, cut) in itertools.product(REFUSALS.items(), PIECES.items()):
            (asked, *_), = self.asked(FIRST)
            with self.subTest(name, way=way), self.forging(0, change, asked, cut) as server, self.open(server) as file:
                with self.assertRaises(delgunsai.NotUsed) as seen:
                    self.right(file, FIRST)
                self.assertEqual(seen.exception.reason, reason)
                self.assertTrue(self.right(file, FIRST))
                self.assertEqual((file.tag, server.connections), ('"t"', 2))

    def test_asked_again(self):
        """All of the file under the same tag with another length is asked for again, over another connection."""
        first, following = self.asked(FIRST, REFUSED)
        for way, cut in PIECES.items():
            with self.subTest(way), self.forging(len(first), with_status(b'200 OK'), following[0], cut) as server, \
                    self.open(server) as file:
                self.assertTrue(self.right(file, FIRST) and self.right(file, REFUSED))
                self.assertEqual(server.connections, 2)

    def test_sent_early(self):
        """So is what was sent with the request whose answer isn't used, of which the rest is an answer."""
        first, following = self.asked(FIRST, TALL)
        for (name, (_, change)), (way, cut) in itertools.product(REFUSALS.items(), PIECES.items()):
            with self.subTest(name, way=way), self.forging(len(first), change, following[1], cut) as server, self.open(server) as file:
                self.assertTrue(self.right(file, FIRST) and self.right(file, TALL))
                self.assertEqual(server.connections, 2)

    def test_lines_that_end_in_lf(self):
        """A head whose lines end in LF alone ends where it ends, though samples after it look like the end of a head and an answer."""
        window = (700, 762, 4, 4)                           # whose samples lie in the second block of its tile
        first, (asked,) = self.asked(FIRST, window)
        begin, last = map(int, re.search(rb'bytes=([0-9]+)-([0-9]+)', asked).groups())
        second = asked.replace(b'bytes=%d-' % begin, b'bytes=%d-' % (begin + BLOCK))
        end = b'\r\nContent-Length: %d\r\n\r\n' % (BLOCK - 27)
        body = (end.ljust(BLOCK, b'\7') + served(second, FORGED, TAG))[:last + 1 - begin]
        text = TEXT[:begin] + body + TEXT[begin + len(body):]
        with self.server(lambda request, _: served(request, text, TAG)) as server, self.open(server) as file:
            wanted = self.read(file, window)
        self.assertFalse((wanted == FALSE).all())

        def answer(request, number):
            head, body = served(request, text, TAG).split(b'\r\n\r\n', 1)
            if number != len(first) + 1:
                return served(request, text, TAG)
            return [head.replace(b'\r\n', b'\n') + b'\n\n' + body[:BLOCK], body[BLOCK:]]
        with self.server(answer, pause=PAUSE) as server, self.open(server) as file:
            self.assertTrue(self.right(file, FIRST))
            self.assertTrue(numpy.array_equal(self.read(file, window), wanted))

    def test_many(self):
        """By `read_windows` too, nothing is asked on a connection after an answer that isn't used."""
        for name in 'a part without a tag', 'a content coding', 'no such file':
            reason, change = REFUSALS[name]
            spent, late = [], []

            def answer(request, number):
                connection = threading.current_thread()
                if connection in spent:
                    late.append(request)
                    return served(request, FORGED, TAG)
                if number != 40:
                    return served(request, TEXT, TAG)
                spent.append(connection)
                return change(short(request))
            with self.subTest(name), self.server(answer) as server, self.open(server) as file:
                with self.assertRaises(delgunsai.NotUsed) as seen:
                    file.read_windows(WINDOWS)
                self.assertEqual(seen.exception.reason, reason)
                for samples in file.read_windows(WINDOWS):
                    self.assertTrue((samples == TRUE).all())
                self.assertEqual((len(spent), late), (1, []))


class Greeting(Making):
    """Sends something before it is asked."""

    def handle(self):
        self.request.sendall(next(self.server.greetings))
        self.server.greeted.add(self.client_address[1])
        super().handle()


class Greeted(Place):
    """Bytes that come before the first request of a connection end it, and are no answer."""

    def greeting(self, *greetings):
        """A server that sends these to its first connections, and nothing to others. A client has connected once it is greeted."""
        connect = _sources.Host._connect

        def connect_and_wait(host, core):
            connect(host, core)
            while host._stream.getsockname()[1] not in server.greeted:
                time.sleep(0.001)
        waiting = mock.patch.object(_sources.Host, '_connect', connect_and_wait)
        waiting.start()
        self.addCleanup(waiting.stop)
        server = self.server(lambda request, _: served(request, TEXT, TAG), Greeting)
        server.greetings, server.greeted = itertools.chain(greetings, itertools.repeat(b'')), set()
        return server

    def test_first_connection(self):
        (request, *_), = self.asked(FIRST)
        with self.greeting(served(request, FORGED, TAG)) as server, self.open(server) as file:
            self.assertTrue(self.right(file, FIRST))
            self.assertEqual(server.connections, 2)

    def test_each_connection(self):
        (request, *_), = self.asked(FIRST)
        with self.greeting(*[served(request, FORGED, TAG)] * 3) as server, self.open(server) as file:
            with self.assertRaisesRegex(delgunsai.Lost, 'no whole answer in 3 exchanges: bytes came before the first request'):
                self.right(file, FIRST)
            self.assertEqual((server.connections, server.requests), (3, 0))

    def test_many(self):
        (request, *_), = self.asked(FIRST)
        forged = served(request, FORGED, TAG)
        with self.greeting(b'', forged, b'', b'', forged) as server, self.open(server) as file:
            for samples in file.read_windows(WINDOWS):
                self.assertTrue((samples == TRUE).all())
            self.assertEqual(server.connections, 10)


class OverTls(Place):
    server = Secure

    def open(self, server):
        return delgunsai.open(server.url(), timeout=5, context=ssl.create_default_context(cafile=server.certificate))


class RefusedInPython(InPython, Refused):
    pass


class GreetedInPython(InPython, Greeted):
    pass


@needs(TLS, 'nginx or openssl')
class RefusedOverTls(OverTls, Refused):
    pass


@needs(TLS, 'nginx or openssl')
class GreetedOverTls(OverTls, Greeted):
    pass
