"""Processes that are forked, servers that bring nothing, and answers that nobody needs."""
import os
import re
import signal
import socket
import socketserver
import subprocess
import sys
import threading
import time
import unittest
from unittest import mock

import delgunsai
import numpy
from answers import head, served
from delgunsai import _sources
from files import noise, plain
from servers import Batching, Ends, Made, MadeOf6, Nginx, Resets
from support import CORE, EXAMPLE, FOLDER, HEAP, TLS, TOP, in_python, needs

SAMPLES = noise(1000)
TEXT = plain(SAMPLES)
BIG = bytes(64 << 20)


def cut_out(x, y, side):
    return {'x': x, 'y': y, 'width': side, 'height': side}


def right(file, x, y, side=200):
    """Whether the window has the samples that it should have."""
    return numpy.array_equal(file.read(**cut_out(x, y, side)), SAMPLES[y:y + side, x:x + side])


def tall(file, x):
    """The same of a window over all rows of tiles, whose requests are sent at once."""
    return numpy.array_equal(file.read(x=x, y=0, width=200, height=1000), SAMPLES[:, x:x + 200])


def as_forked(do):
    """The process number of a child that ends with 0 where this holds in it, within 20 seconds."""
    child = os.fork()
    if child == 0:
        signal.alarm(20)
        holds = False
        try:
            holds = do()
        finally:
            os._exit(not holds)
    return child


FIELDS = {'Authorization': 'Bearer 0f', 'User-Agent': 'tests'}


class Fields(unittest.TestCase):
    """Each request has the fields of its caller, and the path with the query of its URL."""

    def requests_of(self, kind, target, do):
        """The requests of what this does with a file, whose URL ends with the target."""
        requests = []

        def answer(request, _):
            requests.append(request)
            return served(request, TEXT)

        with kind(answer) as server, delgunsai.open(server.url(target), headers=FIELDS) as file:
            self.assertTrue(do(file))
            host = server.url(target).split('/')[2].encode()
        for request in requests:
            self.assertIn(request.split(b'\r\n')[0], (b'GET /%b HTTP/1.1' % target.encode(), b'HEAD /%b HTTP/1.1' % target.encode()))
            self.assertIn(b'\r\nHost: %b\r\n' % host, request)
            self.assertIn(b'\r\nAuthorization: Bearer 0f\r\nUser-Agent: tests\r\n', request)
        return requests

    def test_requests(self):
        for target in 'year=2020/a%20b.tif?v=1', 'a+b~c,d;e@f!$&\'()*:.tif', 'a?', '?a', '', '/a//b/?c?d/e', '%2e%2E/%00%ff', 'a?X-Amz-Signature=%2F0f&b=/c/d':
            with self.subTest(target):
                self.assertTrue(self.requests_of(Made, target, lambda file: right(file, 0, 0)))

    def test_all_requests(self):
        """Those of the other connections and of forked processes, and those that ask whether the file is the same, have them too."""
        windows = [(x, y, 100, 100) for x in range(0, 1000, 100) for y in range(0, 1000, 250)]

        def all_right(file):
            arrays = file.read_windows(windows, connections=4)
            self.assertTrue(all(numpy.array_equal(array, SAMPLES[y:y + 100, x:x + 100]) for array, (x, y, _, _) in zip(arrays, windows)))
            self.assertTrue(file.same())
            child = as_forked(lambda: right(file, 300, 300) and file.same())
            return os.waitpid(child, 0)[1] == 0 and right(file, 700, 700)

        requests = self.requests_of(Made, 'a?b', all_right)
        self.assertEqual(sum(request.startswith(b'HEAD ') for request in requests), 2)

    def test_ipv6(self):
        """An IPv6 address stands in brackets in the URL and in Host."""
        try:
            socket.create_server(('::1', 0), family=socket.AF_INET6).close()
        except OSError as error:
            self.skipTest(f'::1: {error}')
        self.assertTrue(self.requests_of(MadeOf6, 'a?b', lambda file: right(file, 0, 0) and file.same()))

    @needs(TLS, 'nginx or openssl')
    def test_nginx(self):
        """nginx takes path, query and fields apart as they were meant."""
        place = os.path.join(FOLDER, 'year=2020')
        os.makedirs(place, exist_ok=True)
        with open(os.path.join(place, 'a b+c~d%.tif'), 'wb') as out:
            out.write(TEXT)
        for secure in False, True:
            with Nginx(FOLDER, secure) as server:
                context = server.context() if secure else None
                for path, query, headers, status in (
                        ('open/secret/year=2020/a%20b+c~d%25.tif', '?v=1&a/b?c', {'Authorization': 'Bearer secret'}, None),
                        ('open/secret/year%3d2020/a%20b%2bc%7Ed%25.tif', '?v=1&a/b?c', {'authorization': 'Bearer secret', 'A': ''}, None),
                        ('open/secret/year=2020/a%20b%20c~d%25.tif', '?v=1&a/b?c', {'Authorization': 'Bearer secret'}, 404),
                        ('open/secret/year=2020/a%20b+c~d%25.tif', '?v=1', {'Authorization': 'Bearer secret'}, 404),
                        ('open/secret/year=2020/a%20b+c~d%25.tif', '?v=1&a/b?c', {'Authorization': 'Bearer secrets'}, 401),
                        ('open/secret/year=2020/a%20b+c~d%25.tif', '?v=1&a/b?c', None, 401)):
                    with self.subTest(path, secure=secure), delgunsai.open(server.url(path + query), context=context, headers=headers) as file:
                        if status is None:
                            self.assertTrue(right(file, 0, 0) and tall(file, 300) and file.same())
                            continue
                        with self.assertRaises(delgunsai.NotUsed) as seen:
                            file.read(**cut_out(0, 0, 10))
                        self.assertEqual((seen.exception.reason, seen.exception.status), (3, status))
                        self.assertNotIn('Bearer', str(seen.exception))


class Forked(unittest.TestCase):
    """A process that was forked reads over a connection of its own, and its parent goes on with the old one."""

    def ends_well(self, child):
        self.assertEqual(os.waitpid(child, 0)[1], 0)

    def test_connections(self):
        with Made(lambda request, _: served(request, TEXT)) as server, delgunsai.open(server.url()) as file:
            self.assertTrue(right(file, 0, 0, 10))
            self.ends_well(as_forked(lambda: right(file, 300, 300)))
            self.assertEqual(server.connections, 2)
            self.assertTrue(right(file, 700, 700))
            self.assertEqual(server.connections, 2)

    def test_at_once(self):
        def answer(request, _):
            text = served(request, TEXT)
            return [text[at:at + 8192] for at in range(0, len(text), 8192)]
        with Made(answer) as server, delgunsai.open(server.url()) as file:
            self.assertTrue(right(file, 0, 0, 10))
            children = [as_forked(lambda: all(right(file, x, y) for y in (100, 400, 700))) for x in (0, 250, 500, 750)]
            self.assertTrue(all(right(file, 800 - x, x) for x in (200, 400, 600)))
            for child in children:
                self.ends_well(child)

    @needs(TLS, 'nginx or openssl')
    def test_tls(self):
        with open(os.path.join(FOLDER, 'forked.tif'), 'wb') as out:
            out.write(TEXT)
        with Nginx(FOLDER) as server, delgunsai.open(server.url('forked.tif'), context=server.context()) as file:
            self.assertTrue(right(file, 0, 0, 10))
            kept = file._source._stream
            self.ends_well(as_forked(lambda: right(file, 300, 300)))
            self.assertTrue(right(file, 700, 700))
            self.assertIs(file._source._stream, kept)

    def test_while_a_thread_reads(self):
        """A lock that a thread of the parent holds isn't held in the child."""
        asked, goes_on = threading.Event(), threading.Event()

        def answer(request, number):
            if number == 1:
                asked.set()
                goes_on.wait()
            return served(request, TEXT)
        with Made(answer) as server, delgunsai.open(server.url()) as file:
            seen = []
            thread = threading.Thread(target=lambda: seen.append(right(file, 300, 300)))
            thread.start()
            asked.wait()
            self.ends_well(as_forked(lambda: file.close() is None))
            self.ends_well(as_forked(lambda: right(file, 300, 300) and file.same()))
            goes_on.set()
            thread.join()
            self.assertEqual(seen, [True])


    def test_while_two_threads_read(self):
        """Neither does one that a thread of the parent is about to have."""
        with delgunsai.open_file(EXAMPLE) as file:
            ended = threading.Event()

            def read():
                while not ended.is_set():
                    file.read(**cut_out(0, 0, 64))
            threads = [threading.Thread(target=read) for _ in range(2)]
            for thread in threads:
                thread.start()
            try:
                for _ in range(100):
                    self.ends_well(as_forked(lambda: file.read(**cut_out(0, 0, 64)).shape == (64, 64)))
            finally:
                ended.set()
                for thread in threads:
                    thread.join()

    def test_imports(self):
        """What the first connection would import is there, whole, before another thread forks."""
        program = 'import delgunsai, sys; sys.exit("encodings.idna" not in sys.modules)'
        folder = os.path.dirname(os.path.dirname(delgunsai.__file__))
        self.assertEqual(subprocess.run([sys.executable, '-c', program], env={**os.environ, 'PYTHONPATH': folder}).returncode, 0)


class CuttingTheSecond(socketserver.BaseRequestHandler):
    """Cuts the second of the answers to requests that come at once."""

    def handle(self):
        try:
            while text := self.request.recv(65536):
                requests = text.split(b'\r\n\r\n')[:-1]
                self.server.at_once = max(self.server.at_once, len(requests))
                answers = [self.server.answer(request + b'\r\n\r\n', 0) for request in requests]
                self.request.sendall(answers[0] + b''.join(answers[1:2])[:-1])
                if len(requests) > 1:
                    return
        except OSError:
            pass


class AtOnce(unittest.TestCase):
    """Requests that are sent at once, and servers that don't take them."""

    def test_one_at_a_time(self):
        close = b'\r\nConnection: close\r\n\r\n'
        refused = Ends(head(b'400 Bad Request', b'Content-Length: 0', b'Connection: close'))
        for name, alone, others in (('reset', Ends, lambda _: Resets()), ('reset in the body', Ends, lambda text: Resets(text[:14000])),
                                    ('refused', bytes, lambda _: refused), ('dropped', bytes, bytes)):
            def answer(request, count):
                text = served(request, TEXT)
                text = text if alone is bytes else text.replace(b'\r\n\r\n', close, 1)
                return alone(text) if count == 1 else others(text)
            with self.subTest(name), Made(answer, Batching) as server, delgunsai.open(server.url(), timeout=1) as file:
                self.assertTrue(all(tall(file, x) for x in (0, 300, 600)))
                if name == 'dropped':
                    self.assertEqual(server.connections, 2, 'one time-out is enough')

    def test_refused_alone_too(self):
        gone = []

        def answer(request, _):
            return head(b'404 Not Found', b'Content-Length: 0') if gone else served(request, TEXT)
        with Made(answer) as server, delgunsai.open(server.url()) as file:
            self.assertTrue(tall(file, 0))
            gone.append(True)
            with self.assertRaises(delgunsai.NotUsed) as seen:
                tall(file, 600)
            self.assertEqual((seen.exception.status, server.connections), (404, 2))

    def test_cut_behind_the_first(self):
        """A server that cuts the second of the answers that it gives at once, each time, is asked one at a time in the end."""
        with Made(lambda request, _: served(request, TEXT), CuttingTheSecond) as server, delgunsai.open(server.url()) as file:
            for _ in range(3):
                self.assertTrue(tall(file, 0))
                file._core.forget()
            self.assertGreater(server.at_once, 1)
            server.at_once = 0
            self.assertTrue(tall(file, 0))
            self.assertEqual(server.at_once, 1)

    def test_sent_once(self):
        """What was sent isn't sent again, and each request is asked for once."""
        seen = []
        with Made(lambda request, _: seen.append(request) or served(request, TEXT)) as server, delgunsai.open(server.url()) as file:
            self.assertTrue(tall(file, 0) and tall(file, 500))
            self.assertEqual((len(seen), server.connections), (len(set(seen)), 1))
            self.assertGreater(server.at_once, 1)

    def test_after_same(self):
        """The connection that `same` ends isn't lost: the next requests are sent at once."""
        counts = []

        def answer(request, count):
            counts.append(count)
            return served(request, TEXT)
        with Made(answer, Batching) as server, delgunsai.open(server.url(), timeout=1) as file:
            self.assertTrue(right(file, 0, 0, 10) and file.same() and tall(file, 300))
            self.assertGreater(max(counts[2:]), 1)


class Nothing(unittest.TestCase):
    """A server whose answers bring nothing is left after three of them."""

    @staticmethod
    def cut(request, _):
        return Ends(served(request, TEXT)[:1000])

    @staticmethod
    def replaced(request, number):
        return served(request, TEXT, b'"%d"' % number)

    def lost(self, answer, most, words):
        with Made(answer) as server, delgunsai.open(server.url()) as file:
            with self.assertRaises(delgunsai.Lost) as seen:
                file.read(**cut_out(0, 0, 700))
            self.assertLessEqual(server.requests, most)
            self.assertEqual(str(seen.exception), f'{server.url()}: {words}')

    def test_cut_before_the_first_block(self):
        self.lost(self.cut, 3, 'no whole answer in 3 exchanges: the last one ends before its first block')

    def test_replaced_each_time(self):
        self.lost(self.replaced, 4 * 9, 'the file was replaced 3 times while it was read')

    def test_timeout(self):
        """A server that doesn't answer is asked three times, each time for as long as the timeout."""
        with Made(lambda *_: b'') as server, delgunsai.open(server.url(), timeout=0.2) as file:
            start = time.monotonic()
            self.assertRaisesRegex(delgunsai.Lost, '3 exchanges: timed out', lambda: file.levels)
            self.assertGreaterEqual(time.monotonic() - start, 0.6)
            self.assertEqual((server.requests, server.connections), (3, 3))

    def test_example_in_c(self):
        program, folder = os.path.join(FOLDER, 'example'), os.path.join(TOP, 'include')
        subprocess.run(['cc', '-I' + folder, '-o', program, os.path.join(folder, 'example.c'), CORE, HEAP], check=True)
        for answer, status, words in ((self.cut, 1, b'example: no report\n'), (self.replaced, 1, b'example: no report\n'),
                                      (lambda *_: head(b'404 Not Found', b'Content-Length: 0'), 1, b"example: an answer isn't used\n"),
                                      (lambda request, _: served(request, TEXT), 0, b'kind 1')):
            with Made(answer) as server:
                line = [program, server.url().replace('http://', ''), '300', '200', '500', '400', '0']
                done = subprocess.run(line, capture_output=True, timeout=20)
                self.assertEqual((done.returncode, done.stderr[:len(words)]), (status, words))
                self.assertEqual(done.stdout, SAMPLES[200:600, 300:800].tobytes() if status == 0 else b'')

    def test_replaced_twice(self):
        with Made(lambda request, number: served(request, TEXT, b'"%d"' % min(number, 3))) as server:
            with delgunsai.open(server.url()) as file:
                self.assertTrue(right(file, 300, 300, 700))
                self.assertEqual(file.tag, '"3"')

    def test_same_after_a_restart_that_was_lost(self):
        tags = [b'"1"']

        def answer(request, _):
            return Ends() if b'If-Range: "2"' in request else served(request, TEXT, tags[-1])
        with Made(answer) as server, delgunsai.open(server.url()) as file:
            self.assertTrue(right(file, 0, 0, 10) and file.same())
            tags.append(b'"2"')
            self.assertFalse(file.same())
            with self.assertRaises(delgunsai.Lost):
                file.read(**cut_out(700, 700, 10))
            self.assertEqual(file.tag, '"1"')
            self.assertFalse(file.same())


class Unneeded(unittest.TestCase):
    """What of an answer isn't needed isn't waited for."""

    def refused(self, answer, reason, status):
        """The server of an answer that can't be used, as it was told twice."""
        with Made(lambda *_: answer) as server, delgunsai.open(server.url(), timeout=5) as file:
            for _ in range(2):
                with self.assertRaises(delgunsai.NotUsed) as seen:
                    file.levels
                self.assertEqual((seen.exception.reason, seen.exception.status), (reason, status))
        return server

    def test_large_bodies(self):
        for reason, status in (4, b'200 OK'), (3, b'404 Not Found'):
            for length in len(BIG), 1000:
                with self.subTest(status=status, length=length):
                    server = self.refused(head(status, b'Content-Length: %d' % length) + BIG[:length], reason, int(status[:3]))
                    self.assertLess(server.sent, len(BIG))
                    self.assertEqual(server.connections, 2)

    def test_front_of_another_file(self):
        """Of a file that was replaced its front is taken, and not all up to the window."""
        text, tags = plain(numpy.zeros((4000, 8000), 'uint8'), 256), [b'"1"']
        with Made(lambda request, _: served(request, text, tags[-1])) as server, delgunsai.open(server.url()) as file:
            file.read(**cut_out(0, 0, 10))
            tags.append(b'"2"')
            before = server.sent
            file.read(**cut_out(7900, 3900, 10))
            self.assertEqual(file.tag, '"2"')
            self.assertLess(server.sent - before, len(text) // 2)

    def test_end_of_a_range(self):
        """Of a server that passes the end of a range over no more is taken than was asked for, and each name of a field is read."""
        text = plain(numpy.zeros((4000, 8000), 'uint8'), 256)
        for name in b'Content-Range', b'content-range':
            def answer(request, _):
                return served(re.sub(rb'-[0-9]+\r\n', b'-%d\r\n' % len(text), request), text).replace(b'Content-Range', name)
            with self.subTest(name), Made(answer) as server, delgunsai.open(server.url()) as file:
                read, lengths = _sources.Host._read, []

                def noted(host, stream):
                    lost = read(host, stream)
                    lengths.append(host._wire.end)
                    return lost
                with in_python(), mock.patch.object(_sources.Host, '_read', noted):
                    file.read(**cut_out(4000, 2000, 300))
                self.assertLess(sum(lengths), len(text) // 10)

    def test_no_length(self):
        """The connection goes on, so its end isn't waited for either."""
        start = time.monotonic()
        self.refused(head(b'404 Not Found', b'Transfer-Encoding: chunked') + b'0\r\n\r\n', 3, 404)
        self.refused(head(b'404 Not Found') + b'not', 3, 404)
        self.refused(head(b'200 OK', b'ETag: "1"') + TEXT[:1000], 8, 200)
        self.assertLess(time.monotonic() - start, 5)

    def test_length_of_many_digits(self):
        text = head(b'206 Partial Content', b'Content-Length: ' + b'9' * 5000)
        self.refused([text[:4000], text[4000:]], 2, None)        # of a head that isn't whole no status is read
        self.refused(head(b'206 Partial Content', b'Content-Length: ' + b'9' * 2000), 4, 206)

    def test_ranges_are_passed_over(self):
        """A server that knows no ranges is read, each time as far as what was asked for."""
        whole = head(b'200 OK', b'ETag: "1"', b'Content-Length: %d' % len(TEXT)) + TEXT
        with Made(lambda *_: whole) as server, delgunsai.open(server.url()) as file:
            self.assertTrue(right(file, 0, 0, 10) and right(file, 800, 800) and right(file, 300, 300))

    def test_fields_of_spaces(self):
        """A head is read in a time that grows with its length alone."""
        start = time.monotonic()
        for field in b'ETag:' + b' ' * 3900 + b'\n', b'ETag: x' + b' ' * 3900 + b'y', b'Connection:' + b' ,' * 1900 + b' x':
            with Made(lambda *_: head(b'200 OK', b'Content-Length: 0', field)) as server, delgunsai.open(server.url()) as file:
                self.assertRaises(delgunsai.NotUsed, lambda: file.levels)
        self.assertLess(time.monotonic() - start, 5)

    def test_interim_answers(self):
        """Answers of 1xx stand before the one that counts."""
        before = head(b'103 Early Hints', b'Link: </a>; rel=preload') + head(b'100 Continue')
        for step in 1 << 20, 1, 50:
            def answer(request, _):
                text = before + served(request, TEXT)
                return [text[at:at + step] for at in range(0, 300, step)] + [text[max(300, step):]]
            with self.subTest(step), Made(answer) as server, delgunsai.open(server.url(), timeout=5) as file:
                self.assertTrue(right(file, 0, 0, 10) and right(file, 800, 800))
        self.refused(head(b'103 Early Hints') * 100, 3, 103)

    def test_unasked(self):
        """What comes behind an answer, with it or later, isn't taken for the answer to the next request."""
        wrong, seen = plain(SAMPLES ^ 255), []
        with Made(lambda request, _: seen.append(request) or served(request, TEXT)) as server, delgunsai.open(server.url()) as file:
            self.assertTrue(right(file, 0, 0, 10))
            first = len(seen)
            self.assertTrue(right(file, 700, 700, 10))
        for join in (lambda answer, more: answer + more), (lambda answer, more: [answer, more]):
            def answer(request, number):
                text = served(request, TEXT)
                return join(text, served(seen[first], wrong)) if number == first else text
            with Made(answer) as server, delgunsai.open(server.url()) as file:
                self.assertTrue(right(file, 0, 0, 10))
                time.sleep(0.1)
                self.assertTrue(right(file, 700, 700, 10))
                self.assertEqual(server.connections, 2)

    def test_idle_for_too_long(self):
        """408 on a connection that was kept is no answer, and on a new one it is."""
        late = Ends(head(b'408 Request Timeout', b'Content-Length: 0', b'Connection: close'))
        for answer in late, [late[:4], late[4:10], late[10:]]:
            with Made(lambda request, number: answer if number == 2 else served(request, TEXT)) as server, \
                    delgunsai.open(server.url()) as file:
                self.assertTrue(right(file, 0, 0, 10) and right(file, 800, 800))
                self.assertEqual(server.connections, 2)
        self.refused(late, 3, 408)
