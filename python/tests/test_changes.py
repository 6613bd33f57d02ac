"""Files that are replaced, and answers that are cut."""
import contextlib
import gc
import os
import re
import threading
import time
import unittest
import weakref
from unittest import mock

import delgunsai
import numpy
from answers import served
from delgunsai import _disk
from files import plain
from servers import Batching, Cogserve, Cutting, Made, Nginx, Resets
from support import EXAMPLE, FOLDER, RASTERIO, TLS, free_port, needs


@contextlib.contextmanager
def overwritten(place, text):
    """A file that is overwritten in place while it is read for the first time: behind the first look at its state."""
    fstat, texts = os.fstat, [text]

    def then(number):
        state = fstat(number)
        while texts:
            with open(place, 'r+b') as file:
                file.write(texts.pop())
                file.truncate()
            os.utime(place, ns=(state.st_atime_ns, state.st_mtime_ns + 10 ** 9))
        return state
    with mock.patch.object(os, 'fstat', then):
        yield


class Replaced(unittest.TestCase):
    """A file that is replaced is read as the new one, and never mixed."""

    def replaced(self, place, opened, apart=0.0):
        """Two files of equal sides, one after the other at one place, so many seconds apart."""
        old, new = numpy.zeros((600, 600), 'uint8'), numpy.full((600, 600), 9, 'uint8')
        self.write(place, old)
        with opened() as file:
            self.assertTrue((file.read(x=0, y=0, width=100, height=100) == 0).all())
            tag = file.tag
            self.assertTrue(file.same())
            time.sleep(apart)
            self.write(place, new)
            self.assertFalse(file.same())
            self.assertEqual(file.tag, tag)
            got, newer = file.read_tagged(x=0, y=0, width=600, height=600)
            self.assertTrue((got == 9).all() if newer != tag else (got == 0).all(), 'mixed')
            self.assertNotEqual(newer, tag)
            self.assertEqual(file.tag, newer)
            self.assertTrue(file.same())
            self.assertEqual(file.info.tag, file.tag)

    def write(self, place, samples):
        import rasterio
        with rasterio.open(place + '-next', 'w', driver='GTiff', width=600, height=600, count=1, dtype='uint8', tiled=True, blockxsize=128,
                           blockysize=128, transform=rasterio.transform.from_origin(1, 2, 1, 1)) as out:
            out.write(samples, 1)
        os.replace(place + '-next', place)

    @needs(RASTERIO, 'rasterio')
    def test_on_the_disk(self):
        place = os.path.join(FOLDER, 'changing-disk.tif')
        self.replaced(place, lambda: delgunsai.open_file(place))

    @needs(RASTERIO, 'rasterio')
    def test_at_cogserve(self):
        place = os.path.join(FOLDER, 'changing-served.tif')
        self.write(place, numpy.zeros((600, 600), 'uint8'))
        with Cogserve({'a': place}) as server:
            self.replaced(place, lambda: delgunsai.open(server.url('a')))

    @needs(RASTERIO and TLS, 'rasterio, nginx or openssl')
    def test_at_nginx(self):
        place = os.path.join(FOLDER, 'changing-tls.tif')
        self.write(place, numpy.zeros((600, 600), 'uint8'))
        with Nginx(FOLDER) as server:
            self.replaced(place, lambda: delgunsai.open(server.url('changing-tls.tif'), context=server.context()),
                          apart=1.1)                     # its tags are of seconds

    def test_tags_of_threads(self):
        """An array has the tag of its revision, whatever is read at once."""
        texts = [plain(numpy.full((2000, 2000), revision, 'uint8')) for revision in range(2)]

        def answer(request, number):
            revision = number // 40 % 2
            return served(request, texts[revision], b'"%d"' % revision)
        with Made(answer) as server, delgunsai.open(server.url(), blocks=66) as file:
            seen = []

            def read():
                for at in range(30):
                    way = {'columns': 1} if at % 2 else {'level': 0}
                    array, tag = file.read_tagged(x=at * 60, y=at * 7 % 30 * 60, width=200, height=200, **way)
                    seen.append((array.min(), array.max(), int(tag.strip('"'))))
            threads = [threading.Thread(target=read) for _ in range(4)]
            for thread in threads:
                thread.start()
            for thread in threads:
                thread.join()
        self.assertEqual(len(seen), 120)
        self.assertEqual(set(seen), {(0, 0, 0), (1, 1, 1)})

    def test_another_folder(self):
        """A path is of the folder where the program was when it opened the file, behind links too."""
        folders = [os.path.join(FOLDER, name) for name in ('first/inner', 'first', 'second')]
        for revision, folder in enumerate(folders):
            os.makedirs(folder, exist_ok=True)
            with open(os.path.join(folder, 'a.tif'), 'wb') as out:
                out.write(plain(numpy.full((300, 300), revision, 'uint8')))
        os.symlink(folders[0], os.path.join(folders[2], 'link'))
        self.addCleanup(os.chdir, os.getcwd())
        for path, revision in ('a.tif', 2), ('link/../a.tif', 1):
            os.chdir(folders[2])
            with delgunsai.open_file(path) as file:
                os.chdir(folders[0])
                self.assertEqual(set(file.read(x=0, y=0, width=300, height=300).flat), {revision})
                self.assertTrue(file.same())

    @needs(RASTERIO, 'rasterio')
    def test_in_place(self):
        """A file of the disk that is overwritten in place while it is read, when a part of it is known."""
        place, other = (os.path.join(FOLDER, f'changing-{name}.tif') for name in ('place', 'other'))
        self.write(place, numpy.zeros((600, 600), 'uint8'))
        self.write(other, numpy.full((600, 600), 9, 'uint8'))
        with open(other, 'rb') as file:
            text = file.read()
        with delgunsai.open_file(place) as file:
            self.assertTrue((file.read(x=0, y=0, width=100, height=100) == 0).all())
            tag = file.tag
            with overwritten(place, text):
                got = file.read(x=0, y=0, width=600, height=600)
            self.assertTrue((got == 9).all(), 'mixed')
            self.assertNotEqual(file.tag, tag)
            self.assertTrue(file.same())

    def test_shorter_on_the_disk(self):
        place = os.path.join(FOLDER, 'changing-shorter')
        for samples in numpy.zeros((1000, 1000), 'uint8'), numpy.full((100, 1000), 9, 'uint8'), numpy.zeros((0, 0), 'uint8'):
            with open(place + '-next', 'wb') as out:
                out.write(plain(samples) if samples.size else b'')
            os.replace(place + '-next', place)
            if len(samples) == 1000:
                file = delgunsai.open_file(place)
                self.addCleanup(file.close)
                self.assertTrue((file.read(x=0, y=0, width=10, height=10) == 0).all())
            elif len(samples) == 100:
                self.assertRaises(delgunsai.Outside, file.read, x=900, y=900, width=100, height=100)
                self.assertEqual(file.levels, [(1000, 100)])
                self.assertTrue((file.read(x=900, y=0, width=100, height=100) == 9).all())
            else:
                with self.assertRaises(delgunsai.NotUsed) as seen:
                    file.read(x=500, y=0, width=400, height=100)
                self.assertEqual(seen.exception.status, 416)

    def test_in_place_nothing_is_handed_on(self):
        place = os.path.join(FOLDER, 'changing-bytes')
        with open(place, 'wb') as file:
            file.write(b'old' * 1000)
        disk, pieces = _disk.Disk(place), []
        for request in b'GET /file HTTP/1.1\r\nHost: disk\r\nRange: bytes=0-2999\r\n\r\n', b'HEAD /file HTTP/1.1\r\nHost: disk\r\n\r\n':
            with overwritten(place, b'new' * 1000), self.assertRaises(OSError):
                disk.exchange(request, pieces.append)
            self.assertEqual(pieces, [])
        disk.exchange(b'GET /file HTTP/1.1\r\nHost: disk\r\nRange: bytes=0-2999\r\n\r\n', pieces.append)
        self.assertTrue(b''.join(pieces).endswith(b'\r\n\r\n' + b'new' * 1000))


class Unconditional(unittest.TestCase):
    """A server that passes If-Range over, or gives one tag to two files, is asked anew."""

    @staticmethod
    def whole(revision):
        return plain(numpy.full((600, 600), revision, 'uint8'))

    @contextlib.contextmanager
    def replaced(self, *states):
        """A file that is read of the first of these texts, each with its tag, and is replaced by the second."""
        states = list(states)
        with Made(lambda request, _: served(re.sub(rb'If-Range: .*?\r\n', b'', request), *states[0])) as server:
            with delgunsai.open(server.url()) as file:
                self.assertTrue((file.read(x=0, y=0, width=10, height=10) == 0).all())
                self.assertEqual(file.levels, [(600, 600)])
                states.pop(0)
                yield file

    def test_other_revision(self):
        with self.replaced((self.whole(0), b'"1"'), (self.whole(9), b'"2"')) as file:
            self.assertTrue((file.read(x=100, y=100, width=500, height=500) == 9).all())
            self.assertEqual((file.tag, file.info.tag, file.same()), ('"2"', '"2"', True))

    def test_other_length(self):
        with self.replaced((self.whole(0), b'"1"'), (plain(numpy.full((300, 900), 9, 'uint8')), b'"1"')) as file:
            self.assertTrue((file.read(x=200, y=100, width=300, height=200) == 9).all())
            self.assertEqual(file.levels, [(900, 300)])

    def test_shorter(self):
        """The file that comes in its place ends before what is asked for."""
        short = plain(numpy.full((100, 600), 9, 'uint8'))
        with self.replaced((self.whole(0), b'"1"'), (short, b'"2"')) as file:
            with self.assertRaises(delgunsai.Outside):
                file.read(x=500, y=500, width=100, height=100)
            self.assertEqual((file.tag, file.levels), ('"2"', [(600, 100)]))
            self.assertTrue((file.read(x=0, y=0, width=600, height=100) == 9).all())

    def test_each_time(self):
        def answer(request, number):
            return served(re.sub(rb'If-Range: .*?\r\n', b'', request), self.whole(0), b'"%d"' % number)
        with Made(answer) as server, delgunsai.open(server.url()) as file:
            file.levels
            tag = file.tag
            with self.assertRaisesRegex(delgunsai.Lost, 'replaced 3 times'):
                file.read(x=0, y=0, width=600, height=600)
            self.assertLess(server.requests, 60)
            self.assertEqual((file.tag, file.same()), (tag, False))


class Cut(unittest.TestCase):
    """An answer that is cut changes nothing of what is read."""

    def test_in_each_of_the_first_300_bytes(self):
        with Cogserve({'a': EXAMPLE}) as server, delgunsai.open_file(EXAMPLE) as whole:
            wanted = whole.read(x=5, y=6, width=50, height=40)
            for cut in range(301):
                with Cutting(server.port, cut) as passing, delgunsai.open(passing.url('a')) as file:
                    got = file.read(x=5, y=6, width=50, height=40)
                    self.assertTrue(numpy.array_equal(got, wanted), cut)
                    self.assertEqual(passing.cuts, 1)
                    passing.shutdown()

    def test_last_name(self):
        """A file that isn't closed ends with its last name, after an exchange that was lost too."""
        resets = [Resets()]
        self.addCleanup(gc.enable)
        gc.disable()
        with open(EXAMPLE, 'rb') as example:
            text = example.read()
        with Made(lambda request, _: resets.pop() if resets else served(request, text), Batching) as server:
            file = delgunsai.open(server.url())
            self.assertEqual((file.levels[0], resets), ((64, 64), []))
            there = weakref.ref(file)
            del file
            self.assertIsNone(there())

    def test_no_server(self):
        with delgunsai.open(f'http://127.0.0.1:{free_port()}/a', timeout=2) as file:
            with self.assertRaises(delgunsai.Lost):
                file.read(x=0, y=0, width=1, height=1)
