"""Many windows by one call: what `read` gives of each, of one revision."""
import _thread
import contextlib
import gc
import itertools
import os
import signal
import subprocess
import sys
import threading
import time
import unittest
import weakref
from unittest import mock

import delgunsai
import numpy
from answers import served
from delgunsai import _core, _file
from files import noise, plain, ten_files, windows_of
from servers import Cogserve, Cutting, Made, Nginx
from support import EXAMPLE, FOLDER, RASTERIO, TLS, in_python, needs

SAMPLES = [noise(1000), noise(1000)[::-1].copy()]
TEXTS = [plain(samples) for samples in SAMPLES]
WINDOWS = [(x, y, 30 + x % 7, 40 + y % 5) for x, y in itertools.product(range(0, 950, 90), range(0, 950, 70))]
FIRST, LAST = (0, 990, 11, 11), (990, 0, 11, 11)
"""Windows that pass a side, in the share of the first connection, and of the last."""


def cut_out(samples, window):
    x, y, width, height = window
    return samples[y:y + height, x:x + width]


class Many(unittest.TestCase):
    def right(self, file, windows=WINDOWS, number=0, **words):
        arrays = file.read_windows(windows, **words)
        self.assertEqual(len(arrays), len(windows))
        for array, window in zip(arrays, windows):
            self.assertTrue(numpy.array_equal(array, cut_out(SAMPLES[number], window)), window)

    def same_as_read(self, file, seed):
        for level, sides in enumerate(file.levels):
            windows = list(windows_of(sides, 40, seed + level))
            arrays = file.read_windows(windows, level=level, connections=1 + seed % 5)
            for array, (x, y, width, height) in zip(arrays, windows):
                wanted = file.read(x=x, y=y, width=width, height=height, level=level)
                self.assertEqual((array.dtype, array.shape), (wanted.dtype, wanted.shape))
                self.assertTrue(numpy.array_equal(array, wanted))

    @needs(RASTERIO, 'rasterio with GDAL')
    def test_over_http(self):
        with Cogserve(ten_files()) as server:
            for seed, name in enumerate(ten_files()):
                with self.subTest(name), delgunsai.open(server.url(name), blocks=66 if seed % 2 else 256) as file:
                    self.same_as_read(file, seed)
                    self.assertEqual(file.tag, f'"1-{seed + 1}"')

    @needs(RASTERIO and TLS, 'rasterio with GDAL, nginx or openssl')
    def test_over_https(self):
        with Nginx(FOLDER) as server:
            for seed, name in enumerate(ten_files()):
                with self.subTest(name), delgunsai.open(server.url(name + '.tif'), context=server.context()) as file:
                    self.same_as_read(file, seed)

    def test_from_the_disk(self):
        path = os.path.join(FOLDER, 'many.tif')
        with open(path, 'wb') as out:
            out.write(TEXTS[0])
        with delgunsai.open_file(path) as file:
            self.right(file)

    def test_without_the_interpreter(self):
        """All but the first windows of a connection are read by wire.c where that can be, and by the interpreter where it can't."""
        with Made(lambda request, _: served(request, TEXTS[0])) as server, delgunsai.open(server.url()) as file:
            with mock.patch.object(_file.File, '_told', autospec=True, side_effect=_file.File._told) as told:
                self.right(file, connections=3)
            self.assertEqual((told.call_count, server.connections), (3, 3))
            self.right(file, connections=3)
            self.assertEqual(server.connections, 3)
        with Made(lambda request, _: served(request, TEXTS[0])) as server, delgunsai.open(server.url()) as file:
            with in_python():
                self.right(file)

    def test_forms_of_windows(self):
        with delgunsai.open_file(EXAMPLE) as file:
            whole = file.read(x=0, y=0, width=64, height=64)
            windows = [(1, 2, 3, 4), (50, 60, 14, 4), (0, 0, 64, 64)]
            for given in windows, numpy.array(windows), numpy.array(windows, 'u1'), iter(windows), [numpy.array(one) for one in windows], \
                    [[numpy.uint16(number) for number in window] for window in windows]:
                for array, window in zip(file.read_windows(given), windows):
                    self.assertTrue(numpy.array_equal(array, cut_out(whole, window)))
            self.assertEqual(file.read_windows([]), [])
            self.assertEqual(file.read_windows(numpy.zeros((0, 4), int)), [])
            for wrong, kind in ((1, 2, 3), ValueError), ((1, 2, 3, 4, 5), ValueError), ((1, 2, 3, -4), ValueError), \
                    ((1, 2, 3, 2 ** 32), ValueError), ((1, 2, 3, 2 ** 70), ValueError), ((1, 2, 3, 4.0), TypeError), ('abcd', TypeError):
                with self.assertRaises(kind, msg=wrong):
                    file.read_windows([(0, 0, 1, 1), wrong])
            for count, kind in (0, ValueError), (65, ValueError), (1.5, TypeError):
                with self.assertRaises(kind):
                    file.read_windows(windows, connections=count)
        self.assertRaises(ValueError, file.read_windows, [])

    def test_faults(self):
        """A window that the file hasn't is the exception that `read` gives, and the file is read on."""
        with Made(lambda request, _: served(request, TEXTS[0])) as server, delgunsai.open(server.url()) as file:
            for wrong in (990, 0, 11, 10), (0, 0, 2 ** 32 - 1, 2 ** 32 - 1), (2 ** 32 - 1, 0, 1, 1):
                with self.assertRaises(delgunsai.FileFault) as alone:
                    file.read(**dict(zip(('x', 'y', 'width', 'height'), wrong)))
                for place in 0, 70, len(WINDOWS):
                    windows = [*WINDOWS[:place], wrong, *WINDOWS[place:]]
                    with self.assertRaises(type(alone.exception)) as seen:
                        file.read_windows(windows)
                    self.assertEqual(str(seen.exception), str(alone.exception))
            with self.assertRaises(delgunsai.FileFault):
                file.read_windows(WINDOWS, level=9)
            self.right(file)

    def test_replaced(self):
        """All are of one revision, whenever the file is replaced."""
        for at in range(1, 40):
            with self.subTest(at=at), Made(lambda request, number: served(request, TEXTS[number >= at], b'"%d"' % (number >= at))) as server, \
                    delgunsai.open(server.url(), blocks=66) as file:
                arrays = file.read_windows(WINDOWS)
                number = int(file.tag[1])
                self.assertIn(number, (0, 1))
                self.assertTrue(all(numpy.array_equal(array, cut_out(SAMPLES[number], window)) for array, window in zip(arrays, WINDOWS)))
                self.assertEqual(number == 1 or server.requests < at, True)

    def test_of_two_revisions(self):
        """A server that has another revision for each connection gives no windows of one."""
        tags = {}

        def answer(request, _):
            return served(request, TEXTS[0], b'"%d"' % tags.setdefault(threading.get_ident(), len(tags)))
        with Made(answer) as server, delgunsai.open(server.url()) as file:
            with self.assertRaises(delgunsai.Lost) as seen:
                file.read_windows(WINDOWS, connections=3)
            self.assertIn('the file was replaced 3 times while it was read', str(seen.exception))
            first = server.requests
            with self.assertRaises(delgunsai.Lost):
                file.read_windows(WINDOWS, connections=3)
            self.assertEqual((len(tags), server.connections), (3, 3))
            self.assertEqual(first % 3, 0, 'all was read three times')
            self.right(file, connections=1)

    def test_replaced_each_time(self):
        with Made(lambda request, number: served(request, TEXTS[0], b'"%d"' % number)) as server, delgunsai.open(server.url()) as file:
            with self.assertRaises(delgunsai.Lost) as seen:
                file.read_windows(WINDOWS)
            self.assertIn('the file was replaced 3 times while it was read', str(seen.exception))

    @needs(RASTERIO, 'rasterio with GDAL')
    def test_cut(self):
        path = ten_files()['grey']
        windows = list(windows_of((1500, 1100), 60, 3))
        with delgunsai.open_file(path) as file, Cogserve(ten_files()) as server:
            wanted = file.read_windows(windows)
            for cut in range(0, 400, 7):
                with Cutting(server.port, cut) as passing, delgunsai.open(passing.url('grey')) as other:
                    other.read(x=0, y=0, width=1, height=1)
                    passing.cut = cut
                    arrays = other.read_windows(windows)
                    self.assertTrue(all(map(numpy.array_equal, arrays, wanted)))
                    self.assertGreaterEqual(passing.cuts, 2)
                    passing.shutdown()

    def ended(self):
        """No thread of a call is left, but for one that is about to end."""
        end = time.monotonic() + 1
        while [thread for thread in threading.enumerate() if thread.name == 'read_windows']:
            self.assertLess(time.monotonic(), end)
            time.sleep(0.01)

    def raises(self, seconds):
        """Sets a deadline, which a signal handler raises, and gives when it was set."""
        def handle(*_):
            raise TimeoutError('too late')
        self.addCleanup(signal.signal, signal.SIGALRM, signal.signal(signal.SIGALRM, handle))
        self.addCleanup(signal.setitimer, signal.ITIMER_REAL, 0)
        signal.setitimer(signal.ITIMER_REAL, seconds)
        return time.monotonic()

    def test_signals(self):
        """What a signal handler raises comes as it is and soon, whatever is waited for; no thread is left, and the file is read on."""
        waits = [0.0]

        def answer(request, _):
            time.sleep(waits[-1])
            return served(request, TEXTS[0])
        for carries, connections, timeout, kept in itertools.product((True, False), (1, 4), (20, None), (True, False)):
            with self.subTest(carries=carries, connections=connections, timeout=timeout, kept=kept), Made(answer) as server, \
                    delgunsai.open(server.url(), timeout=timeout) as file, contextlib.ExitStack() as patched:
                if not carries:
                    patched.enter_context(in_python())
                if kept:
                    file.read_windows(WINDOWS[:connections], connections=connections)
                waits.append(2.0)
                before = threading.active_count()
                with self.assertRaisesRegex(TimeoutError, 'too late'):
                    start = self.raises(0.2)
                    file.read_windows(WINDOWS, connections=connections)
                self.assertLess(time.monotonic() - start, 1.5)
                self.assertLessEqual(threading.active_count(), before + 2 * connections)      # the server's
                self.ended()
                waits.append(0.0)
                self.right(file)

    def test_another_raises(self):
        """Where one window is a fault, the windows of other connections aren't waited for, nor tried over another connection."""
        for (fault, is_slow), carries, windows in itertools.product(
                ((FIRST, lambda connection: connection > 0), (LAST, lambda connection: connection not in (1, 2, 3))), (True, False),
                (WINDOWS, [(x, 0, 20, 1000) for x in range(0, 980, 40)])):
            timeout = 20 if carries else None
            connections, slow = {}, []

            def answer(request, _):
                connection = connections.setdefault(threading.current_thread(), len(connections))
                time.sleep(3 if slow and is_slow(connection) else 0)
                return served(request, TEXTS[0])
            with self.subTest(fault=fault, carries=carries, windows=len(windows)), Made(answer) as server, \
                    delgunsai.open(server.url(), timeout=timeout) as file, contextlib.ExitStack() as patched:
                if not carries:
                    patched.enter_context(in_python())
                file.read(x=0, y=0, width=1, height=1)
                slow.append(True)
                start = time.monotonic()
                self.assertRaises(delgunsai.Outside, file.read_windows, [*windows, fault], connections=4)
                self.assertLess(time.monotonic() - start, 2)
                self.assertLessEqual(server.connections, 4)
                slow.clear()
                self.right(file)
                for one in (file, *file._others):
                    one._core.forget()
                    server.at_once = 0
                    one.read(x=0, y=0, width=200, height=1000)
                    self.assertGreater(server.at_once, 1, "what is given up is no loss of the server's")

    def test_raised_again(self):
        """What a handler raises while the threads are ended leaves none of them."""
        waits = [0.0]

        def answer(request, _):
            time.sleep(waits[-1])
            return served(request, TEXTS[0])
        with Made(answer) as server, delgunsai.open(server.url(), timeout=20) as file:
            self.right(file, WINDOWS[:32], connections=8)
            waits.append(3.0)
            with self.assertRaisesRegex(TimeoutError, 'too late'):
                start = self.raises(0.2)
                signal.setitimer(signal.ITIMER_REAL, 0.2, 0.004)
                try:
                    file.read_windows(WINDOWS, connections=8)
                finally:
                    signal.setitimer(signal.ITIMER_REAL, 0)
            self.assertLess(time.monotonic() - start, 2)
            self.ended()
            waits.append(0.0)
            self.right(file, connections=8)

    def test_raised_by_a_start(self):
        """A RuntimeError that a thread's start raises, though it runs, is a handler's."""
        start = threading.Thread.start

        def started(thread):
            start(thread)
            if thread.name == 'read_windows':
                raise RuntimeError('of a handler')
        with Made(lambda request, _: served(request, TEXTS[0])) as server, delgunsai.open(server.url()) as file:
            with mock.patch.object(threading.Thread, 'start', started):
                self.assertRaisesRegex(RuntimeError, 'of a handler', file.read_windows, WINDOWS)
            self.right(file)

    def test_interrupted_between_bytes(self):
        """An interrupt that no wait sees comes within an answer that goes on and on."""
        def answer(request, _):
            text = served(request, TEXTS[0])
            return [text[at:at + 16] for at in range(0, len(text), 16)] if slow else text
        slow = []
        with Made(answer) as server, delgunsai.open(server.url()) as file:
            file.read(x=0, y=0, width=1, height=1)
            slow.append(True)
            start = time.monotonic()
            threading.Timer(0.2, _thread.interrupt_main).start()
            with self.assertRaises(KeyboardInterrupt):
                file.read(x=700, y=700, width=10, height=10)
            self.assertLess(time.monotonic() - start, 1)

    def test_last_name(self):
        """A file that isn't closed ends with its last name, behind a fault of one of many windows too."""
        self.addCleanup(gc.enable)
        gc.disable()
        with Made(lambda request, _: served(request, TEXTS[0])) as server:
            for fault, connections in itertools.product((FIRST, LAST), (1, 4)):
                file = delgunsai.open(server.url())
                with self.assertRaises(delgunsai.Outside):
                    file.read_windows([*WINDOWS, fault], connections=connections)
                there = [weakref.ref(one) for one in (file, *file._others)]
                del file
                self.assertEqual([one() for one in there], [None] * len(there), (fault, connections))

    def test_after_the_main_thread(self):
        """A thread that outlives the main one reads, too."""
        path = os.path.join(FOLDER, 'late.tif')
        with open(path, 'wb') as out:
            out.write(TEXTS[0])
        program = f"""
import delgunsai, threading, time
def work():
    time.sleep(0.3)
    with delgunsai.open_file({path!r}) as file:
        print(len(file.read_windows([(x, 0, 9, 9) for x in range(40)])))
threading.Thread(target=work).start()
"""
        done = subprocess.run([sys.executable, '-c', program], capture_output=True, text=True,
                              env={**os.environ, 'PYTHONPATH': os.path.dirname(os.path.dirname(delgunsai.__file__))})
        self.assertEqual((done.stdout, done.stderr), ('40\n', ''))

    def test_fork_of_a_handler(self):
        """A signal handler may fork: the child, in which the call has no threads, ends it, and the parent goes on with it."""
        program = """
import delgunsai, os, signal, sys
children = []
def handle(*_):
    children.append(os.fork())
    if children[-1] == 0 and sys.argv[2] == 'exits':
        sys.exit(7)
signal.signal(signal.SIGALRM, handle)
with delgunsai.open(sys.argv[1], timeout=5) as file:
    file.read_windows([(x, 0, 9, 9) for x in range(40)], connections=4)
    signal.setitimer(signal.ITIMER_REAL, 0.3)
    try:
        arrays = file.read_windows([(x, 500, 9, 9) for x in range(0, 990, 10)], connections=4)
    except Exception:
        sys.exit(7 if children[-1] == 0 else 1)
    statuses = [os.waitstatus_to_exitcode(os.waitpid(child, 0)[1]) for child in children]
    print(len(children), sum(int(array.sum()) for array in arrays), statuses)
"""
        wanted = sum(int(cut_out(SAMPLES[0], (x, 500, 9, 9)).sum()) for x in range(0, 990, 10))

        def answer(request, _):
            time.sleep(0.1)
            return served(request, TEXTS[0])
        for way in 'exits', 'goes on':
            with self.subTest(way), Made(answer) as server:
                done = subprocess.run([sys.executable, '-c', program, server.url(), way], capture_output=True, text=True, timeout=30,
                                      env={**os.environ, 'PYTHONPATH': os.path.dirname(os.path.dirname(delgunsai.__file__))})
                self.assertEqual((done.stdout, done.stderr), (f'1 {wanted} [7]\n', ''))

    def test_without_threads(self):
        """Where no thread can be had this one reads all."""
        with open(os.path.join(FOLDER, 'many.tif'), 'wb') as out:
            out.write(TEXTS[0])
        with delgunsai.open_file(os.path.join(FOLDER, 'many.tif')) as file, \
                mock.patch.object(threading.Thread, 'start', side_effect=RuntimeError("can't start new thread")):
            self.right(file)

    def test_close_and_fork(self):
        with Made(lambda request, _: served(request, TEXTS[0])) as server, delgunsai.open(server.url()) as file:
            self.right(file, WINDOWS[:13], connections=4)
            before = server.connections
            child = os.fork()
            if child == 0:
                holds = False
                try:
                    self.right(file, connections=4)
                    holds = True
                finally:
                    os._exit(not holds)
            self.assertEqual(os.waitpid(child, 0)[1], 0)
            self.assertEqual((before, server.connections), (4, 8))
            self.right(file, connections=4)
            self.assertEqual(server.connections, 8)
            child = os.fork()
            if child == 0:                                   # a fault there ends nothing of the parent's
                holds = False
                try:
                    file.read_windows([*WINDOWS, LAST], connections=4)
                except delgunsai.Outside:
                    holds = True
                finally:
                    os._exit(not holds)
            self.assertEqual(os.waitpid(child, 0)[1], 0)
            before = server.connections
            for reader in (file, *file._others):
                reader._core.forget()
            self.right(file, connections=4)
            self.assertEqual(server.connections, before)
            sources = [file._source, *(other._source for other in file._others)]
            file.close()
            self.assertEqual([source._stream for source in sources], [None] * 4)

    def test_memory(self):
        with Made(lambda request, _: served(request, TEXTS[0])) as server, delgunsai.open(server.url()) as file:
            self.right(file)
            with mock.patch.object(_core._library, 'delgunsai_read', return_value=_core.MEMORY):
                self.assertRaises(delgunsai.OutOfMemory, file.read_windows, WINDOWS)
            self.right(file)
