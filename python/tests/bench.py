"""Windows beside rasterio, over loopback and over round trips of 40 ms."""
import ctypes
import functools
import os
import random
import shutil
import struct
import subprocess
import sys
import time
from concurrent.futures import ThreadPoolExecutor
from unittest import mock

import delgunsai
import numpy
from delgunsai import _core
from files import PACKED, PLAIN, TRANSLATE, WIDE, base
from floor import Compiled, Floor
from servers import Cogserve, Nginx
from support import EXAMPLE, FOLDER, RASTERIO, TLS, free_port, in_python

WIDTH, HEIGHT, SIDE = 7168, 6144, 256
FORMS = {
    'grey in tiles of 512': (1, 1, [*PLAIN, '-co', 'BLOCKSIZE=512']),
    'RGB': (3, 4, [*PLAIN, '-co', f'BLOCKSIZE={SIDE}']),
    'grey of 16 bits': (1, 2, [*PLAIN, *WIDE, '-co', f'BLOCKSIZE={SIDE}']),
    'packed grey': (1, 1, [*PACKED, '-co', f'BLOCKXSIZE={SIDE}', '-co', f'BLOCKYSIZE={SIDE}']),
    'packed RGB': (3, 4, [*PACKED, '-co', f'BLOCKXSIZE={SIDE}', '-co', f'BLOCKYSIZE={SIDE}']),
}
"""Bands, by what the width is divided, and how gdal_translate writes it."""
ROUND_TRIP = 40
ROUNDS = 5
SERIES = 3
SHARES = 10
THREADS = 8, 4
WAYS = 2 + len(THREADS)
END = b'\r\n\r\n'


def written():
    """A file of 58 MB in plain tiles of 256 by 256, with its smaller levels; it is old, as served files are."""
    path = os.path.join(FOLDER, 'bench.tif')
    subprocess.run([*TRANSLATE, *PLAIN, '-co', f'BLOCKSIZE={SIDE}', '-outsize', str(WIDTH), str(HEIGHT), EXAMPLE, path], check=True)
    os.utime(path, (time.time() - 3600,) * 2)
    return path


def seconds(do, *words, **more):
    """How long something takes, and what it gives."""
    start = time.perf_counter()
    result = do(*words, **more)
    return time.perf_counter() - start, result


def timed(readers, windows, row):
    """Reads the windows by all of these in turn, each first in its turn, adds to the row how long each took, and compares what they give."""
    for number, window in enumerate(windows):
        arrays = [None] * len(readers)
        for turn in range(len(readers)):
            one = (number + turn) % len(readers)
            more, arrays[one] = seconds(readers[one], number, window)
            row[one] += more
        arrays[1] = numpy.moveaxis(arrays[1], 0, -1) if arrays[1].ndim == 3 else arrays[1]
        if not all(numpy.array_equal(arrays[0], array) for array in arrays[1:]):
            sys.exit(f'python: the window {window} differs')


def apart(readers, windows, row):
    """Reads all windows by one of these after another, and adds to the row how long each took."""
    for one, read in enumerate(readers):
        start = time.perf_counter()
        for number, window in enumerate(windows):
            read(number, window)
        row[one] += time.perf_counter() - start


def both(url, windows, passes, floors=(), way=timed):
    """How long both, and the floors if there are any, take to open a file of which nothing is kept and to read these windows; and how long
    for the same windows again, so many passes in all."""
    import rasterio
    from rasterio.windows import Window
    opened = [seconds(delgunsai.open, url, blocks=4096), seconds(rasterio.open, '/vsicurl/' + url)]
    with opened[0][1] as file, opened[1][1] as other:
        readers = [lambda _, window: file.read(x=window[0], y=window[1], width=window[2], height=window[3]),
                   lambda _, window: other.read(1 if other.count == 1 else None, window=Window(*window))]
        readers += [lambda number, _, floor=floor: floor.read(number) for floor in floors]
        took = [[0.0] * len(readers) for _ in range(passes)]
        took[0][:2] = [second for second, _ in opened]
        for row in took:
            way(readers, windows, row)
    return took


def tell(row, count, mine, other, *floors):
    """Prints how long so many windows took both, and the floors."""
    print(f'{row}: {count} windows of {SIDE} by {SIDE}: {mine:.3f} s, {count / mine:.0f} in a second; rasterio {other:.3f} s, '
          f'{count / other:.0f} in a second; {other / mine:.2f} times its rate', flush=True)
    for language, floor in zip(('Python', 'C'), floors):
        print(f'  beside them a program in {language} that only exchanges and copies: {floor:.3f} s, {count / floor:.0f} in a second; '
              f"{other / floor:.2f} times rasterio's rate", flush=True)


def compare(rows, urls, windows, floors=None, way=timed):
    """Reads the windows of each file by both, and its floors, once for each row, and tells how long the best of each took."""
    took = [both(url, windows, len(rows), own, way) for url, own in zip(urls, floors or [()] * len(urls))]
    for row, times in zip(rows, zip(*took)):
        tell(row, len(windows), *(min(seconds) for seconds in zip(*times)))


def spread(row, urls, windows):
    """Reads the windows by both, a share of them of each file, so that most of what a window needs isn't there yet."""
    share = len(windows) // len(urls)
    took = [both(url, windows[k * share:][:share], 1)[0] for k, url in enumerate(urls)]
    tell(row, share * len(urls), *map(sum, zip(*took)))


def by_one_call(url, windows):
    """The windows of a file of which nothing is kept, by one call of the package."""
    with delgunsai.open(url, blocks=4096) as file:
        return file.read_windows(windows)


def by_calls(url, windows):
    """The same by calls of rasterio."""
    import rasterio
    from rasterio.windows import Window
    with rasterio.open('/vsicurl/' + url) as file:
        return [file.read(1 if file.count == 1 else None, window=Window(*window)) for window in windows]


def by_threads(count, url, windows):
    """The same in so many threads, each with a data set and a share of its own: windows of the same rows."""
    order = sorted(range(len(windows)), key=lambda number: windows[number][1])
    shares = [order[k * len(order) // count:(k + 1) * len(order) // count] for k in range(count)]
    arrays = [None] * len(windows)
    with ThreadPoolExecutor(count) as pool:
        for share, read in zip(shares, pool.map(lambda share: by_calls(url, [windows[number] for number in share]), shares)):
            for number, array in zip(share, read):
                arrays[number] = array
    return arrays


def at_once(row, urls, windows):
    """Reads all windows by one call, and by rasterio as one does it, one after another, and in threads, and tells how long the best of each
    took. GDAL keeps what it read of a URL, so each has its own."""
    ways = [by_one_call, by_calls, *(functools.partial(by_threads, count) for count in THREADS)]
    best = [float('inf')] * len(ways)
    for k in range(0, len(urls), len(ways)):
        first = None
        for number, (way, url) in enumerate(zip(ways, urls[k:])):
            more, arrays = seconds(way, url, windows)
            best[number] = min(best[number], more)
            first = first or arrays
            if not all(numpy.array_equal(mine, numpy.moveaxis(other, 0, -1) if first is not arrays and other.ndim == 3 else other)
                       for mine, other in zip(first, arrays)):
                sys.exit('python: a window differs')
            del arrays                                       # whose memory the next one gets
    tell(f'{row}, all by one call', len(windows), *best[:2])
    for count, other in zip(THREADS, best[2:]):
        print(f'  beside it rasterio in {count} threads: {other:.3f} s, {len(windows) / other:.0f} in a second; the package has '
              f'{other / best[0]:.2f} times its rate', flush=True)


def offsets_of(path):
    """The offsets of the tiles of level 0 of a file that is little-endian."""
    with open(path, 'rb') as file:
        text = file.read()
    at, = struct.unpack_from('<I', text, 4)
    for entry in range(struct.unpack_from('<H', text, at)[0]):
        tag, _, count, place = struct.unpack_from('<HHII', text, at + 2 + 12 * entry)
        if tag == 324:
            return struct.unpack_from(f'<{count}I', text, place)
    sys.exit(f'python: {path} has no tiles')


def planned(url, path, windows):
    """The plan of these windows for a floor: the requests that the package makes for them, of a file of which nothing is kept."""
    offsets = offsets_of(path)
    plan = [struct.pack(f'<5I{len(offsets)}I', os.path.getsize(path), WIDTH // SIDE, SIDE, SIDE, len(offsets), *offsets)]
    waiting = _core.Core.waiting

    def noted(core):
        text = waiting(core)
        requests = bytes(text).split(END)[:-1]
        plan.extend(struct.pack('<2I', 1, len(request + END)) + request + END for request in requests)
        return text
    with in_python(), mock.patch.object(_core.Core, 'waiting', noted), delgunsai.open(url, blocks=4096) as file:
        for x, y, width, height in windows:
            file.read(x=x, y=y, width=width, height=height)
            plan.append(struct.pack('<3I', 2, x, y))
    return b''.join(plan)


def compiled():
    """The library of floor.c."""
    here, place = os.path.dirname(os.path.abspath(__file__)), os.path.join(FOLDER, 'floor.so')
    subprocess.run([os.environ.get('CC', 'cc'), '-O2', '-shared', '-fPIC', '-o', place, os.path.join(here, 'floor.c')], check=True)
    return ctypes.CDLL(place)


def beside_nginx(path, windows):
    """Reads the windows of a file by both from nginx."""
    names = [f'nginx-{k}.tif' for k in range(2)]
    for name in names:
        shutil.copyfile(path, os.path.join(FOLDER, name))      # a link would change the file that cogserve serves
    with Nginx(FOLDER, secure=False) as server:
        compare(['loopback, from nginx as Debian sets it up'], [server.url(name) for name in names], windows)


def forms(count):
    """Reads so many windows by both from files of other forms, in turn, and by the one and then by the other."""
    import rasterio
    with rasterio.open(EXAMPLE) as source:
        samples, profile = source.read(1), source.profile
    for form, (bands, part, words) in FORMS.items():
        width, path = WIDTH // part, os.path.join(FOLDER, 'form.tif')
        subprocess.run([*TRANSLATE, *words, '-outsize', str(width), str(HEIGHT), base(bands, samples, profile), path], check=True,
                       stderr=subprocess.DEVNULL)
        os.utime(path, (time.time() - 3600,) * 2)
        source = random.Random(1)
        windows = [(source.randint(0, width - SIDE), source.randint(0, HEIGHT - SIDE), SIDE, SIDE) for _ in range(count)]
        names = [f'{k}.tif' for k in range((2 + WAYS) * SERIES)]
        with Cogserve({name: path for name in names}) as server:
            urls = [server.url(name) for name in names]
            compare([f'loopback, {form}, in turn', 'the same again'], urls[:SERIES], windows)
            compare([f'loopback, {form}, one after another', 'the same again'], urls[SERIES:2 * SERIES], windows, way=apart)
            at_once(f'loopback, {form}', urls[2 * SERIES:], windows)


def main(near=1000, far=200):
    if not RASTERIO:
        sys.exit('python: bench needs rasterio with GDAL')
    os.environ['GDAL_DISABLE_READDIR_ON_OPEN'] = 'EMPTY_DIR'
    source = random.Random(1)
    windows = [(source.randint(0, WIDTH - SIDE), source.randint(0, HEIGHT - SIDE), SIDE, SIDE) for _ in range(max(near, far))]
    path = written()
    names = [f'{k}.tif' for k in range((2 + WAYS) * ROUNDS + SHARES + 1 + WAYS)]  # one for each round, since GDAL keeps what it read of a URL
    with Cogserve({name: path for name in names}) as server:
        library, urls = compiled(), [server.url(name) for name in names[:2 * ROUNDS]]
        plans = [planned(url, path, windows[:near]) for url in urls]
        floors = [(Floor(server.port, plan), Compiled(library, server.port, plan)) for plan in plans]
        compare(['loopback, in turn', 'the same again'], urls[:ROUNDS], windows[:near], floors[:ROUNDS])
        compare(['loopback, one after another', 'the same again'], urls[ROUNDS:], windows[:near], floors[ROUNDS:], apart)
        at_once('loopback', [server.url(name) for name in names[-WAYS * ROUNDS:]], windows[:near])
        forms(near)
        if TLS:
            beside_nginx(path, windows[:near])
        spread(f'loopback, {SHARES} files', [server.url(name) for name in names[2 * ROUNDS:][:SHARES]], windows[:near])
        port = free_port()
        relay = subprocess.Popen([sys.executable, os.path.join(os.path.dirname(os.path.abspath(__file__)), 'relay.py'), str(port),
                                  f'127.0.0.1:{server.port}', str(ROUND_TRIP)], stdout=subprocess.PIPE)
        relay.stdout.readline()
        try:
            urls = [f'http://127.0.0.1:{port}/{name}' for name in names[2 * ROUNDS + SHARES:][:1 + WAYS]]
            compare([f'round trips of {ROUND_TRIP} ms'], urls[:1], windows[:far])
            at_once(f'round trips of {ROUND_TRIP} ms', urls[1:], windows[:far])
        finally:
            relay.terminate()
            relay.wait()
