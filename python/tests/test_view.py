"""The viewer's server: its tiles are what rasterio reads, of one revision, and it serves nothing else. tests/web tries its page."""
import concurrent.futures
import http.client
import json
import os
import shutil
import signal
import socket
import subprocess
import sys
import threading
import time
import unittest
import urllib.parse

import delgunsai
import numpy
from answers import head, served
from delgunsai.view import _server
from files import as_rasterio, noise, plain, ten_files
from servers import Cogserve, Made
from support import EXAMPLE, FOLDER, RASTERIO, needs

PACKAGE = os.path.dirname(os.path.dirname(delgunsai.__file__))
PROGRAM = [sys.executable, '-m', 'delgunsai', 'view']


class Views:
    """A viewer of these places in this process, and answers of it."""

    def __init__(self, *places, seconds=0.2, origin=None, readers=8):
        self.layers = _server.layers_of(places, readers, seconds)
        self.server = _server.Viewer(self.layers, 0, origin, seconds)
        threading.Thread(target=self.server.serve_forever, kwargs={'poll_interval': 0.01}, daemon=True).start()

    def __enter__(self):
        return self

    def __exit__(self, *_):
        self.server.shutdown()
        self.server.server_close()
        for layer in self.layers:
            layer.close()

    def get(self, target, method='GET', **fields):
        """The status, the fields and the body of an answer."""
        connection = http.client.HTTPConnection('127.0.0.1', self.server.server_port, timeout=30)
        try:
            connection.request(method, target, headers=fields)
            answer = connection.getresponse()
            return answer.status, answer.headers, answer.read()
        finally:
            connection.close()

    def told(self, target, **fields):
        """The status and the JSON of an answer."""
        status, _, body = self.get(target, **fields)
        return status, json.loads(body)

    def info(self, name):
        """The info, once it is read."""
        for _ in range(200):
            status, told = self.told(f'/info/{name}.json')
            if status != 202:
                return told
        raise AssertionError('the read goes on')


def of_png(text):
    """The samples of a PNG file, of one to four bands, as GDAL reads them."""
    from rasterio.io import MemoryFile
    with MemoryFile(text) as memory, memory.open(driver='PNG') as source:
        return source.read()


def tiles_of(info):
    return [(level, x, y) for level, (width, height) in enumerate(info['levels'])
            for x in range(-(-width // 256)) for y in range(-(-height // 256))]


@needs(RASTERIO, 'rasterio with GDAL')
class Tiles(unittest.TestCase):
    def test_alike(self):
        """Each tile of ten files is what rasterio reads there, stretched, with nothing outside of the image."""
        import rasterio
        places = list(ten_files().values())
        with Views(*places) as views:
            for place in places:
                name = os.path.basename(place)
                info = views.info(name)
                with self.subTest(name), rasterio.open(place) as source:
                    self.compare_info(info, source)
                    for level, x, y in tiles_of(info):
                        query = '?tag=' + urllib.parse.quote(info['tag'])
                        status, fields, body = views.get(f'/tiles/{name}/{level}/{x}/{y}.png{query if x % 2 else ""}')
                        self.assertEqual((status, fields['ETag'], fields['Content-Type']), (200, info['tag'], 'image/png'))
                        self.assertEqual(fields['Cache-Control'], 'private, max-age=31536000, immutable' if x % 2 else 'no-store')
                        self.compare(body, place, level, x, y, info['levels'][level], info['limits'], source.count)

    def compare(self, body, place, level, x, y, sides, limits, count):
        width, height = min(256, sides[0] - 256 * x), min(256, sides[1] - 256 * y)
        wanted = as_rasterio(place, level, (256 * x, 256 * y, width, height)).astype('f8').reshape(height, width, count)
        wanted = numpy.floor(numpy.clip((wanted - limits[0]) / (limits[1] - limits[0]), 0, 1) * 255 + 0.5)
        got = of_png(body).transpose(1, 2, 0)
        self.assertEqual(got.shape[:2], (256, 256))
        self.assertTrue(numpy.array_equal(got[:height, :width, :count], wanted), (place, level, x, y))
        if (width, height) != (256, 256):
            self.assertEqual((int(got[height:].sum()), int(got[:, width:].sum())), (0, 0))
            self.assertTrue((got[:height, :width, count] == 255).all())

    def compare_info(self, info, source):
        self.assertEqual(info['levels'][0], [source.width, source.height])
        self.assertEqual(info['transform'], list(source.transform)[:6])
        self.assertEqual(info['bounds'], list(source.bounds))
        self.assertEqual(info['crs']['epsg'], source.crs.to_epsg())
        self.assertEqual((info['samples'], info['most']), (source.count, 65535 if source.dtypes[0] == 'uint16' else 255))
        smallest = as_rasterio(source.name, len(info['levels']) - 1, (0, 0, *info['levels'][-1]))
        if max(info['levels'][-1]) <= 1024:
            self.assertEqual(info['percentiles'], list(numpy.percentile(smallest, (2, 98))))
            self.assertEqual(info['extent'], [smallest.min(), smallest.max()] if info['most'] == 65535 else [0, 255])
        self.assertEqual(info['limits'], info['percentiles'] if info['most'] == 65535 else [0, 255])

    def test_limits(self):
        with Views(ten_files()['wide']) as views:
            info = views.info('wide.tif')
            for limits in (0, 65535), (1000.5, 40000), (30000, 30000):
                query = f'?low={limits[0]}&high={limits[1]}&tag={urllib.parse.quote(info["tag"])}'
                body = views.get(f'/tiles/wide.tif/0/1/1.png{query}')[2]
                if limits[0] < limits[1]:
                    self.compare(body, ten_files()['wide'], 0, 1, 1, info['levels'][0], limits, 1)
            for query in '?low=1', '?low=a&high=2', '?low=nan&high=2', '?low=1&high=inf', '?x', '?' + '&'.join('a=1' for _ in range(9)):
                self.assertEqual(views.get(f'/tiles/wide.tif/0/0/0.png{query}')[0], 400, query)

    def test_values(self):
        with Views(ten_files()['wide-rgb']) as views:
            info = views.info('wide-rgb.tif')
            for x, y in (0, 0), (600, 398), (17, 203):
                status, told = views.told(f'/info/wide-rgb.tif/0/{x}/{y}.json?tag={urllib.parse.quote(info["tag"])}')
                self.assertEqual((status, told['tag']), (200, info['tag']))
                self.assertEqual(told['value'], as_rasterio(ten_files()['wide-rgb'], 0, (x, y, 1, 1)).ravel().tolist())
            for place in '0/601/0', '0/0/399', '9/0/0':
                self.assertEqual(views.get(f'/info/wide-rgb.tif/{place}.json')[0], 404)

    def test_over_http_at_once(self):
        """Eight threads ask for tiles of two files, over one reader and over eight."""
        names = 'grey', 'rgb'
        with Cogserve(ten_files()) as server:
            for readers in 1, 8:
                with Views(*(server.url(name) for name in names), readers=readers) as views:
                    infos = {name: views.info(name) for name in names}
                    wanted = [(name, *tile) for name in names for tile in tiles_of(infos[name])] * 2
                    with concurrent.futures.ThreadPoolExecutor(8) as pool:
                        bodies = list(pool.map(lambda one: views.get('/tiles/{}/{}/{}/{}.png'.format(*one))[2], wanted))
                    for (name, level, x, y), body in zip(wanted, bodies):
                        self.compare(body, ten_files()[name], level, x, y, infos[name]['levels'][level], (0, 255), infos[name]['samples'])


class Changes(unittest.TestCase):
    """Files that are replaced, that come late, or that can't be read."""

    def test_replaced(self):
        """A tile of another revision than the one that is asked for isn't sent, and the info becomes that of the new one."""
        texts = [plain(noise(300)), plain(noise(700, seed=2))]
        now = [0]
        with Made(lambda request, _: served(request, texts[now[0]], b'"%d"' % now[0])) as server, Views(server.url()) as views:
            first = views.info('a')
            self.assertEqual((first['tag'], first['levels']), ('"0"', [[300, 300]]))
            self.assertEqual(views.get('/tiles/a/0/1/1.png?tag=%220%22')[0], 200)
            now[0] = 1
            deadline = time.monotonic() + 10
            while (info := views.info('a'))['tag'] != '"1"' and time.monotonic() < deadline:
                self.assertEqual(info, first)
                time.sleep(0.05)
            self.assertEqual((info['tag'], info['levels']), ('"1"', [[700, 700]]))
            self.assertEqual(views.told('/tiles/a/0/1/1.png?tag=%220%22'), (409, {'error': 'the file was replaced', 'tag': '"1"'}))
            self.assertEqual(views.told('/info/a/0/1/1.json?tag=%220%22')[0], 409)
            status, fields, body = views.get('/tiles/a/0/2/2.png')
            self.assertEqual((status, fields['ETag']), (200, '"1"'))
            if RASTERIO:
                self.assertTrue(numpy.array_equal(of_png(body)[0][:188, :188], noise(700, seed=2)[512:, 512:]))

    def test_replaced_at_any_request(self):
        """Whatever the request at which the file is replaced: each tile is of the revision whose tag it has."""
        if not RASTERIO:
            self.skipTest('rasterio is missing')
        wholes = [noise(500, seed) for seed in range(12)]
        texts = [plain(whole) for whole in wholes]

        def answer(request, number):
            revision = number // 7 % 12
            return served(request, texts[revision], b'"%d"' % revision)
        statuses = set()
        with Made(answer) as server, Views(server.url()) as views:
            for number in range(300):
                status, fields, body = views.get(f'/tiles/a/0/{number % 2}/{number // 2 % 2}.png')
                statuses.add(status)
                if status == 200:
                    whole = wholes[int(fields['ETag'].strip('"'))]
                    part = whole[256 * (number // 2 % 2):, 256 * (number % 2):][:256, :256]
                    self.assertTrue(numpy.array_equal(of_png(body)[0][:part.shape[0], :part.shape[1]], part))
        self.assertLessEqual(statuses, {200, 202, 409, 502})
        self.assertIn(200, statuses)

    def test_long_first_read(self):
        text = plain(noise(300))

        def answer(request, _):
            time.sleep(0.5)
            return served(request, text)
        with Made(answer) as server, Views(server.url()) as views:
            status, told = views.told('/info/a.json')
            self.assertEqual(status, 202)
            self.assertGreaterEqual(told['reading'], 0.3)
            self.assertEqual(views.info('a')['levels'], [[300, 300]])

    def test_sentences(self):
        """Errors are sentences, and a file that comes later is shown."""
        path = os.path.join(FOLDER, 'later.tif')
        broken = os.path.join(FOLDER, 'broken.tif')
        with open(broken, 'wb') as file:
            file.write(b'no TIFF at all, though long enough')
        with Made(lambda *_: head(b'404 Not Found', b'Content-Length: 0')) as server, Views(path, broken, server.url()) as views:
            self.assertEqual(views.told('/info/later.tif.json'), (502, {'error': f'{path}: No such file or directory'}))
            self.assertEqual(views.told('/info/broken.tif.json'),
                             (502, {'error': f'{broken}: No classic TIFF: the byte order or the number 42 is wrong.'}))
            self.assertEqual(views.told('/info/a.json'), (502, {'error': f'{server.url()}: its status is 404'}))
            self.assertEqual(views.told('/tiles/later.tif/0/0/0.png')[0], 502)
            shutil.copy(EXAMPLE, path)
            self.assertEqual(views.info('later.tif')['levels'], [[64, 64], [32, 32], [16, 16]])
            os.remove(path)
            time.sleep(0.3)
            self.assertEqual(views.told('/info/later.tif.json')[0], 502)


class Serves(unittest.TestCase):
    """What is served, and what isn't."""

    def test_page(self):
        with Views(EXAMPLE) as views:
            for target, kind in ('/', 'text/html'), ('/view.css', 'text/css'), *((f'/{name}', 'text/javascript') for name in _server.SCRIPTS):
                status, fields, body = views.get(target)
                self.assertEqual((status, fields['Content-Type']), (200, f'{kind}; charset=utf-8'))
                self.assertIn("default-src 'none'; script-src 'self'", fields['Content-Security-Policy'])
                self.assertEqual(fields['X-Content-Type-Options'], 'nosniff')
                self.assertIsNone(fields['Access-Control-Allow-Origin'])
                self.assertEqual(len(body), int(fields['Content-Length']))
                self.assertEqual(views.get(target, 'HEAD')[1]['Content-Length'], str(len(body)))

    def test_nothing_else(self):
        with Views(EXAMPLE) as views:
            views.info('example.tif')
            for target in '/x', '/page/index.html', '/../_server.py', '/%2e%2e/view.js', '/tiles/example.tif/0/0/0', '/info/.json', (
                    '/tiles/other.tif/0/0/0.png'), '/info/other.tif.json', '/tiles/example.tif/3/0/0.png', '/tiles/example.tif/0/1/0.png', (
                    '/tiles/example.tif/0/0/9999999.png'), '/tiles/example.tif/-1/0/0.png', f'/tiles/example.tif/{"9" * 30}/0/0.png', (
                    '/tiles/example.tif/0/0/0.png/'), '/tiles//0/0/0.png', '/view.js/', '/docs/example.tif', EXAMPLE:
                self.assertEqual(views.get(target)[0], 404, target)
            self.assertEqual(views.get('/' + 'a' * 2000)[0], 414)
            for method in 'POST', 'PUT', 'DELETE', 'OPTIONS', 'TRACE':
                self.assertEqual(views.get('/', method)[0], 501)

    def test_hosts(self):
        """A page of another name that leads to 127.0.0.1 reads nothing."""
        with Views(EXAMPLE) as views:
            port = views.server.server_port
            for host in f'127.0.0.1:{port}', f'localhost:{port}':
                self.assertEqual(views.get('/', Host=host)[0], 200)
            for host in 'evil.example', f'evil.example:{port}', '127.0.0.1', f'127.0.0.1:{port}.evil.example', '':
                self.assertEqual(views.get('/', Host=host)[0], 421)

    def test_loopback_alone(self):
        with Views(EXAMPLE) as views:
            self.assertEqual(views.server.socket.getsockname()[0], '127.0.0.1')
            for _, _, _, _, place in socket.getaddrinfo(socket.gethostname(), None, socket.AF_INET, socket.SOCK_STREAM):
                if not place[0].startswith('127.'):
                    self.assertRaises(OSError, socket.create_connection, (place[0], views.server.server_port), 2)

    def test_names(self):
        """Names of files are escaped in the page, and have no odd characters in URLs."""
        path = os.path.join(FOLDER, '"><script>alert(1)</script>&\'.tif')
        os.makedirs(os.path.dirname(path), exist_ok=True)
        shutil.copy(EXAMPLE, path)
        with Views(path, EXAMPLE, EXAMPLE) as views:
            page = views.get('/')[2].decode()
            self.assertEqual(page.count('<script'), 1)
            settings = page.split('data-settings="')[1].split('"')[0]
            for escaped, character in ('&quot;', '"'), ('&lt;', '<'), ('&gt;', '>'), ('&#x27;', "'"), ('&amp;', '&'):
                settings = settings.replace(escaped, character)
            files = json.loads(settings)['files']
            self.assertEqual([file['place'] for file in files], [path, EXAMPLE, EXAMPLE])
            self.assertEqual([file['name'] for file in files], ['script___.tif', 'example.tif', '2-example.tif'])
            for file in files:
                self.assertEqual(views.info(file['name'])['levels'][0], [64, 64])

    def test_queries(self):
        """The query of a URL is shown in the page alone: other pages may be let see names, infos and errors."""
        with open(EXAMPLE, 'rb') as file:
            text = file.read()

        def answer(request, _):
            return served(request, text) if b'/a%20b.tif?' in request else head(b'404 Not Found', b'Content-Length: 0')

        with Made(answer) as server:
            urls = [server.url(name) for name in ('a%20b.tif?sign=secret/c.tif', 'a%20b.tif?sign=secrets', 'none.tif?sign=secret')]
            with Views(*urls, origin='*') as views:
                self.assertEqual([layer.name for layer in views.layers], ['a_20b.tif', '2-a_20b.tif', 'none.tif'])
                for layer, url in zip(views.layers[:2], urls):
                    info = views.info(layer.name)
                    self.assertEqual((info['levels'][0], info['place']), ([64, 64], url.split('?')[0]))
                    self.assertEqual(views.get(f'/tiles/{layer.name}/0/0/0.png')[0], 200)
                self.assertEqual(views.info('none.tif')['error'], f'{urls[2].split("?")[0]}: its status is 404')
                self.assertIn('secrets', views.get('/')[2].decode())

    def test_other_pages(self):
        """Those of the origin that is named may use tiles and infos, and none else."""
        for origin, words in (None, 'same-origin'), ('http://127.0.0.1:9', 'cross-origin'), ('*', 'cross-origin'):
            with Views(EXAMPLE, origin=origin) as views:
                for target in '/info/example.tif.json', '/tiles/example.tif/0/0/0.png', '/info/none.json':
                    fields = views.get(target)[1]
                    self.assertEqual((fields['Access-Control-Allow-Origin'], fields['Cross-Origin-Resource-Policy']), (origin, words))
                self.assertIsNone(views.get('/')[1]['Access-Control-Allow-Origin'])


class Program(unittest.TestCase):
    """The command."""
    variables = {**os.environ, 'PYTHONPATH': PACKAGE}

    def test_interrupted(self):
        """It prints where it serves, opens the browser unless it is told not to, and ends by Ctrl-C."""
        opened = os.path.join(FOLDER, 'opened')
        for words in [], ['--no-browser']:
            browser = os.path.join(FOLDER, 'browser')
            with open(browser, 'w') as file:
                file.write(f'#!/bin/sh\necho "$1" > {opened}.part && mv {opened}.part {opened}\n')
            os.chmod(browser, 0o755)
            process = subprocess.Popen([*PROGRAM, *words, EXAMPLE], stdout=subprocess.PIPE, stderr=subprocess.PIPE, text=True, cwd=FOLDER,
                                       env={**self.variables, 'BROWSER': browser})
            line = process.stdout.readline()
            self.assertRegex(line, r'^viewing at http://127\.0\.0\.1:[0-9]+/\n$')
            deadline = time.monotonic() + (1 if words else 20)
            while not os.path.exists(opened) and time.monotonic() < deadline:
                time.sleep(0.05)
            if words:
                self.assertFalse(os.path.exists(opened))
            else:
                with open(opened) as file:
                    self.assertEqual(f'viewing at {file.read()}', line)
                os.remove(opened)
            process.send_signal(signal.SIGINT)
            self.assertEqual(process.communicate(timeout=20), ('\n', ''))
            self.assertEqual(process.returncode, 0)

    def test_interrupted_in_a_read(self):
        """A read that goes on isn't waited for."""
        with Made(lambda *_: time.sleep(20) or b'') as server:
            process = subprocess.Popen([*PROGRAM, '--no-browser', server.url()], stdout=subprocess.PIPE, text=True, cwd=FOLDER,
                                       env=self.variables)
            port = int(process.stdout.readline().split(':')[-1].strip('/\n'))
            connection = http.client.HTTPConnection('127.0.0.1', port)
            connection.request('GET', '/info/a.json')
            self.assertEqual(connection.getresponse().status, 202)
            start = time.monotonic()
            process.send_signal(signal.SIGINT)
            process.communicate(timeout=20)
            self.assertLess(time.monotonic() - start, 5)
            connection.close()

    def test_words(self):
        many = [EXAMPLE] * 17
        for words, sentence in ([], 'required'), (many, 'at most 16'), (['--port', '70000', EXAMPLE], 'a port'), (
                ['--readers', '0', EXAMPLE], 'readers'), (['--seconds', '0', EXAMPLE], 'seconds'), (['http://a/b#c'], 'no fragment'), (
                ['--allow-origin', 'a b', EXAMPLE], 'an origin'):
            done = subprocess.run([*PROGRAM, *words], capture_output=True, text=True, env=self.variables, cwd=FOLDER, timeout=60)
            self.assertEqual(done.returncode, 2, words)
            self.assertIn(sentence, done.stderr)
        done = subprocess.run([sys.executable, '-m', 'delgunsai'], capture_output=True, text=True, env=self.variables, cwd=FOLDER)
        self.assertEqual((done.returncode, done.stderr[:5]), (1, 'usage'))

    def test_port_in_use(self):
        with socket.create_server(('127.0.0.1', 0)) as taken:
            port = str(taken.getsockname()[1])
            done = subprocess.run([*PROGRAM, '--port', port, EXAMPLE], capture_output=True, text=True, env=self.variables, cwd=FOLDER)
            self.assertEqual((done.returncode, done.stderr), (1, f'view: port {port}: Address already in use\n'))
