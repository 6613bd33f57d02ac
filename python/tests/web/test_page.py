"""The viewer's page in headless Chromium."""
import http.server
import json
import os
import shutil
import socket
import struct
import subprocess
import threading
import time
import unittest
import urllib.request

import numpy
from answers import served
from browser import InBrowser, View, picture, whole_of
from files import noise, plain, ten_files
from servers import Made
from support import EXAMPLE, FOLDER, TOP

LEAFLET = '/usr/share/javascript/leaflet'


def stretch_of(samples, low, high):
    return numpy.floor(numpy.clip((samples.astype('f8') - low) / (high - low), 0, 1) * 255 + 0.5).astype('u1')


class Shown(InBrowser):
    """What is on the screen is what rasterio reads."""

    def shown(self, name, *links):
        path = ten_files()[name]
        with View(path) as view:
            for link in links:
                self.page.open(view.url + '#{}/{}/{}'.format(*link))
                told = self.page.wait()
                whole = whole_of(path, max(0, link[0]))
                if whole.dtype == 'uint16':
                    with urllib.request.urlopen(f'{view.url}info/{name}.tif.json') as answer:
                        last = whole_of(path, len(json.load(answer)['levels']) - 1)
                    whole = stretch_of(whole, *numpy.percentile(last, (2, 98)))
                self.assertEqual((self.page.link(), int(told['level'])), (list(link), max(0, link[0])))
                self.check_screen(whole)
        self.no_errors()

    def test_grey(self):
        self.shown('grey', (0, 700, 500), (1, 375, 275), (0, 0, 0), (0, 1500, 1100), (2, 100, 90), (-2, 700, 500))

    def test_rgb(self):
        self.shown('rgb', (0, 450, 650), (1, 200, 300), (-1, 300, 300))

    def test_wide(self):
        self.shown('wide', (0, 600, 350), (1, 300, 175))

    def test_wide_rgb(self):
        self.shown('wide-rgb', (0, 300, 200))

    def test_packed(self):
        self.shown('packed-rgb', (0, 250, 388))

    def test_whole(self):
        """Without a link the first level is shown that fits."""
        with View(ten_files()['metres']) as view:
            self.page.open(view.url)
            told = self.page.wait()
            level = next(k for k, side in enumerate((1024, 512)) if side <= min(told['box'][2:]) or k == 1)
            self.assertEqual(self.page.link(), [level, 512 >> level, 512 >> level])
            self.check_screen(whole_of(ten_files()['metres'], level))
        self.no_errors()


class Moved(InBrowser):
    """Keys, mouse and touch move the view, and the words below it say what is there."""

    def setUp(self):
        self.path = ten_files()['metres']                  # 1024 by 1024, from (400000, 5400000), 58.59375 m
        self.view = View(self.path)
        self.page.open(self.view.url + '#0/400/400')
        told = self.page.wait()
        self.left, self.top, self.width, self.height = told['box']
        self.middle = self.left + self.width // 2, self.top + self.height // 2

    def tearDown(self):
        self.view.__exit__()
        self.no_errors()

    def ends_at(self, *link):
        deadline = time.monotonic() + 10
        while self.page.link() != list(link) and time.monotonic() < deadline:
            time.sleep(0.02)
        self.assertEqual(self.page.link(), list(link))
        self.page.wait()
        self.check_screen(whole_of(self.path, max(0, link[0])))

    def test_keys(self):
        for key, link in (('ArrowRight', (0, 528, 400)), ('ArrowDown', (0, 528, 528)), ('ArrowLeft', (0, 400, 528)), ('ArrowUp', (0, 400, 400)),
                          ('-', (1, 200, 200)), ('+', (0, 400, 400)), ('+', (-1, 400, 400)), ('ArrowRight', (-1, 464, 400)),
                          ('-', (0, 464, 400)), ('-', (1, 232, 200)), ('-', (1, 232, 200))):
            self.page.key(key)
            self.ends_at(*link)

    def test_edges(self):
        """The middle of the screen stays in the image."""
        for _ in range(10):
            self.page.key('ArrowLeft')
            self.page.key('ArrowUp')
        self.ends_at(0, 0, 0)

    def test_buttons(self):
        for button, level in ('out', 1), ('in', 0), ('in', -1), ('whole', None):
            self.driver.find_element('id', button).click()
            if level is not None:
                self.ends_at(level, 400 >> max(0, level), 400 >> max(0, level))
        self.page.wait(also=lambda told: told['level'] == '1')

    def test_drag(self):
        x, y = self.middle
        self.page.mouse('mousePressed', x, y, button='left', buttons=1, clickCount=1)
        for step in range(1, 11):
            self.page.mouse('mouseMoved', x - 13 * step, y + 7 * step, button='left', buttons=1)
        self.page.mouse('mouseReleased', x - 130, y + 70, button='left', clickCount=1)
        self.page.mouse('mouseMoved', x, y)
        self.ends_at(0, 530, 330)

    def test_wheel(self):
        """What is under the mouse stays there."""
        x, y = self.middle
        self.page.mouse('mouseWheel', x + 100, y - 60, deltaX=0, deltaY=120)
        self.ends_at(1, 150, 230)                          # (500, 340) of level 0 is (250, 170)
        self.page.mouse('mouseWheel', x + 100, y - 60, deltaX=0, deltaY=-120)
        self.ends_at(0, 400, 400)

    def test_touch(self):
        x, y = self.middle
        self.page.touch('touchStart', (x, y))
        for step in range(1, 11):
            self.page.touch('touchMove', (x + 9 * step, y - 5 * step))
        self.page.touch('touchEnd')
        self.ends_at(0, 310, 450)

    def test_pinch(self):
        x, y = self.middle
        self.page.touch('touchStart', (x - 100, y), (x + 100, y))
        for step in range(1, 12):
            self.page.touch('touchMove', (x - 100 + 5 * step, y), (x + 100 - 5 * step, y))
        self.page.touch('touchEnd')
        self.page.wait(also=lambda told: told['level'] == '1')

    def test_link(self):
        """A link that is followed while the page is open moves the view; one that is none doesn't."""
        self.page.script('location.hash = "#1/300/200"')
        self.ends_at(1, 300, 200)
        self.page.script('location.hash = "#x"')
        self.ends_at(1, 300, 200)

    def test_link_before_a_frame(self):
        """A link that is followed isn't lost where the page is drawn before the browser tells of it."""
        self.page.script('window.requestAnimationFrame = draw => { draw(); return 0; };'
                         'location.hash = "#1/300/200"; dispatchEvent(new Event("resize"));')
        self.ends_at(1, 300, 200)

    def test_words(self):
        """The pixel, the map coordinates and the value under the mouse."""
        whole, size = whole_of(self.path), 60000 / 1024
        for across, down in (0, 0), (-77, 31), (123, -200):
            column, row = 400 + across, 400 + down
            self.page.mouse('mouseMoved', self.middle[0] + across, self.middle[1] + down)
            told = self.page.wait(also=lambda told: told['valueWords'] != '')
            self.assertEqual((told['pixelWords'], told['valueWords']), (f'{column}, {row}', str(whole[row, column])))
            x, y = map(float, told['mapWords'].split(', '))
            self.assertAlmostEqual(x, 400000 + (column + 0.5) * size, delta=0.06)
            self.assertAlmostEqual(y, 5400000 - (row + 0.5) * size, delta=0.06)
        self.assertEqual(told['levelWords'], '0: 1024 × 1024')

    def test_slider(self):
        """A stretch by the buttons and the slider."""
        whole = whole_of(self.path)
        smallest = whole_of(self.path, 1)
        self.driver.find_element('css selector', '.main').click()
        self.wait_stretched(stretch_of(whole, *numpy.percentile(smallest, (2, 98))))
        self.page.script('''const low = document.querySelector('.low'); low.value = 100; low.dispatchEvent(new Event('input'));
                            const high = document.querySelector('.high'); high.value = 200; high.dispatchEvent(new Event('input'));''')
        self.wait_stretched(stretch_of(whole, 100, 200))
        self.driver.find_element('css selector', '.all').click()
        self.wait_stretched(whole)

    def wait_stretched(self, whole):
        time.sleep(0.4)                                    # until the stretch rests
        self.page.wait()
        self.check_screen(whole)


class Several(InBrowser):
    """Files side by side show one place."""

    def test_two(self):
        """The same place by map coordinates: a file, and the right lower quarter of it."""
        whole, part = ten_files()['metres'], os.path.join(FOLDER, 'part.tif')
        subprocess.run(['gdal_translate', '-q', '-of', 'COG', '-co', 'COMPRESS=NONE', '-srcwin', '512', '512', '512', '512', whole, part],
                       check=True)
        with View(whole, part) as view:
            self.page.open(view.url + '#0/700/600')
            self.page.wait(0), self.page.wait(1)
            self.check_screen(whole_of(whole), 0)
            self.check_screen(whole_of(part), 1, (0, 700 - 512, 600 - 512))
            left, top, width, height = self.page.panel(1)['box']
            self.page.mouse('mouseMoved', left + width // 2 + 5, top + height // 2 + 9)
            for number, (column, row) in enumerate(((705, 609), (705 - 512, 609 - 512))):
                told = self.page.wait(number, also=lambda told: told['valueWords'] != '')
                self.assertEqual(told['pixelWords'], f'{column}, {row}')
                self.assertEqual(told['valueWords'], str(whole_of(whole)[609, 705]))
        self.no_errors()

    def test_first_is_slow(self):
        """Where the first file is still read, the mouse over the second one does no harm."""
        with socket.create_server(('127.0.0.1', 0)) as silent, \
                View(f'http://127.0.0.1:{silent.getsockname()[1]}/a.tif', ten_files()['grey']) as view:
            self.page.open(view.url)
            left, top, width, height = self.page.wait(1, 'reading', also=lambda told: told['tag'] != '')['box']
            for step in range(20):
                self.page.mouse('mouseMoved', left + width // 2 + step, top + height // 2)
                time.sleep(0.1)
            self.assertEqual(self.page.wait(1, 'reading')['pixelWords'], '')
        self.no_errors()

    def test_five(self):
        """Five files of other sides and of other places, some of one system, show the same part."""
        names = ['grey', 'rgb', 'wide', 'packed', 'turned']
        with View(*(ten_files()[name] for name in names)) as view:
            self.page.open(view.url)
            for number, name in enumerate(names):
                self.assertIn(name, self.page.wait(number)['placeWords'])
                self.assertTrue((self.page.screenshot(number)[60:-4] != (20, 23, 28)).any(), name)
        self.no_errors()


class Wrong(InBrowser):
    """What can't be read is a sentence, and a long read is seen."""

    def test_missing(self):
        path = os.path.join(FOLDER, 'not <b>there</b>.tif')
        with View('--seconds', '0.3', path) as view:
            self.page.open(view.url)
            told = self.page.wait(state='error')
            self.assertEqual((told['noticeWords'], told['placeWords']), (f'{path}: No such file or directory', path))
            self.assertIsNone(self.page.script('return document.querySelector("b")'))
            os.makedirs(os.path.dirname(path))
            shutil.copy(EXAMPLE, path)
            told = self.page.wait()
            self.assertFalse(told['isNotice'])
            self.check_screen(whole_of(EXAMPLE))
        self.no_errors()

    def test_fault(self):
        path = os.path.join(FOLDER, 'fault.tif')
        with open(path, 'wb') as file:
            file.write(b'II*\0' + bytes(60))
        with View(path) as view:
            self.page.open(view.url)
            told = self.page.wait(state='error')
            self.assertEqual(told['noticeWords'], f"{path}: A directory's offset is odd or below 8.")
        self.no_errors()

    def test_fault_in_a_tile(self):
        """A file of which one tile has a fault: the sentence, and the other tiles."""
        whole = bytearray(open(ten_files()['packed'], 'rb').read())
        import rasterio
        with rasterio.open(ten_files()['packed']) as source:
            place = int(source.tags(ns='TIFF', bidx=1).get('BLOCK_OFFSET_1_1', 0))
        place = place or self.offset_of(whole, 5)
        whole[place:place + 4] = b'\x80\x80\x80\x80'
        whole[place + 4:place + 40] = b'\x81' * 36
        path = os.path.join(FOLDER, 'fault-tile.tif')
        with open(path, 'wb') as file:
            file.write(whole)
        with View(path) as view:
            self.page.open(view.url + '#0/400/400')
            told = self.page.wait(state='error', also=lambda told: int(told['ready']) >= int(told['count']) - 1)
            self.assertIn('The packed bytes of a tile are no packets', told['noticeWords'])
        self.no_errors()

    def offset_of(self, text, tile):
        """The place of a tile of a little-endian file."""
        directory, = struct.unpack_from('<I', text, 4)
        count, = struct.unpack_from('<H', text, directory)
        for entry in range(count):
            tag, _, _, place = struct.unpack_from('<HHII', text, directory + 2 + 12 * entry)
            if tag == 324:
                return struct.unpack_from('<I', text, place + 4 * tile)[0]

    def test_long(self):
        """A first read that takes seconds is seen, and then the image."""
        with open(EXAMPLE, 'rb') as file:
            text = file.read()

        def answer(request, _):
            time.sleep(1.2)
            return served(request, text)
        with Made(answer) as server, View(server.url()) as view:
            self.page.open(view.url)
            told = self.page.wait(state='reading', also=lambda told: told['isNotice'])
            self.assertRegex(told['noticeWords'], r'^Reading for [0-9]+ seconds \.\.$')
            told = self.page.wait()
            self.assertFalse(told['isNotice'])
            self.check_screen(whole_of(EXAMPLE))
        self.no_errors()

    def test_comes_back(self):
        """A file that isn't there for a while: the image stays, with the sentence, which goes when the file is there again."""
        path = os.path.join(FOLDER, 'gone.tif')
        shutil.copy(EXAMPLE, path)
        with View('--seconds', '0.3', path) as view:
            self.page.open(view.url)
            self.page.wait()
            os.rename(path, path + '.away')
            told = self.page.wait(state='error')
            self.assertEqual(told['noticeWords'], f'{path}: No such file or directory')
            self.check_screen(whole_of(EXAMPLE))
            os.rename(path + '.away', path)
            told = self.page.wait()
            self.assertFalse(told['isNotice'])
            self.check_screen(whole_of(EXAMPLE))
        self.no_errors()

    def test_other_sides(self):
        """A file that is replaced by one of other sides: the same part of it is shown."""
        wholes, now = [noise(600), noise(1200, seed=2)], [0]
        texts = [plain(whole) for whole in wholes]
        with Made(lambda request, _: served(request, texts[now[0]], b'"%d"' % now[0])) as server, \
                View('--seconds', '0.3', server.url()) as view:
            self.page.open(view.url + '#0/300/200')
            self.page.wait()
            self.check_screen(wholes[0])
            now[0] = 1
            told = self.page.wait(also=lambda told: told['tag'] == '"1"')
            self.assertIn('was replaced', told['noticeWords'])
            self.assertEqual(self.page.link(), [0, 600, 400])
            self.check_screen(wholes[1])
        self.no_errors()

    def test_ended(self):
        """Where the viewer has ended, the page says so."""
        with View('--seconds', '0.3', EXAMPLE) as view:
            self.page.open(view.url)
            self.page.wait()
        told = self.page.wait(state='error')
        self.assertEqual(told['noticeWords'], 'The viewer has ended: start it again.')


@unittest.skipUnless(os.path.isdir(LEAFLET), 'libjs-leaflet is missing')
class Others(InBrowser):
    """Another page shows tiles by Leaflet, as docs/leaflet.html does, where its origin is allowed."""

    def test_leaflet(self):
        folder = os.path.join(FOLDER, 'pages')
        os.makedirs(folder, exist_ok=True)
        if not os.path.exists(os.path.join(folder, 'leaflet')):
            os.symlink(LEAFLET, os.path.join(folder, 'leaflet'))
        pages = http.server.ThreadingHTTPServer(('127.0.0.1', 0), type('Pages', (http.server.SimpleHTTPRequestHandler,), {
            'log_message': lambda *_: None, '__init__': lambda self, *words: http.server.SimpleHTTPRequestHandler.__init__(
                self, *words, directory=folder)}))
        threading.Thread(target=pages.serve_forever, daemon=True).start()
        origin = f'http://127.0.0.1:{pages.server_port}'
        path = ten_files()['metres']
        for words in ['--allow-origin', origin], []:
            with View(*words, path) as view, open(os.path.join(TOP, 'docs/leaflet.html')) as example:
                text = example.read().replace('http://127.0.0.1:8765', view.url[:-1]).replace('a.tif', 'metres.tif')
                with open(os.path.join(folder, 'map.html'), 'w') as file:
                    file.write(text)
                self.driver.get(origin + '/map.html')
                if words:
                    self.check_map(path)
                else:
                    time.sleep(2)
                    self.assertEqual(self.page.script('return document.querySelectorAll(".leaflet-tile-loaded").length'), 0)
                    self.assertTrue(any('CORS' in message for message in self.page.errors()))
        pages.shutdown()
        pages.server_close()

    def check_map(self, path):
        """The map at its largest zoom shows level 0, pixel by pixel, as far as its controls leave it free."""
        deadline = time.monotonic() + 20
        while time.monotonic() < deadline and not self.page.script('''const tiles = [...document.querySelectorAll('.leaflet-tile')];
                return tiles.length > 0 && tiles.every(tile => tile.classList.contains('leaflet-tile-loaded') && getComputedStyle(tile).opacity === '1')'''):
            time.sleep(0.1)
        time.sleep(0.5)
        box = self.page.script('''const box = document.querySelector('.leaflet-tile[src*="/0/1/1.png"]').getBoundingClientRect();
            return [box.left, box.top, box.width, box.height]''')
        left, top = map(round, box[:2])
        self.assertEqual(box[2:], [256, 256])
        shot = picture(self.driver.get_screenshot_as_png())[top:top + 256, left:left + 256]
        wanted = numpy.repeat(whole_of(path)[256:512, 256:512, None], 3, 2)[:shot.shape[0], :shot.shape[1]]
        self.assertEqual(shot.shape, wanted.shape)
        self.assertEqual(int((shot != wanted).sum()), 0)
        self.no_errors()
