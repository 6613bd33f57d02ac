"""A headless Chromium, and a viewer in a process of its own."""
import os
import subprocess
import sys
import time
import unittest

import delgunsai
import numpy
from selenium import webdriver
from selenium.webdriver.chrome.service import Service

from files import as_rasterio
from support import FOLDER

PACKAGE = os.path.dirname(os.path.dirname(delgunsai.__file__))
OPTIONS = ('--headless=new', '--no-sandbox', '--disable-gpu', '--hide-scrollbars', '--force-device-scale-factor=1', '--window-size=1000,800',
           '--force-color-profile=srgb', '--disable-background-networking')
PATIENCE = 30


def chromium():
    """A browser; as root it wants no sandbox."""
    options = webdriver.ChromeOptions()
    options.binary_location = '/usr/bin/chromium'
    for word in OPTIONS:
        options.add_argument(word)
    options.set_capability('goog:loggingPrefs', {'browser': 'ALL'})
    return webdriver.Chrome(service=Service('/usr/bin/chromedriver'), options=options)


class View:
    """The program, and where its page is."""

    def __init__(self, *words):
        self.process = subprocess.Popen([sys.executable, '-m', 'delgunsai', 'view', '--no-browser', *words], stdout=subprocess.PIPE, text=True,
                                        cwd=FOLDER, env={**os.environ, 'PYTHONPATH': PACKAGE})
        self.url = self.process.stdout.readline().split()[-1]

    def __enter__(self):
        return self

    def __exit__(self, *_):
        self.process.kill()
        self.process.communicate()


class Page:
    """The viewer's page in a browser."""

    def __init__(self, driver):
        self.driver = driver

    def open(self, url):
        self.driver.get('about:blank')
        self.driver.get(url)

    def script(self, text, *words):
        return self.driver.execute_script(text, *words)

    def panel(self, number=0):
        """What the page says of a file: its tag, its state, its level, and where its canvas is."""
        return self.script('''const root = document.querySelectorAll('.panel')[arguments[0]];
            if (!root) return null;
            const box = root.querySelector('canvas').getBoundingClientRect(), words = {};
            for (const name of ['place', 'tag', 'level', 'pixel', 'map', 'value', 'notice'])
                words[name + 'Words'] = root.querySelector('.' + name).textContent;
            return {...root.dataset, ...words, box: [box.left, box.top, box.width, box.height],
                    isNotice: !root.querySelector('.notice').hidden};''', number)

    def wait(self, number=0, state='ready', also=lambda told: True):
        """What the page says once it is in this state."""
        deadline = time.monotonic() + PATIENCE
        while time.monotonic() < deadline:
            told = self.panel(number)
            if told is not None and told['state'] == state and also(told):
                return told
            time.sleep(0.02)
        raise AssertionError(f'not {state}: {self.panel(number)}')

    def screenshot(self, number=0):
        """The samples of the canvas on a screenshot, (rows, columns, 3)."""
        left, top, width, height = (int(side) for side in self.panel(number)['box'])
        return picture(self.driver.get_screenshot_as_png())[top:top + height, left:left + width]

    def mouse(self, kind, x, y, **more):
        self.driver.execute_cdp_cmd('Input.dispatchMouseEvent', {'type': kind, 'x': x, 'y': y, **more})

    def touch(self, kind, *points):
        self.driver.execute_cdp_cmd('Input.dispatchTouchEvent', {'type': kind, 'touchPoints': [{'x': x, 'y': y, 'id': number}
                                                                                              for number, (x, y) in enumerate(points)]})

    def key(self, name):
        for kind in 'keyDown', 'keyUp':
            more = {'text': name} if kind == 'keyDown' and len(name) == 1 else {}
            self.driver.execute_cdp_cmd('Input.dispatchKeyEvent', {'type': kind, 'key': name, **more})

    def link(self):
        """The level and the place of the link in the address."""
        return [int(part) for part in self.driver.current_url.split('#')[1].split('/')]

    def errors(self):
        """What the browser complained of, but for what it couldn't load: a status says why, or the viewer has ended."""
        messages = [entry['message'] for entry in self.driver.get_log('browser')]
        return [message for message in messages if 'Failed to load resource' not in message]


def picture(png):
    """The samples of a PNG file of three or four bands, the first three of them."""
    from rasterio.io import MemoryFile
    with MemoryFile(png) as memory, memory.open(driver='PNG') as source:
        return source.read().transpose(1, 2, 0)[..., :3]


def expected(whole, link, sides, back=(20, 23, 28)):
    """What a canvas of these sides (width, height) shows of a level whose samples these are, with the link's pixel in the middle. Where a
    link's level is negative, each pixel is a square of 2, 4, .. on a side."""
    level, x, y = link
    factor = 2 ** max(0, -level)
    if whole.ndim == 2:
        whole = numpy.repeat(whole[..., None], 3, 2)
    large = numpy.kron(whole, numpy.ones((factor, factor, 1), 'u1'))
    width, height = map(int, sides)
    left, top = x * factor - width // 2, y * factor - height // 2
    screen = numpy.empty((height, width, 3), 'u1')
    screen[:] = back
    right, bottom = min(left + width, large.shape[1]), min(top + height, large.shape[0])
    screen[max(0, -top):bottom - top, max(0, -left):right - left] = large[max(0, top):bottom, max(0, left):right]
    return screen


def whole_of(path, level=0):
    """What rasterio reads of a level."""
    import rasterio
    with rasterio.open(path, **({'overview_level': level - 1} if level else {})) as source:
        return as_rasterio(path, level, (0, 0, source.width, source.height))


class InBrowser(unittest.TestCase):
    @classmethod
    def setUpClass(cls):
        cls.driver = chromium()
        cls.page = Page(cls.driver)

    @classmethod
    def tearDownClass(cls):
        cls.driver.quit()

    def check_screen(self, whole, number=0, link=None):
        """The screen shows these samples of a level at the place of the link."""
        told = self.page.panel(number)
        shot = self.page.screenshot(number)
        wanted = expected(whole, link or self.page.link(), told['box'][2:])
        if told['isNotice']:
            shot, wanted = shot[60:], wanted[60:]          # a sentence stands above
        shot, wanted = shot[:-4], wanted[:-4]              # the bar of progress
        self.assertEqual(shot.shape, wanted.shape)
        self.assertEqual(int((shot != wanted).sum()), 0, (told, link))

    def no_errors(self):
        self.assertEqual(self.page.errors(), [])
