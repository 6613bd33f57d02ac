"""A file that is replaced a thousand times while the viewer's page is open."""
import os
import random
import struct
import threading
import time
import urllib.request

import numpy
from browser import InBrowser, View
from servers import Cogserve
from support import FOLDER

SIDE = 768


def revision_text(number, side=SIDE):
    """A file of one level, RGB, each of whose pixels tells the number of the revision and its place."""
    rows, columns = numpy.mgrid[:side, :side]
    pixels = numpy.empty((side, side, 3), 'u1')
    pixels[..., 0], pixels[..., 1], pixels[..., 2] = number & 255, number >> 8, (rows * 7 + columns * 3) & 255
    tiles = pixels.reshape(side // 256, 256, side // 256, 256, 3).swapaxes(1, 2).tobytes()
    count, arrays = (side // 256) ** 2, 8 + 2 + 12 * 11 + 4
    bits = arrays + 8 * count
    first = bits + 6
    size = 256 * 256 * 3
    entries = [(256, 3, 1, side), (257, 3, 1, side), (258, 3, 3, bits), (259, 3, 1, 1), (262, 3, 1, 2), (277, 3, 1, 3), (284, 3, 1, 1),
               (322, 3, 1, 256), (323, 3, 1, 256), (324, 4, count, arrays), (325, 4, count, arrays + 4 * count)]
    places = [first + size * tile for tile in range(count)]
    return b''.join([struct.pack('<2sHIH', b'II', 42, 8, len(entries)), *(struct.pack('<HHII', *entry) for entry in entries), bytes(4),
                     struct.pack(f'<{2 * count}I', *places, *[size] * count), struct.pack('<3H', 8, 8, 8), tiles])


class Replaced(InBrowser):
    """A file that is replaced a thousand times while the page is open: each screenshot is of one revision."""
    COUNT = 1000
    PAUSE = 0.06

    def replace(self, path, name, port):
        """Replaces the file by renaming, asks cogserve for its tag each time, and notes of which revision that is."""
        for number in range(1, self.COUNT + 1):
            with open(path + '.new', 'wb') as file:
                file.write(revision_text(number))
            os.rename(path + '.new', path)
            request = urllib.request.Request(f'http://127.0.0.1:{port}/{name}', method='HEAD')
            with urllib.request.urlopen(request) as answer:
                self.tags[answer.headers['ETag']] = number
            self.replaced = number
            time.sleep(self.PAUSE)

    def revisions_of(self, shot, link):
        """The numbers of the revisions that the pixels of the image tell, where each has the third sample of its place."""
        height, width = shot.shape[:2]
        rows, columns = numpy.mgrid[:height, :width]
        rows, columns = rows + link[2] - height // 2, columns + link[1] - width // 2
        inside = (shot != (20, 23, 28)).any(2) & (rows >= 0) & (columns >= 0) & (rows < SIDE) & (columns < SIDE)
        inside[:60] = inside[-4:] = False                  # the sentence, and the bar of progress
        wrong = shot[..., 2] != (rows * 7 + columns * 3) % 256
        self.assertEqual(int((wrong & inside).sum()), 0)
        numbers = shot[..., 0].astype('i4') + 256 * shot[..., 1]
        return set(numpy.unique(numbers[inside]).tolist()), int(inside.sum())

    def test_thousand(self):
        path = os.path.join(FOLDER, 'replaced.tif')
        with open(path, 'wb') as file:
            file.write(revision_text(0))
        with Cogserve({'r': path}) as server, View('--seconds', '0.3', server.url('r')) as view:
            self.tags, self.replaced = {'"1-1"': 0}, 0
            self.page.open(f'{view.url}#0/{SIDE // 2}/{SIDE // 2}')
            self.page.wait()
            replacing = threading.Thread(target=self.replace, args=(path, 'r', server.port), daemon=True)
            replacing.start()
            shots = self.watch(replacing)
            self.ends(shots)
        self.no_errors()

    def watch(self, replacing):
        """Takes screenshots as long as the file is replaced, with the tags that the page tells before and after each."""
        shots = []
        while replacing.is_alive():
            before = self.page.panel()
            shot = self.page.screenshot()
            after = self.page.panel()
            numbers, pixels = self.revisions_of(shot, [0, SIDE // 2, SIDE // 2])
            self.assertLessEqual(len(numbers), 1, (before['tag'], after['tag']))
            if pixels and before['tag'] == after['tag']:
                self.assertEqual(numbers, {self.number_of(before['tag'])})
            elif pixels:
                self.assertTrue(self.number_of(before['tag']) <= min(numbers) <= self.number_of(after['tag']))
            shots.append((numbers, pixels, before['tag'] == after['tag']))
            time.sleep(random.uniform(0, 0.3))
        return shots

    def number_of(self, tag):
        """The number of the revision of a tag; cogserve may have told it to the viewer before the test."""
        deadline = time.monotonic() + 5
        while tag not in self.tags and time.monotonic() < deadline:
            time.sleep(0.01)
        return self.tags[tag]

    def ends(self, shots):
        """After the last replacement the page shows the last revision, and says that the file was replaced."""
        told = self.page.wait(also=lambda told: self.number_of(told['tag']) == self.COUNT)
        self.assertIn('The file was replaced, and is drawn anew', told['noticeWords'])
        numbers, pixels = self.revisions_of(self.page.screenshot(), [0, SIDE // 2, SIDE // 2])
        self.assertEqual(numbers, {self.COUNT})
        seen = set().union(*(numbers for numbers, _, _ in shots))
        drawn = [pixels for numbers, pixels, _ in shots if numbers]
        steady = sum(is_steady for _, _, is_steady in shots)
        print(f'\nweb: {self.replaced} replacements, {len(shots)} screenshots, {len(drawn)} with an image, {steady} of one tag before and '
              f'after, {len(seen)} revisions seen, the page drew {told["replaced"]} anew')
        self.assertGreaterEqual(len(drawn), 50)
        self.assertGreaterEqual(len(seen), 10)
