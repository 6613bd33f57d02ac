"""What is read is what rasterio reads."""
import threading
import unittest

import delgunsai
import numpy
from files import as_rasterio, ten_files, windows_of
from servers import Cogserve, Cutting, Nginx
from support import EXAMPLE, FOLDER, RASTERIO, TLS, needs


class Equal(unittest.TestCase):
    """What is read is what rasterio reads."""

    def compare(self, file, path, seed, count):
        import rasterio
        self.assertEqual(len(file.levels), 1 + len(rasterio.open(path).overviews(1)))
        for level, sides in enumerate(file.levels):
            for window in windows_of(sides, count, seed + level):
                x, y, w, h = window
                got, wanted = file.read(x=x, y=y, width=w, height=h, level=level), as_rasterio(path, level, window)
                self.assertEqual((got.dtype, got.shape), (wanted.dtype, wanted.shape))
                self.assertTrue(numpy.array_equal(got, wanted), (path, level, window))

    def compare_info(self, file, path):
        import rasterio
        from rasterio.transform import Affine
        with rasterio.open(path) as source:
            info, transform = file.info, source.transform
            self.assertEqual(info.levels[0], (source.width, source.height))
            for level, sides in enumerate(info.levels[1:]):
                with rasterio.open(path, overview_level=level) as small:
                    self.assertEqual(sides, (small.width, small.height))
            if info.transform is not None:
                self.assertEqual(info.transform[0:2] + info.transform[3:6] + info.transform[7:8],
                                 (transform.a, transform.b, transform.c, transform.d, transform.e, transform.f))
                self.assertEqual(Affine(*info.transform[0:2], *info.transform[3:6], info.transform[7]), transform)
            else:
                self.assertEqual((info.scale[0], -info.scale[1]), (transform.a, transform.e))
                self.assertEqual(info.tiepoint, (0, 0, 0, transform.c, transform.f, 0))
                scale, tie = info.scale, info.tiepoint
                self.assertEqual(Affine(scale[0], 0, tie[3] - tie[0] * scale[0], 0, -scale[1], tie[4] + tie[1] * scale[1]), transform)
            self.assertIn(source.crs.to_epsg(), info.keys.values())
            self.assertEqual(info.keys[1024], 1 if source.crs.is_projected else 2)

    @needs(RASTERIO, 'rasterio with GDAL')
    def test_from_the_disk(self):
        for seed, (name, path) in enumerate(ten_files().items()):
            with self.subTest(name), delgunsai.open_file(path) as file:
                self.compare(file, path, seed, 20)
                self.compare_info(file, path)

    @needs(RASTERIO, 'rasterio with GDAL')
    def test_over_http(self):
        with Cogserve(ten_files()) as server:
            for seed, (name, path) in enumerate(ten_files().items()):
                with self.subTest(name), delgunsai.open(server.url(name)) as file:
                    self.compare(file, path, 100 + seed, 20)
                    self.compare_info(file, path)
                    self.assertEqual(file.tag, f'"1-{seed + 1}"')

    @needs(RASTERIO and TLS, 'rasterio with GDAL, nginx or openssl')
    def test_over_https(self):
        with Nginx(FOLDER) as server:
            for seed, (name, path) in enumerate(ten_files().items()):
                with self.subTest(name), delgunsai.open(server.url(name + '.tif'), context=server.context(), blocks=66) as file:
                    self.compare(file, path, 200 + seed, 20)
                    self.compare_info(file, path)
                    self.assertTrue(file.same())

    @needs(RASTERIO, 'rasterio with GDAL')
    def test_columns(self):
        path = ten_files()['grey']
        with delgunsai.open_file(path) as file:
            widths = [width for width, _ in file.levels]
            for columns in (1, 200, widths[-1], widths[-1] + 1, widths[0], widths[0] + 1):
                wanted = max((level for level, width in enumerate(widths) if width >= columns), default=0)
                got = file.read_columns(x=0, y=0, width=widths[0], height=file.levels[0][1], columns=columns)
                self.assertTrue(numpy.array_equal(got, as_rasterio(path, wanted, (0, 0, *file.levels[wanted]))), columns)

    def test_columns_before_rounding(self):
        """Columns are counted before a window is rounded outwards: 10 of 64 are 5 of 32, and 2.5 of 16, for which 3 are read."""
        with delgunsai.open_file(EXAMPLE) as file:
            for columns, sides in (2, (1, 3)), (3, (2, 5)), (5, (2, 5)), (6, (4, 10)), (11, (4, 10)):
                self.assertEqual(file.read_columns(x=0, y=0, width=10, height=4, columns=columns).shape, sides)

    @needs(RASTERIO, 'rasterio with GDAL')
    def test_two_at_once(self):
        names = ['grey', 'wide-rgb']
        with Cogserve(ten_files()) as server:
            opened = [delgunsai.open(server.url(name)) for name in names]
            for seed in range(10):
                for name, file in zip(names, opened):
                    for window in windows_of((300, 300), 3, seed):
                        x, y, w, h = window
                        got = file.read(x=x, y=y, width=w, height=h)
                        self.assertTrue(numpy.array_equal(got, as_rasterio(ten_files()[name], 0, window)))
            for file in opened:
                file.close()

    @needs(RASTERIO, 'rasterio with GDAL')
    def test_kept_connections(self):
        """A connection is kept; cogserve ends each after a hundred answers without a word, and nothing is lost by it. Where blocks leave the
        cache that a request ahead of its time had counted on, another one begins."""
        path = ten_files()['grey']
        with Cogserve(ten_files()) as server, Cutting(server.port) as passing, delgunsai.open(passing.url('grey'), blocks=66) as file:
            for x, y, w, h in windows_of((1500, 1100), 200, 5):
                self.assertTrue(numpy.array_equal(file.read(x=x, y=y, width=w, height=h), as_rasterio(path, 0, (x, y, w, h))))
            self.assertGreater(passing.requests, 100)
            self.assertLess(passing.connections, passing.requests // 20)
            passing.shutdown()

    @needs(RASTERIO, 'rasterio with GDAL')
    def test_requests_at_once(self):
        """What a window over many tiles needs is asked for at once, where a server answers so, and else one after another."""
        path = ten_files()['grey']
        for alone in False, True:
            with Cogserve(ten_files()) as server, Cutting(server.port, alone=alone) as passing, delgunsai.open(passing.url('grey')) as file:
                for level, (x, y, w, h) in (0, (0, 100, 256, 1000)), (0, (1024, 100, 256, 1000)), (1, (0, 0, 256, 550)):
                    got = file.read(x=x, y=y, width=w, height=h, level=level)
                    self.assertTrue(numpy.array_equal(got, as_rasterio(path, level, (x, y, w, h))))
                self.assertIn(passing.at_once, range(2, 10))
                self.assertEqual(passing.connections == 1, not alone)
                passing.at_once = 0
                file.read(x=600, y=0, width=256, height=1100)
                self.assertEqual(passing.at_once == 1, alone)
                passing.shutdown()

    @needs(RASTERIO, 'rasterio with GDAL')
    def test_threads(self):
        path = ten_files()['grey']
        windows = list(windows_of((1500, 1100), 40, 7))
        with Cogserve(ten_files()) as server, delgunsai.open(server.url('grey')) as file:
            wrong = []
            def read(part):
                for x, y, w, h in part:
                    if not numpy.array_equal(file.read(x=x, y=y, width=w, height=h), as_rasterio(path, 0, (x, y, w, h))):
                        wrong.append((x, y, w, h))
            threads = [threading.Thread(target=read, args=(windows[k::4],)) for k in range(4)]
            for thread in threads:
                thread.start()
            for thread in threads:
                thread.join()
            self.assertEqual(wrong, [])
