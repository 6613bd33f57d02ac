"""`File` for those who know rasterio: its names mean what they mean there, and its arrays are those of rasterio and numpy."""
import doctest
import importlib.util
import itertools
import os
import random
import shutil
import subprocess
import types
import unittest

import delgunsai
import numpy
from answers import served
from delgunsai import _ground, _png, _raster
from files import PLAIN, TRANSLATE, as_rasterio, noise, plain, ten_files, windows_of
from servers import Made
from support import EXAMPLE, FOLDER, HERE, RASTERIO, needs


def whole_of(path, level=0):
    """What rasterio reads of a level, with the samples of a pixel last."""
    import rasterio
    with rasterio.open(path, **({'overview_level': level - 1} if level else {})) as source:
        return as_rasterio(path, level, (0, 0, source.width, source.height))


def odd_files():
    """Files whose place on the ground is given otherwise: by middles of pixels, with a citation alone, and not at all."""
    paths = {name: os.path.join(FOLDER, f'odd-{name}.tif') for name in ('point', 'own', 'none')}
    words = {'point': ['-mo', 'AREA_OR_POINT=Point'],
             'own': ['-a_srs', '+proj=laea +lat_0=40 +lon_0=100 +datum=WGS84', '-a_ullr', '0', '6400', '6400', '0'],
             'none': ['-co', 'PROFILE=BASELINE']}
    for name, path in paths.items():
        form = ['-of', 'GTiff', '-co', 'TILED=YES'] if name == 'none' else PLAIN
        subprocess.run([*TRANSLATE, *form, *words[name], EXAMPLE, path], check=True, stderr=subprocess.DEVNULL)
        if os.path.exists(path + '.aux.xml'):
            os.remove(path + '.aux.xml')                   # where GDAL puts what the file may not have
    return paths


class Systems(unittest.TestCase):
    """Which keys name the coordinate reference system, and how, by the rules of docs/READING.md."""

    ROWS = [
        ({}, None),
        ({1025: 1}, None),
        ({2048: 4326}, (4326, '')),
        ({3072: 32648, 2048: 4326}, (32648, '')),
        ({3072: 32767, 2048: 4326}, None),
        ({3072: 0, 1026: b'own|'}, (None, 'own')),
        ({2048: 32767, 2049: b'GCS Name = base|Datum = D|'}, (None, 'base')),
        ({3072: 32648, 3073: b'UTM 48|', 2049: b'WGS 84|', 1026: b'all|'}, (32648, 'UTM 48')),
        ({3072: 32648, 2049: b'WGS 84|', 1026: b'PCS Name = UTM|x|'}, (32648, 'UTM')),
        ({2048: 4326, 2049: b'WGS 84|', 1026: b'all|'}, (4326, 'WGS 84')),
        ({2048: 4326, 1026: b'a\0b'}, (4326, 'a')),
        ({1026: b'\xff'}, (None, '\ufffd')),
    ]
    """Keys, and the code and the text of the system, if one is named."""

    def test_keys(self):
        for keys, wanted in self.ROWS:
            with self.subTest(keys):
                self.assertEqual(_ground.crs_of(types.SimpleNamespace(keys=keys)), wanted and _ground.Crs(*wanted))


@needs(RASTERIO, 'rasterio with GDAL')
class Ground(unittest.TestCase):
    """Shape, type, bounds, transform, coordinate reference system, and the way between pixels and map coordinates."""

    def test_alike(self):
        import rasterio
        for name, path in {**ten_files(), **odd_files()}.items():
            with self.subTest(name), rasterio.open(path) as source, delgunsai.open_file(path) as file:
                self.assertEqual((file.shape, file.count), (source.shape, source.count))
                self.assertEqual({str(file.dtype)}, set(source.dtypes))
                self.assertEqual(rasterio.Affine(*file.transform), source.transform)
                self.assertEqual(tuple(file.bounds), tuple(source.bounds))
                self.assertEqual(file.bounds._fields, source.bounds._fields)
                self.compare_crs(file.crs, source.crs)
                self.compare_places(file, source)

    def compare_crs(self, crs, wanted):
        import rasterio
        if wanted is None:
            self.assertIsNone(crs)
            return
        self.assertEqual(crs.epsg, wanted.to_epsg())
        if crs.epsg is not None:
            self.assertEqual(rasterio.crs.CRS.from_user_input(str(crs)), wanted)
            self.assertIn(f'"{crs.text}"', wanted.to_wkt())

    def compare_places(self, file, source):
        chance = random.Random(file.where)
        for _ in range(50):
            row, column = chance.uniform(-10, source.height + 10), chance.uniform(-10, source.width + 10)
            x, y = source.transform * (column, row)
            self.assertEqual(file.index(x, y), source.index(x, y))
            for one, other in zip(file.xy(int(row), int(column)), source.xy(int(row), int(column))):
                self.assertAlmostEqual(one, other, delta=1e-9 * max(1, abs(other)))

    def test_no_inverse(self):
        with self.assertRaisesRegex(ValueError, 'no inverse'):
            _ground.Transform(0, 0, 5, 0, 0, 5).place(1, 1)


@needs(RASTERIO, 'rasterio with GDAL')
class Reads(unittest.TestCase):
    """Arrays by bounds, by their shape, and by numpy's keys."""

    def test_bounds(self):
        import rasterio
        from rasterio.windows import Window
        for name, path in ten_files().items():
            with self.subTest(name), rasterio.open(path) as source, delgunsai.open_file(path) as file:
                for x, y, width, height in windows_of((source.width, source.height), 12, 3):
                    if name == 'turned':
                        continue
                    bounds = rasterio.windows.bounds(Window(x, y, width, height), source.transform)
                    wanted = as_rasterio(path, 0, (x, y, width, height))
                    self.assertTrue(numpy.array_equal(file.read(bounds=bounds), wanted), (x, y, width, height))

    def test_bounds_of_levels(self):
        path = ten_files()['metres']                       # 1024 by 1024 pixels from (400000, 5400000) to (460000, 5340000)
        size = 60000 / 1024
        with delgunsai.open_file(path) as file:
            for level in range(len(file.levels)):
                bounds = (400000 + 64 * size, 5400000 - 192 * size, 400000 + 320 * size, 5400000 - 32 * size)
                x, y, width, height = (number >> level for number in (64, 32, 256, 160))
                self.assertTrue(numpy.array_equal(file.read(bounds=bounds, level=level), as_rasterio(path, level, (x, y, width, height))))
            partly = (400000 + 64.5 * size, 5400000 - 65.5 * size, 400000 + 66.25 * size, 5400000 - 64.25 * size)
            self.assertTrue(numpy.array_equal(file.read(bounds=partly), as_rasterio(path, 0, (64, 64, 3, 2))))

    def test_bounds_turned(self):
        """Those of a turned image are of all pixels between the outermost corners."""
        with delgunsai.open_file(ten_files()['turned']) as file:
            corners = [file.transform.at(column, row) for column, row in ((100, 50), (140, 90))]
            across, down = zip(*corners)
            bounds = min(across), min(down), max(across), max(down)
            places = [file.transform.place(x, y) for x in bounds[::2] for y in bounds[1::2]]
            columns, rows = zip(*places)
            x, y = int(numpy.floor(min(columns))), int(numpy.floor(min(rows)))
            width, height = int(numpy.ceil(max(columns))) - x, int(numpy.ceil(max(rows))) - y
            wanted = as_rasterio(ten_files()['turned'], 0, (x, y, width, height))
            self.assertTrue(numpy.array_equal(file.read(bounds=bounds), wanted))

    def test_bounds_outside(self):
        with delgunsai.open_file(ten_files()['metres']) as file:
            for bounds, words in ((399000, 5390000, 410000, 5395000), 'pass a side'), ((410000, 5390000, 410000, 5395000), 'no pixel'), (
                    (float('nan'), 0, 1, 1), 'finite'), ((500000, 0, 600000, 1), 'pass a side'):
                with self.assertRaisesRegex(ValueError, words):
                    file.read(bounds=bounds)

    def test_shapes(self):
        """Each sample is the one in which the middle of its pixel lies, of the smallest level that has enough of them."""
        for name, path in ten_files().items():
            with self.subTest(name), delgunsai.open_file(path) as file:
                wholes = [whole_of(path, level) for level in range(len(file.levels))]
                for rows, columns in (1, 1), (7, 9), (100, 90), file.shape, (file.shape[0] + 5, 2 * file.shape[1]), file.levels[-1][::-1]:
                    level = max((k for k, whole in enumerate(wholes) if whole.shape[0] >= rows and whole.shape[1] >= columns), default=0)
                    high, wide = wholes[level].shape[:2]
                    down = [int((row + 0.5) * high / rows) for row in range(rows)]
                    across = [int((column + 0.5) * wide / columns) for column in range(columns)]
                    got = file.read(out_shape=(rows, columns))
                    self.assertTrue(numpy.array_equal(got, wholes[level][numpy.ix_(down, across)]), (rows, columns))

    def test_shapes_as_rasterio(self):
        """Where a level is half as large as the one before, it is what rasterio takes, nearest without words."""
        import rasterio
        for name in 'metres', 'grey', 'wide':
            path = ten_files()[name]
            with self.subTest(name), rasterio.open(path) as source, delgunsai.open_file(path) as file:
                for shape in [sides[::-1] for sides in file.levels]:
                    self.assertTrue(numpy.array_equal(file.read(out_shape=shape), source.read(1, out_shape=shape)), shape)

    def test_shape_of_a_window(self):
        import rasterio
        from rasterio.windows import Window
        path = ten_files()['metres']
        with rasterio.open(path) as source, delgunsai.open_file(path) as file:
            for (x, y, width, height), shape in ((0, 0, 512, 512), (256, 256)), ((128, 256, 256, 512), (64, 32)), ((3, 5, 40, 30), (60, 80)):
                wanted = source.read(1, window=Window(x, y, width, height), out_shape=shape)
                self.assertTrue(numpy.array_equal(file.read(x=x, y=y, width=width, height=height, out_shape=shape), wanted), shape)
                bounds = rasterio.windows.bounds(Window(x, y, width, height), source.transform)
                self.assertTrue(numpy.array_equal(file.read(bounds=bounds, out_shape=shape), wanted), shape)

    def test_keys(self):
        """Each key gives what it gives of the array of the whole image."""
        slices = [slice(None), slice(3, 40), slice(-40, -3), slice(None, None, 7), slice(50, 3, -6), slice(None, None, -1), slice(9, 9),
                  slice(5000), slice(300, 9999, 100), 0, 17, -1, -200, numpy.int64(5)]
        for name in 'packed-rgb', 'packed-wide', 'wide-rgb':
            whole = whole_of(ten_files()[name])
            more = [(3, slice(None), 2), (slice(4), 5, slice(None, 2)), (Ellipsis, 1)] if whole.ndim == 3 else [(Ellipsis, 1)]
            keys = [*itertools.product(slices, slices), *slices, Ellipsis, (Ellipsis, slice(7)), (slice(7), Ellipsis), (), *more]
            with self.subTest(name), delgunsai.open_file(ten_files()[name]) as file:
                for key in keys:
                    got, wanted = file[key], whole[key]
                    self.assertEqual((got.shape, got.dtype), (wanted.shape, wanted.dtype), key)
                    self.assertTrue(numpy.array_equal(got, wanted), key)

    def test_wrong_keys(self):
        with delgunsai.open_file(EXAMPLE) as file:
            whole = whole_of(EXAMPLE)
            for key in 64, -65, (0, 64), (0, 0, 0), (Ellipsis, Ellipsis):
                for array in file, whole:
                    self.assertRaises(IndexError, array.__getitem__, key)
            for key in 1.5, 'a', None, True, [1, 2], (0, None):
                self.assertRaises(TypeError, file.__getitem__, key)
            self.assertRaises(TypeError, iter, file)

    def test_large(self):
        """A window of more samples than one query takes is read in pieces."""
        samples = noise(2600)
        path = os.path.join(FOLDER, 'large.tif')
        with open(path, 'wb') as out:
            out.write(plain(samples))
        with delgunsai.open_file(path) as file:
            self.assertTrue(numpy.array_equal(file[...], samples))
            self.assertTrue(numpy.array_equal(file.read(), samples))
            self.assertTrue(numpy.array_equal(file[::13, ::-7], samples[::13, ::-7]))
            self.assertRaises(delgunsai.TooLarge, file.read, x=0, y=0, width=2600, height=2600)

    def test_refused(self):
        with delgunsai.open_file(EXAMPLE) as file:
            for words in {'x': 1, 'y': 1}, {'x': 1, 'out_shape': (1, 1)}, {'level': 1, 'out_shape': (1, 1)}, {'level': None}, {
                    'x': 0, 'y': 0, 'width': 1, 'height': 1, 'bounds': file.bounds}, {'level': 1.5}, {'out_shape': (1.5, 2)}:
                self.assertRaises(TypeError, file.read, **words)
            for words in {'level': 3}, {'level': -1}, {'out_shape': (0, 4)}, {'out_shape': (1, 2, 3)}, {'bounds': (1, 2, 3)}:
                self.assertRaises(ValueError, file.read, **words)
            self.assertRaises(delgunsai.Outside, file.read, x=60, y=0, width=5, height=1, out_shape=(1, 5))
        self.assertRaises(ValueError, lambda: file.shape)


class Changes(unittest.TestCase):
    """A file that is replaced between its info and its samples is read anew."""

    def test_replaced(self):
        """The files have other sides, so that what is asked of the one is outside of, or another part of, the other."""
        texts = [plain(noise(200)), plain(noise(600, seed=2))]
        now = [0]

        def answer(request, number):
            if number % 5 == 0 and number <= 30:
                now[0] += 1
            return served(request, texts[now[0] % 2], b'"%d"' % (now[0] % 2))
        with Made(answer) as server:
            wholes = [noise(200), noise(600, seed=2)]
            for _ in range(20):
                with delgunsai.open(server.url()) as file:
                    for read, cut in (lambda: file[-100:, -100:], lambda whole: whole[-100:, -100:]), (
                            lambda: file.read(out_shape=(50, 40)), None), (lambda: file.read(), lambda whole: whole):
                        try:
                            got = read()
                        except delgunsai.Lost as error:
                            self.assertIn('was replaced', str(error))
                            continue
                        if cut is not None:
                            self.assertTrue(any(numpy.array_equal(got, cut(whole)) for whole in wholes))
            self.assertGreater(now[0], 4)


@needs(importlib.util.find_spec('rasterio') is not None, 'rasterio')
class Pictures(unittest.TestCase):
    """PNG files, as GDAL reads them."""

    def of_png(self, text):
        from rasterio.io import MemoryFile
        with MemoryFile(text) as memory, memory.open(driver='PNG') as source:
            read = source.read()
        return read[0] if len(read) == 1 else read.transpose(1, 2, 0)

    def test_samples(self):
        chance = numpy.random.default_rng(5)
        for shape, kind in itertools.product([(1, 1), (3, 7), (256, 256), (5, 4, 3)], ['u1', 'u2']):
            samples = chance.integers(0, 256 ** numpy.dtype(kind).itemsize, shape).astype(kind)
            self.assertTrue(numpy.array_equal(self.of_png(_png.png(samples)), samples), (shape, kind))

    @needs(RASTERIO, 'rasterio with GDAL')
    def test_files(self):
        for name, path in ten_files().items():
            with self.subTest(name), delgunsai.open_file(path) as file:
                whole = whole_of(path)
                last = whole_of(path, len(file.levels) - 1)
                part = whole[10:100, 20:150]
                if part.dtype == 'uint16':
                    low, high = numpy.percentile(last, (2, 98))
                    part = numpy.floor(numpy.clip((part - low) / (high - low), 0, 1) * 255 + 0.5).astype('u1')
                self.assertTrue(numpy.array_equal(self.of_png(file.png(x=20, y=10, width=130, height=90)), part))

    @needs(RASTERIO, 'rasterio with GDAL')
    def test_limits(self):
        path = ten_files()['grey']
        part = whole_of(path)[:50, :60].astype('f8')
        with delgunsai.open_file(path) as file:
            for low, high in (50, 200), (0, 255), (7.5, 8):
                wanted = numpy.floor(numpy.clip((part - low) / (high - low), 0, 1) * 255 + 0.5).astype('u1')
                self.assertTrue(numpy.array_equal(self.of_png(file.png(x=0, y=0, width=60, height=50, limits=(low, high))), wanted))
            self.assertTrue(numpy.array_equal(self.of_png(file.png(x=0, y=0, width=60, height=50, limits=(90, 90))), (part > 90) * 255))

    @needs(RASTERIO, 'rasterio with GDAL')
    def test_notebook(self):
        """The picture of a notebook is the whole image, with at most 512 pixels on a side."""
        with delgunsai.open_file(ten_files()['grey']) as file:       # 1500 by 1100
            self.assertEqual(self.of_png(file._repr_png_()).shape, (375, 512))
        self.assertIsNone(file._repr_png_())
        with delgunsai.open_file(EXAMPLE) as file:
            self.assertTrue(numpy.array_equal(self.of_png(file._repr_png_()), whole_of(EXAMPLE)))


class Words(unittest.TestCase):
    """The examples of the docstrings, and the types."""

    def test_docstrings(self):
        with delgunsai.open_file(EXAMPLE) as file:
            tried = [doctest.testmod(module, extraglobs={'f': file}) for module in (_raster, _ground, _png)]
        self.assertEqual([result.failed for result in tried], [0, 0, 0])
        self.assertEqual([result.attempted for result in tried], [11, 3, 2])

    def test_old_name(self):
        info = delgunsai.Info('"1"', ((1, 1),), 0, {}, None, None, tuple(map(float, range(16))))
        self.assertIs(info.transform, info.model_transformation)

    @needs(shutil.which('mypy'), 'mypy')
    def test_types(self):
        package = os.path.join(os.path.dirname(HERE), 'delgunsai')
        done = subprocess.run(['mypy', '--strict', '--python-version', '3.9', '--cache-dir', os.path.join(FOLDER, 'mypy'), package],
                              capture_output=True, text=True)
        self.assertEqual(done.returncode, 0, done.stdout)
