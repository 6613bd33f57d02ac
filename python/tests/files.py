"""Ten files of different forms, their windows, and what rasterio reads of them."""
import functools
import os
import random
import struct
import subprocess

import numpy
from support import EXAMPLE, FOLDER

TRANSLATE = ['gdal_translate', '-q', '-r', 'cubic']
PLAIN = ['-of', 'COG', '-co', 'COMPRESS=NONE']
PACKED = ['-of', 'GTiff', '-co', 'TILED=YES', '-co', 'COMPRESS=PACKBITS']
WIDE = ['-ot', 'UInt16', '-scale', '0', '255', '0', '65535']
WIDE_RGB = ['-ot', 'UInt16', *(word for band in '123' for word in (f'-scale_{band}', '0', '255', '0', '65535'))]
FORMS = {
    'grey': [*PLAIN, '-outsize', '1500', '1100'],
    'rgb': [*PLAIN, '-outsize', '900', '1300'],
    'wide': [*PLAIN, *WIDE, '-outsize', '1200', '700'],
    'wide-rgb': [*PLAIN, *WIDE_RGB, '-co', 'BLOCKSIZE=128', '-outsize', '601', '399'],
    'packed': [*PACKED, '-outsize', '800', '800'],
    'packed-rgb': [*PACKED, '-outsize', '500', '777'],
    'packed-wide': [*PACKED, *WIDE, '-co', 'BLOCKXSIZE=64', '-co', 'BLOCKYSIZE=128', '-outsize', '333', '444'],
    'big-endian': ['-of', 'GTiff', '-co', 'TILED=YES', '-co', 'ENDIANNESS=BIG', *WIDE, '-outsize', '450', '450'],
    'metres': [*PLAIN, '-a_srs', 'EPSG:32648', '-a_ullr', '400000', '5400000', '460000', '5340000', '-outsize', '1024', '1024'],
    'turned': ['-of', 'GTiff', '-co', 'TILED=YES', '-outsize', '256', '256'],
}


def base(count, samples, profile):
    """A file of so many bands, that of docs/ in other sides and with other noise in each."""
    import rasterio
    from rasterio.transform import Affine
    path = os.path.join(FOLDER, f'base-{count}.tif')
    noise = numpy.random.default_rng(1)
    with rasterio.open(path, 'w', driver='GTiff', width=640, height=640, count=count, dtype='uint8', crs=profile['crs'],
                       transform=profile['transform'] * Affine.scale(0.1), interleave='pixel',
                       photometric='rgb' if count == 3 else 'minisblack') as out:
        for band in range(count):
            large = numpy.kron(samples, numpy.ones((10, 10)))
            out.write((large * 0.9 + noise.integers(0, 20, (640, 640))).astype('uint8'), band + 1)
    return path


@functools.lru_cache(None)
def ten_files():
    """Ten files of different forms by their names."""
    import rasterio
    from rasterio.transform import Affine
    with rasterio.open(EXAMPLE) as source:
        samples, profile = source.read(1), source.profile
    grey, colours = base(1, samples, profile), base(3, samples, profile)
    files = {}
    for name, words in FORMS.items():
        files[name] = os.path.join(FOLDER, name + '.tif')
        subprocess.run([*TRANSLATE, *words, colours if 'rgb' in name else grey, files[name]], check=True, stderr=subprocess.DEVNULL)
    with rasterio.open(files['turned'], 'r+') as file:
        file.transform = Affine.translation(500, 600) * Affine.rotation(30) * Affine.scale(2, -3)
    return files


def windows_of(sides, count, seed):
    """Windows of a level, at its corners and at random."""
    width, height = sides
    yield 0, 0, width, height
    yield width - 1, height - 1, 1, 1
    source = random.Random(seed)
    for _ in range(count):
        w, h = source.randint(1, min(width, 300)), source.randint(1, min(height, 300))
        yield source.randint(0, width - w), source.randint(0, height - h), w, h


def as_rasterio(path, level, window):
    import rasterio
    from rasterio.windows import Window
    with rasterio.open(path, **({'overview_level': level - 1} if level else {})) as file:
        read = file.read(window=Window(*window))
    return read[0] if len(read) == 1 else read.transpose(1, 2, 0)


def plain(samples, side=128):
    """The bytes of a file of one level that has these samples in plain tiles, at least two."""
    height, width = samples.shape
    rows, columns = -(-height // side), -(-width // side)
    whole = numpy.zeros((rows * side, columns * side), 'uint8')
    whole[:height, :width] = samples
    tiles = whole.reshape(rows, side, columns, side).swapaxes(1, 2).tobytes()
    count, arrays = rows * columns, 8 + 2 + 12 * 10 + 4
    first = arrays + 8 * count
    entries = [(256, 3, 1, width), (257, 3, 1, height), (258, 3, 1, 8), (259, 3, 1, 1), (262, 3, 1, 1), (277, 3, 1, 1), (322, 3, 1, side),
               (323, 3, 1, side), (324, 4, count, arrays), (325, 4, count, arrays + 4 * count)]
    places = [first + side * side * tile for tile in range(count)]
    return b''.join([struct.pack('<2sHIH', b'II', 42, 8, len(entries)), *(struct.pack('<HHII', *entry) for entry in entries), bytes(4),
                     struct.pack(f'<{2 * count}I', *places, *[side * side] * count), tiles])


def noise(side, seed=1):
    """A square of samples that are all different from their neighbours, as far as chance goes."""
    return numpy.random.default_rng(seed).integers(0, 256, (side, side), 'uint8')
