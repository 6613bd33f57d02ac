"""The examples of the README and of the docstrings."""
import contextlib
import doctest
import io
import os
import re
import unittest

import delgunsai
from delgunsai import _disk, _errors, _file, _info, _sources, _threads
from servers import Cogserve
from support import EXAMPLE, TOP


class Examples(unittest.TestCase):
    def test_readme(self):
        """The lines of the README print what stands behind them."""
        with open(os.path.join(TOP, 'README.md'), encoding='utf-8') as file:
            lines = re.search(r'```python\n(.*?)```', file.read(), re.DOTALL)[1]
        printed = io.StringIO()
        with Cogserve({'a.tif': EXAMPLE}) as server, contextlib.redirect_stdout(printed):
            exec(lines.replace('127.0.0.1:8080', f'127.0.0.1:{server.port}'), {})
        self.assertEqual(printed.getvalue().splitlines(), re.findall(r'print\(.*# (.*)', lines))

    def test_many_of_docs(self):
        """The lines of PYTHON.md that read many windows give them in order."""
        with open(os.path.join(TOP, 'docs', 'PYTHON.md'), encoding='utf-8') as file:
            lines = re.search(r'```python\n(with delgunsai.open\(url.*?)```', file.read(), re.DOTALL)[1]
        with Cogserve({'a.tif': EXAMPLE}) as server:
            names = {'delgunsai': delgunsai, 'url': server.url('a.tif')}
            exec(lines, names)
        with delgunsai.open_file(EXAMPLE) as file:
            whole = file.read(x=0, y=0, width=64, height=64)
        parts = [whole[y:y + 16, x:x + 16].tolist() for y in range(0, 64, 16) for x in range(0, 64, 16)]
        self.assertEqual([array.tolist() for array in names['arrays']], parts)

    def test_rasterio_of_docs(self):
        """The lines of PYTHON.md for those who know rasterio give what stands after them."""
        with open(os.path.join(TOP, 'docs', 'PYTHON.md'), encoding='utf-8') as file:
            lines = re.search(r'## For those who know rasterio.*?```python\n(.*?)```', file.read(), re.DOTALL)[1]
        names = {'delgunsai': delgunsai}
        exec(lines.replace('docs/example.tif', EXAMPLE), names)
        self.assertEqual([names[name].shape for name in 'abcd'], [(20, 20), (16, 32), (30, 32), (16, 16)])
        self.assertEqual(names['text'][:4], b'\x89PNG')
        with delgunsai.open_file(EXAMPLE) as file:
            for line in lines.splitlines():
                call, _, comment = line.strip().partition('  # ')
                if call in ('f.shape, f.dtype, f.count', 'f.index(106.045, 47.985)'):
                    self.assertTrue(comment.strip().startswith(repr(eval(call, {'f': file})).strip('()')) or
                                    comment.strip().startswith(repr(eval(call, {'f': file}))), line)
            self.assertEqual([round(number, 9) for number in file.xy(1, 4)], [106.045, 47.985])
            self.assertIn(repr(file.crs), lines)

    def test_leaflet_of_docs(self):
        """The lines of PYTHON.md for other pages are those of the example."""
        with open(os.path.join(TOP, 'docs', 'PYTHON.md'), encoding='utf-8') as file:
            lines = re.search(r'```html\n(.*?)```', file.read(), re.DOTALL)[1]
        with open(os.path.join(TOP, 'docs', 'leaflet.html'), encoding='utf-8') as file:
            self.assertIn(lines, file.read())

    def test_docstrings(self):
        with delgunsai.open_file(EXAMPLE) as file:
            for module in delgunsai, _disk, _errors, _file, _info, _sources, _threads:
                self.assertEqual(doctest.testmod(module, extraglobs={'f': file}).failed, 0)

    def test_example_of_docs(self):
        """The samples that the README prints."""
        with delgunsai.open_file(EXAMPLE) as file:
            self.assertEqual(file.levels, [(64, 64), (32, 32), (16, 16)])
            self.assertEqual(file.read(x=24, y=30, width=4, height=2).tolist(), [[216, 221, 226, 231], [217, 222, 227, 232]])
